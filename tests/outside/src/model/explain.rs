//! Document 02's L1: what stood in the way of a MAP or a COPY. The call's own rules decide it; here its first failing check becomes a reason, with what the tool names.
use super::checks::{Answer, Check, COPY, EXPLAIN, EXPLAIN_COPY, EXPLAIN_MAP, MAP};
use super::commands::{self, landing, Landing};
use super::table::{Mapping, Range, Table, U64MAX};
use iommufd::raw::EXPLAIN_WORDS;

/// The codes, the rules of document 01 that each stands for, and what it is called.
const REASONS: [(&[&str], &str); 22] = [
    (&[], "0 Accepted"),
    (&["fewer than 4 bytes lent"], "1 NoSizeField"),
    (&["size field below the table's size"], "2 SizeTooSmall"),
    (&["size field above the bytes lent"], "3 SizePastBytes"),
    (&["a byte beyond the known size is not zero"], "4 TailNotZero"),
    (&["flags above bit 2 or reserved field not 0", "unknown flags"], "5 Flags"),
    (&["neither writeable nor readable"], "6 NoRight"),
    (&["length 0", "length over 2^40"], "7 WrongLength"),
    (&["memory + length - 1 past U64MAX"], "8 MemoryPasses"),
    (&["source address + length - 1 past U64MAX"], "9 SourcePasses"),
    (&["fixed and address + length - 1 past U64MAX", "fixed and target address + length - 1 past U64MAX"], "10 AddressPasses"),
    (&["no such space", "no target space"], "11 NoSpace"),
    (&["no source space"], "12 NoSourceSpace"),
    (&["no source mapping with exactly this address and length"], "13 NoSource"),
    (&["writeable asked where the founding MAP was not"], "14 NotWriteable"),
    (&["fixed: address not a multiple of the alignment", "fixed: address + length not a multiple of the alignment"], "15 Misaligned"),
    (&["fixed: touches reserved"], "16 TouchesReserved"),
    (&["fixed: touches a mapping of the space"], "17 TouchesMapping"),
    (&["not fixed: length not a multiple of the alignment"], "18 LengthMisaligned"),
    (&["not fixed: no candidate"], "19 NoPlace"),
    (&["no free mapping record"], "20 NoRecord"),
    (&["charge would pass the limit"], "21 OverLimit"),
];
const ACCEPTED: usize = 0;
const TOUCHES_RESERVED: usize = 16;
const TOUCHES_MAPPING: usize = 17;
const NO_PLACE: usize = 19;

/// The code of the reason that a refusal is. A rule that is none of them gets a code that is none, and the run tells it as not listed.
fn code(check: Check) -> usize {
    REASONS.iter().position(|(rules, _)| rules.contains(&check.rule)).unwrap_or(REASONS.len())
}

fn called(code: usize) -> &'static str {
    REASONS.get(code).map_or("a rule that is no reason", |(_, called)| called)
}

/// Writes the five words: the code, the errno, the object or mapping record that is named, start and length of the longest run.
pub fn explain(table: &Table, request: u32, bytes: &[u8], words: &mut [u64; EXPLAIN_WORDS]) -> Answer {
    let name = commands::name(request);
    EXPLAIN.refuse(name != MAP && name != COPY, 25, "another request than MAP and COPY")?;
    let (code, errno) = match commands::run(&mut table.clone(), request, &mut bytes.to_vec(), &mut []) {
        Ok(_) => (ACCEPTED, 0),
        Err(check) => (code(check), check.errno),
    };
    let (mut named, mut longest) = (0, None);
    match code {
        TOUCHES_RESERVED => named = lowest_object(table, landing(request, bytes)),
        TOUCHES_MAPPING => named = lowest_record(table, landing(request, bytes)),
        NO_PLACE => longest = longest_run(table, landing(request, bytes).space),
        _ => {}
    }
    let (start, length) = longest.map_or((0, 0), |run| (run.first, run.length()));
    *words = [code as u64, errno as u64, named, start as u64, length as u64];
    (if name == MAP { EXPLAIN_MAP } else { EXPLAIN_COPY }).done(called(code))
}

/// The objects that reserve an address of the range in the space, each with what it reserves.
fn reserving(table: &Table, at: Landing) -> impl Iterator<Item = (u64, &[Range])> {
    let objects = table.device_ids().filter(move |(_, device)| device.home == Some(at.space));
    objects.filter(move |(_, device)| device.reserved.iter().any(|range| range.touches(at.range))).map(|(id, device)| (id, &device.reserved[..]))
}

/// The mapping records of the space that have an address of the range.
fn mapped(table: &Table, at: Landing) -> impl Iterator<Item = (u64, &Mapping)> {
    table.records().filter(move |(_, mapping)| mapping.space == at.space && mapping.addresses().touches(at.range))
}

fn lowest_object(table: &Table, at: Landing) -> u64 {
    reserving(table, at).map(|(id, _)| id).min().unwrap_or(0)
}

fn lowest_record(table: &Table, at: Landing) -> u64 {
    mapped(table, at).map(|(number, _)| number).min().unwrap_or(0)
}

/// The runs of addresses that start at a multiple of the alignment, touch no reserved range and no mapping, and lie inside one allowed range where a list exists; of
/// those in one another the one that starts lowest and ends highest. Ascending.
fn runs(table: &Table, space: u32) -> Vec<Range> {
    let alignment = table.alignment(space);
    let mut blocked = table.reserved(space);
    blocked.extend(table.mappings_of(space).map(Mapping::addresses));
    let everything = [Range { first: 0, last: U64MAX }];
    let allowed = table.allow_list(space).filter(|list| !list.is_empty()).unwrap_or(&everything);

    let mut runs = Vec::new();
    for window in allowed {
        // It starts at the first multiple of its window, or at the first behind a blocked range,
        let mut starts = vec![window.first.next_multiple_of(alignment)];
        starts.extend(blocked.iter().map(|range| (range.last + 1).next_multiple_of(alignment)));
        starts.retain(|start| Range::new(*start, 1).is_inside(*window) && !blocked.iter().any(|range| range.touches(Range::new(*start, 1))));
        // and ends before the next blocked range or with the window.
        runs.extend(starts.into_iter().map(|start| {
            let before_blocked = blocked.iter().filter(|range| range.first > start).map(|range| range.first - 1);
            Range { first: start, last: before_blocked.fold(window.last, u128::min) }
        }));
    }
    runs.sort_unstable_by_key(|run| run.first);
    // Two blocked ranges may end below one multiple.
    runs.dedup();
    runs
}

/// The longest run, the lowest of equals.
fn longest_run(table: &Table, space: u32) -> Option<Range> {
    let runs = runs(table, space);
    let most = runs.iter().map(|run| run.length()).max()?;
    runs.into_iter().find(|run| run.length() == most)
}

// ---- what is worth to be met of an explanation

type Kind = (&'static str, fn(&Told) -> bool);

/// A run that was told, and what lies around it.
struct Told<'a> {
    table: &'a Table,
    space: u32,
    runs: Vec<Range>,
    run: Range,
}

impl Told<'_> {
    fn behind(&self) -> Range {
        Range::new(self.run.last + 1, 1)
    }

    fn is_reserved(&self, at: Range) -> bool {
        self.table.reserved(self.space).iter().any(|range| range.touches(at))
    }

    fn is_mapped(&self, at: Range) -> bool {
        self.table.mappings_of(self.space).any(|mapping| mapping.addresses().touches(at))
    }

    fn is_free(&self, at: Range) -> bool {
        !self.is_reserved(at) && !self.is_mapped(at)
    }

    fn list(&self) -> &[Range] {
        self.table.allow_list(self.space).unwrap_or(&[])
    }

    fn gap(&self) -> bool {
        let before = self.run.first.checked_sub(1).map(|first| Range::new(first, 1));
        let inside = |at: Range| self.list().is_empty() || self.list().iter().any(|range| at.is_inside(*range) && self.run.is_inside(*range));
        before.is_some_and(|at| self.is_free(at) && inside(at))
    }
}

const NONE: &str = "run: none";
const NOT_FIRST_RECORD: &str = "named: the lowest record, not the one with the lowest address";
const NOT_FIRST_OBJECT: &str = "named: the lowest object, not the one with the lowest address";

const KINDS: &[Kind] = &[
    ("run: two of the longest, the lower told", |told| told.runs.iter().filter(|run| run.length() == told.run.length()).count() > 1),
    ("run: not the lowest of all", |told| told.runs[0] != told.run),
    ("run: ended by an allowed range alone", |told| !told.list().is_empty() && told.run.last < U64MAX && told.is_free(told.behind())),
    ("run: ended by a neighbour of its allowed range", |told| told.list().iter().any(|range| range.first == told.run.last + 1)),
    ("run: ended by a reserved range", |told| told.list().is_empty() && told.is_reserved(told.behind())),
    ("run: ended by a mapping", |told| told.is_mapped(told.behind())),
    ("run: up to the last address", |told| told.run.last == U64MAX),
    ("run: ends off the alignment", |told| !(told.run.last + 1).is_multiple_of(told.table.alignment(told.space))),
    ("run: starts above the first address that is free", |told| told.gap()),
];

/// The kinds of which every one has to be met in a whole set of sequences.
pub fn kinds() -> Vec<&'static str> {
    [NONE, NOT_FIRST_RECORD, NOT_FIRST_OBJECT].into_iter().chain(KINDS.iter().map(|(name, _)| *name)).collect()
}

/// Those of one explanation.
pub fn kinds_of(table: &Table, request: u32, bytes: &[u8], words: &[u64; EXPLAIN_WORDS]) -> Vec<&'static str> {
    let code = words[0] as usize;
    if ![TOUCHES_RESERVED, TOUCHES_MAPPING, NO_PLACE].contains(&code) {
        return vec![];
    }
    let at = landing(request, bytes);
    match code {
        TOUCHES_RESERVED => {
            let lowest = |ranges: &[Range]| ranges.iter().filter(|range| range.touches(at.range)).map(|range| range.first).min();
            let first = reserving(table, at).min_by_key(|(_, ranges)| lowest(ranges));
            first.filter(|(id, _)| *id != words[2]).map(|_| NOT_FIRST_OBJECT).into_iter().collect()
        }
        TOUCHES_MAPPING => {
            let first = mapped(table, at).min_by_key(|(_, mapping)| mapping.address);
            first.filter(|(number, _)| *number != words[2]).map(|_| NOT_FIRST_RECORD).into_iter().collect()
        }
        _ => {
            let Some(run) = longest_run(table, at.space) else { return vec![NONE] };
            let told = Told { table, space: at.space, runs: runs(table, at.space), run };
            KINDS.iter().filter(|(_, holds)| holds(&told)).map(|(name, _)| *name).collect()
        }
    }
}
