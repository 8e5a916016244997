//! What the plain program says of a MAP or a COPY that is refused, and a second opinion on the model: the tool once more, apart from it, with every check asked whether an
//! earlier one fails or not. It is slow and simple on purpose.
use super::is_bad;
use iommufd::raw::{Head, Mapping, EXPLAIN_WORDS};

const COPY: u32 = 0x3B83;
const MAP: u32 = 0x3B85;
const SPACE: u32 = 1;
const ATTACHED: u32 = 3;
/// One more than the last address.
const ALL: u128 = 1 << 64;

/// What the entry answers and writes.
pub fn explain(head: &Head, mappings: &[Mapping], index: &[u64], request: u32, bytes: &[u8], words: &mut [u64; EXPLAIN_WORDS]) -> i32 {
    if is_bad(head, mappings, index) {
        return -117;
    }
    if request != MAP && request != COPY {
        return -25;
    }
    *words = closed(bytes).unwrap_or_else(|| reason(&Table { head, mappings }, &Asked::read(request, bytes)));
    0
}

fn only(code: u64, errno: u64) -> [u64; EXPLAIN_WORDS] {
    [code, errno, 0, 0, 0]
}

/// What is wrong with the bytes as a whole, of which both commands have 40.
fn closed(bytes: &[u8]) -> Option<[u64; EXPLAIN_WORDS]> {
    let Some(first) = bytes.first_chunk::<4>() else { return Some(only(1, 14)) };
    let size = u32::from_le_bytes(*first) as usize;
    match size {
        0..40 => Some(only(2, 22)),
        _ if size > bytes.len() => Some(only(3, 14)),
        _ if bytes[40..size] != vec![0; size - 40] => Some(only(4, 7)),
        _ => None,
    }
}

/// The numbers of a MAP or a COPY. `from` is the memory or the source's address, `other` the reserved field or the source space.
struct Asked {
    copies: bool,
    flags: u32,
    space: u32,
    other: u32,
    from: u128,
    length: u128,
    address: u128,
}

impl Asked {
    fn read(request: u32, bytes: &[u8]) -> Asked {
        let small = |k: usize| u32::from_le_bytes(bytes[4 * k..4 * k + 4].try_into().unwrap());
        let large = |k: usize| u128::from(small(k)) + (u128::from(small(k + 1)) << 32);
        let (copies, flags, space, other) = (request == COPY, small(1), small(2), small(3));
        let (from, length, address) = if copies { (large(8), large(4), large(6)) } else { (large(4), large(6), large(8)) };
        Asked { copies, flags, space, other, from, length, address }
    }

    fn has(&self, bit: u32) -> bool {
        self.flags >> bit & 1 == 1
    }

    /// From an address on, and the address behind.
    fn at(&self, start: u128) -> (u128, u128) {
        (start, start + self.length)
    }
}

/// Addresses from the first on, up to the second and without it.
type Piece = (u128, u128);

fn meet(one: Piece, other: Piece) -> bool {
    one.0.max(other.0) < one.1.min(other.1)
}

struct Table<'a> {
    head: &'a Head,
    mappings: &'a [Mapping],
}

impl Table<'_> {
    fn is_space(&self, id: u32) -> bool {
        (1..=32).contains(&id) && self.head.objects[id as usize - 1].kind == SPACE
    }

    /// What is reserved in a space, with the id of who reserves it.
    fn reserved(&self, space: u32) -> Vec<(u64, Piece)> {
        let mut all = vec![];
        for (at, object) in self.head.objects.iter().enumerate() {
            for k in 0..object.reserved_count as usize {
                if object.kind == ATTACHED && object.home == space {
                    all.push((at as u64 + 1, (object.reserved_starts[k].into(), u128::from(object.reserved_lasts[k]) + 1)));
                }
            }
        }
        all
    }

    /// What is mapped in a space, with the numbers of the records.
    fn mapped(&self, space: u32) -> Vec<(u64, Piece)> {
        let numbered = (1..).zip(self.mappings).filter(|(_, mapping)| mapping.space == space && space != 0);
        numbered.map(|(number, mapping)| (number, (mapping.address.into(), u128::from(mapping.address) + u128::from(mapping.length)))).collect()
    }

    fn alignment(&self, space: u32) -> u128 {
        let mut alignment: u128 = 1;
        for object in self.head.objects.iter().filter(|object| object.kind == ATTACHED && object.home == space) {
            while !(0..=alignment.trailing_zeros()).any(|bit| object.bitmap >> bit & 1 == 1) {
                alignment *= 2;
            }
        }
        alignment
    }

    /// Where an automatic mapping of a space may lie at all.
    fn windows(&self, space: u32) -> Vec<Piece> {
        let object = &self.head.objects[space as usize - 1];
        let listed = (0..object.allow_count as usize).map(|k| (object.allow_starts[k].into(), u128::from(object.allow_lasts[k]) + 1));
        let listed: Vec<Piece> = listed.collect();
        if listed.is_empty() { vec![(0, ALL)] } else { listed }
    }

    /// What is left of the windows from the first multiple on, ascending.
    fn runs(&self, space: u32) -> Vec<Piece> {
        let mut pieces = self.windows(space);
        for (_, taken) in [self.reserved(space), self.mapped(space)].concat() {
            let before = pieces.iter().map(|piece| (piece.0, piece.1.min(taken.0)));
            let behind = pieces.iter().map(|piece| (piece.0.max(taken.1), piece.1));
            pieces = before.chain(behind).filter(|piece| piece.0 < piece.1).collect();
        }
        let alignment = self.alignment(space);
        let mut runs: Vec<Piece> = pieces.iter().map(|piece| (piece.0.div_ceil(alignment) * alignment, piece.1)).collect();
        runs.retain(|run| run.0 < run.1);
        runs.sort_unstable();
        runs
    }
}

fn pages(start: u128, length: u128) -> u128 {
    (start + length).div_ceil(4096) - start / 4096
}

fn charge(table: &Table) -> u128 {
    let mut backings: Vec<(u32, u128)> =
        table.mappings.iter().filter(|mapping| mapping.space != 0).map(|mapping| (mapping.backing, pages(mapping.memory.into(), mapping.length.into()))).collect();
    backings.sort_unstable();
    backings.dedup();
    backings.iter().map(|(_, pages)| pages).sum()
}

/// The lowest number of those that a range meets, 0 for none.
fn lowest_met(numbered: &[(u64, Piece)], asked: Piece) -> u64 {
    numbered.iter().filter(|(_, piece)| meet(*piece, asked)).map(|(number, _)| *number).min().unwrap_or(0)
}

/// The words for a command whose bytes are in order.
fn reason(table: &Table, asked: &Asked) -> [u64; EXPLAIN_WORDS] {
    let (fixed, writes, reads) = (asked.has(0), asked.has(1), asked.has(2));
    let early = [
        (asked.flags > 7 || (!asked.copies && asked.other != 0), 5, 95),
        (!writes && !reads, 6, 22),
        (asked.length == 0 || asked.length > 1 << 40, 7, 22),
        (!asked.copies && asked.at(asked.from).1 > ALL, 8, 75),
        (asked.copies && asked.at(asked.from).1 > ALL, 9, 75),
        (fixed && asked.at(asked.address).1 > ALL, 10, 75),
        (!table.is_space(asked.space), 11, 2),
    ];
    if let Some((_, code, errno)) = early.into_iter().find(|(fails, ..)| *fails) {
        return only(code, errno);
    }
    if asked.copies {
        let is_source = |mapping: &&Mapping| mapping.space == asked.other && (mapping.address.into(), mapping.length.into()) == (asked.from, asked.length);
        match table.mappings.iter().find(is_source) {
            _ if !table.is_space(asked.other) => return only(12, 2),
            None => return only(13, 2),
            Some(source) if writes && source.founder == 0 => return only(14, 1),
            Some(_) => {}
        }
    }
    let unit = table.alignment(asked.space);
    let whole = asked.at(asked.address);
    let object = lowest_met(&table.reserved(asked.space), whole);
    let record = lowest_met(&table.mapped(asked.space), whole);
    let is_full = table.mappings.iter().all(|mapping| mapping.space != 0);
    let runs = table.runs(asked.space);
    let longest = runs.iter().rev().max_by_key(|run| run.1 - run.0).map_or((0, 0), |run| (run.0 as u64, (run.1 - run.0) as u64));
    let late = [
        (fixed && (whole.0 % unit != 0 || whole.1 % unit != 0), only(15, 22)),
        (fixed && object != 0, [16, 22, object, 0, 0]),
        (fixed && record != 0, [17, 17, record, 0, 0]),
        (!fixed && asked.length % unit != 0, only(18, 22)),
        (!fixed && runs.iter().all(|run| run.1 - run.0 < asked.length), [19, 28, 0, longest.0, longest.1]),
        (is_full, only(20, 12)),
        (!asked.copies && charge(table) + pages(asked.from, asked.length) > table.head.limit.into(), only(21, 12)),
    ];
    late.into_iter().find(|(fails, _)| *fails).map_or(only(0, 0), |(_, words)| words)
}

#[cfg(test)]
mod tests {
    use super::*;
    use crate::boundary;
    use crate::calls::{Call, Lent};
    use crate::workloads::{table, Shape};
    use iommufd::raw::iommufd_explain;
    use std::ptr;

    fn map(flags: u32, length: u64, address: u64) -> Vec<u8> {
        let small = [40, flags, 1, 0].map(u32::to_le_bytes).concat();
        [small, [0, length, address].map(u64::to_le_bytes).concat()].concat()
    }

    fn told(lent: &Lent, request: u32, bytes: &[u8]) -> (i32, [u64; EXPLAIN_WORDS]) {
        let mut words = [9; EXPLAIN_WORDS];
        (explain(&lent.head, &lent.mappings, &lent.index, request, bytes, &mut words), words)
    }

    #[test]
    fn by_hand() {
        let lent = table(Shape::Ascending, 3);
        assert_eq!(told(&lent, MAP, &map(5, 0x1000, 0x5000)), (0, [17, 17, 2, 0, 0]));
        assert_eq!(told(&lent, MAP, &map(5, 0x1000, 0xFEE0_0000)), (0, [16, 22, 2, 0, 0]));
        assert_eq!(told(&lent, MAP, &map(4, 0x1000, 0)), (0, [0; 5]));
        assert_eq!(told(&lent, 0x3B86, &[]), (-25, [9; 5]));
        assert_eq!(told(&Lent { index: vec![0; 128], ..lent }, MAP, &[]), (-117, [9; 5]));
    }

    /// A part with nothing in it may lie nowhere.
    #[test]
    fn nothing_is_followed_where_nothing_is_lent() {
        let (lent, mut words) = (Lent::zeroed(), [9; EXPLAIN_WORDS]);
        // SAFETY: head and words are there, and nothing else is lent.
        let result = unsafe { iommufd_explain(&*lent.head, ptr::null(), 0, ptr::null(), 0, MAP, ptr::null(), 0, words.as_mut_ptr().cast()) };
        assert_eq!((result, words), (-117, [9; 5]));
    }

    /// What is asked through the entry is what is answered, by the archive and by the plain program.
    #[test]
    fn the_entry_is_bound() {
        let mut lent = table(Shape::Worn, 128);
        for bytes in [map(5, 0x1000, 0), map(4, 0x1000, 0), map(4, 0x1001, 0), map(12, 1, 0), vec![1]] {
            let mut call = Call::Explain { request: MAP, bytes: bytes.clone(), words: [9; EXPLAIN_WORDS] };
            let result = boundary::run(&mut lent, &mut call).result;
            let (expected, words) = told(&lent, MAP, &bytes);
            assert_eq!((result, call), (expected, Call::Explain { request: MAP, bytes, words }));
        }
    }
}
