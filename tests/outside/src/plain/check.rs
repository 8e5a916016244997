//! Whether a table is good, by the steps of the archive, and what is found on the way: one pass over the objects, one over the mapping records, one over
//! the index, which tells that no two mappings share an address, and one search of the index for each reserved range.
use super::range::{overlap, touch};
use super::table::{allowed, extent, is_mapped, page, pages, reserved, Index, Records};
use super::{ATTACHED, LOOSE, MAX_LENGTH, MAX_LIMIT, MAX_PAGE, READ, RECORDS, SPACE, WRITE};
use iommufd::raw::{Head, Mapping, Object};

/// What the check finds in a good table and hands on, so that no call works it out again.
pub struct Found {
    /// The pages of all backings, each counted once.
    pub charge: u64,
    /// Whether the check has looked for the lowest free records, the next two.
    pub looked: bool,
    /// The lowest free object record.
    pub object: Option<usize>,
    /// The lowest released mapping record.
    pub mapping: Option<usize>,
    /// The alignment of each space by its id, 0 where there is no such space.
    pub alignments: [u64; 33],
    /// By its number, one more than the place of a backing's first record, 0 where no record has the backing.
    pub marks: [u8; RECORDS + 1],
    /// How many mapping records are in use.
    pub used: usize,
}

impl Found {
    pub fn nothing() -> Found {
        Found { charge: 0, looked: false, object: None, mapping: None, alignments: [0; 33], marks: [0; RECORDS + 1], used: 0 }
    }
}

/// `found` comes with nothing in it, and is of use where the table is good. The passes are functions of their own: inlined into one they would take
/// each other's registers.
pub fn is_good(head: &Head, mappings: &Records, index: &Index, found: &mut Found) -> bool {
    head.limit <= MAX_LIMIT
        && objects_good(head, found)
        && records_good(mappings, found)
        && found.charge <= head.limit
        && index_good(mappings, index, found.used)
        && clear_of_reserved(head, mappings, &index[..found.used])
}

// ---- objects

/// Each object by its own rules and by the space that it names.
#[inline(never)]
fn objects_good(head: &Head, found: &mut Found) -> bool {
    let mut free = head.objects.len();
    for (place, o) in head.objects.iter().enumerate() {
        if is_released(o) {
            free = free.min(place);
        } else if !held_good(head, place, &mut found.alignments) {
            return false;
        }
    }
    found.object = (free < head.objects.len()).then_some(free);
    true
}

/// An object record that holds something. Apart from the loop, which most often finds a released one.
#[inline(never)]
fn held_good(head: &Head, place: usize, alignments: &mut [u64; 33]) -> bool {
    let o = &head.objects[place];
    match o.kind {
        SPACE if space_good(o) => raise(&mut alignments[place + 1], 1),
        LOOSE if o.home == 0 && device_good(o) => {}
        ATTACHED if device_good(o) && home_good(head, o) => raise(&mut alignments[o.home as usize], page(o.bitmap)),
        _ => return false,
    }
    true
}

fn raise(alignment: &mut u64, to: u64) {
    *alignment = to.max(*alignment);
}

/// The bits of all places joined, so that there is one test for all of them.
fn joined(places: &[u64]) -> u64 {
    places.iter().fold(0, |bits, x| bits | x)
}

fn device_bits(o: &Object) -> u64 {
    o.bitmap | u64::from(o.reserved_count) | joined(&o.reserved_starts) | joined(&o.reserved_lasts)
}

fn space_bits(o: &Object) -> u64 {
    u64::from(o.allow_count) | joined(&o.allow_starts) | joined(&o.allow_lasts)
}

fn is_released(o: &Object) -> bool {
    u64::from(o.kind | o.home) | device_bits(o) | space_bits(o) == 0
}

fn space_good(o: &Object) -> bool {
    u64::from(o.home) | device_bits(o) == 0 && list_good(&o.allow_starts, &o.allow_lasts, o.allow_count) && !overlap(allowed(o))
}

fn device_good(o: &Object) -> bool {
    o.bitmap != 0 && page(o.bitmap) <= MAX_PAGE && list_good(&o.reserved_starts, &o.reserved_lasts, o.reserved_count) && space_bits(o) == 0
}

/// The places past the count are not in use.
fn list_good<const MOST: usize>(starts: &[u64; MOST], lasts: &[u64; MOST], count: u32) -> bool {
    let place_good = |(i, (start, last)): (usize, (&u64, &u64))| if i < count as usize { start <= last } else { start | last == 0 };
    count as usize <= MOST && starts.iter().zip(lasts).enumerate().all(place_good)
}

/// The home of an attached device is a space that allows nothing the device reserves.
fn home_good(head: &Head, device: &Object) -> bool {
    let home = (device.home as usize).checked_sub(1).and_then(|i| head.objects.get(i));
    home.is_some_and(|h| h.kind == SPACE && !touch(reserved(device), allowed(h)))
}

// ---- mappings

/// Each record in use by its own rules, and against the first record of its backing.
#[inline(never)]
fn records_good(mappings: &Records, found: &mut Found) -> bool {
    let (mut charge, mut free, mut used) = (0, RECORDS, 0);
    for (place, m) in mappings.iter().enumerate() {
        if m.space == 0 {
            if !is_empty(m) {
                return false;
            }
            free = free.min(place);
        } else {
            let alignment = found.alignments.get(m.space as usize).copied().unwrap_or(0);
            if !record_good(alignment, m) {
                return false;
            }
            let mark = &mut found.marks[m.backing as usize];
            if *mark == 0 {
                *mark = place as u8 + 1;
                charge += pages(m.memory, m.length);
            } else if differ(&mappings[*mark as usize - 1], m) {
                return false;
            }
            used += 1;
        }
    }
    found.charge = charge;
    found.used = used;
    found.looked = true;
    found.mapping = (free < RECORDS).then_some(free);
    true
}

/// A record that names no space has nothing else either.
fn is_empty(m: &Mapping) -> bool {
    u64::from(m.rights | m.founder | m.backing) | m.address | m.length | m.memory == 0
}

/// A record in use, by itself and the alignment of its space, a power of two, or 0 where there is no such space.
fn record_good(alignment: u64, m: &Mapping) -> bool {
    let behind = m.length.wrapping_sub(1);
    alignment != 0
        && (m.address | m.length) & (alignment - 1) == 0
        && behind < MAX_LENGTH
        && m.address.checked_add(behind).is_some()
        && m.memory.checked_add(behind).is_some()
        && (1..=WRITE | READ).contains(&m.rights)
        && m.founder <= 1
        && m.rights & WRITE <= m.founder
        && (1..=RECORDS as u32).contains(&m.backing)
}

/// Mappings of one backing are of the same memory and founder.
fn differ(m: &Mapping, n: &Mapping) -> bool {
    (m.memory, m.length, m.founder) != (n.memory, n.length, n.founder)
}

/// As many numbers as there are records in use, each of a record that lies behind the one before it, and then zeros. So no number comes twice, all records in
/// use are listed, and no two mappings of a space share an address. A released record is of space 0 and lies behind none.
#[inline(never)]
fn index_good(mappings: &Records, index: &Index, used: usize) -> bool {
    let (listed, rest) = index.split_at(used);
    let (mut space, mut last) = (0, u64::MAX);
    for &number in listed {
        let Some(m) = mappings.get((number as usize).wrapping_sub(1)) else { return false };
        if m.space < space || (m.space == space && m.address <= last) {
            return false;
        }
        (space, last) = (m.space, extent(m).last);
    }
    joined(rest) == 0
}

#[inline(never)]
fn clear_of_reserved(head: &Head, mappings: &Records, listed: &[u64]) -> bool {
    let mut devices = head.objects.iter().filter(|o| o.kind == ATTACHED);
    devices.all(|d| reserved(d).all(|r| !is_mapped(mappings, listed, d.home, r)))
}
