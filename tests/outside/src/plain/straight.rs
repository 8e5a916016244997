//! The same check as one writes it down first, rule by rule: the objects, then the alignment of each space, then the mappings in the order of the index, each by its rules, its
//! neighbour and its backing, then what is not listed, then the reserved ranges. Nothing is joined, fused or moved for the machine's sake.
use super::check::Found;
use super::range::{overlap, touch, Range};
use super::table::{allowed, extent, is_mapped, page, pages, reserved, Index, Records};
use super::{ATTACHED, LOOSE, MAX_LENGTH, MAX_LIMIT, MAX_PAGE, READ, RECORDS, SPACE, WRITE};
use iommufd::raw::{Head, Mapping, Object};

pub fn is_good(head: &Head, mappings: &Records, index: &Index, found: &mut Found) -> bool {
    head.limit <= MAX_LIMIT
        && head.objects.iter().all(|o| object_good(head, o))
        && mappings_good(alignments(head), mappings, index, found)
        && found.charge <= head.limit
        && clear_of_reserved(head, mappings, &index[..found.used])
}

// ---- objects

fn object_good(head: &Head, o: &Object) -> bool {
    match o.kind {
        0 => *o == Object::default(),
        SPACE => o.home == 0 && space_good(o) && no_device(o),
        LOOSE => o.home == 0 && device_good(o) && no_space(o),
        ATTACHED => device_good(o) && no_space(o) && home_good(head, o),
        _ => false,
    }
}

fn all_zero(places: &[u64]) -> bool {
    places.iter().all(|&x| x == 0)
}

/// The places past the count are not in use.
fn list_good(starts: &[u64], lasts: &[u64], count: u32) -> bool {
    let count = count as usize;
    count <= starts.len()
        && starts.iter().zip(lasts).take(count).all(|(start, last)| start <= last)
        && all_zero(&starts[count..])
        && all_zero(&lasts[count..])
}

fn no_device(o: &Object) -> bool {
    o.bitmap == 0 && o.reserved_count == 0 && all_zero(&o.reserved_starts) && all_zero(&o.reserved_lasts)
}

fn no_space(o: &Object) -> bool {
    o.allow_count == 0 && all_zero(&o.allow_starts) && all_zero(&o.allow_lasts)
}

fn space_good(o: &Object) -> bool {
    list_good(&o.allow_starts, &o.allow_lasts, o.allow_count) && !overlap(allowed(o))
}

fn device_good(o: &Object) -> bool {
    o.bitmap != 0 && page(o.bitmap) <= MAX_PAGE && list_good(&o.reserved_starts, &o.reserved_lasts, o.reserved_count)
}

/// The home of an attached device is a space that allows nothing the device reserves.
fn home_good(head: &Head, device: &Object) -> bool {
    let home = (device.home as usize).checked_sub(1).and_then(|i| head.objects.get(i));
    home.is_some_and(|h| h.kind == SPACE && !touch(reserved(device), allowed(h)))
}

/// The alignment of each space by its id, 0 where there is no such space. The objects are good.
fn alignments(head: &Head) -> [u64; 33] {
    let mut found = [0; 33];
    for (id, o) in (1..).zip(&head.objects) {
        match o.kind {
            SPACE => found[id] = found[id].max(1),
            ATTACHED => found[o.home as usize] = found[o.home as usize].max(page(o.bitmap)),
            _ => {}
        }
    }
    found
}

// ---- mappings

/// The listed records, each behind the one before it, and what is not listed.
fn mappings_good(alignments: [u64; 33], mappings: &Records, index: &Index, found: &mut Found) -> bool {
    let listed = index.iter().position(|&number| number == 0).unwrap_or(RECORDS);
    let mut seen = [false; RECORDS];
    let (mut space, mut last) = (0, u64::MAX);
    for &number in &index[..listed] {
        let place = (number as usize).wrapping_sub(1);
        let Some(m) = mappings.get(place) else { return false };
        let good = alignments.get(m.space as usize).is_some_and(|&a| record_good(a, m));
        if !good || m.space < space || (m.space == space && m.address <= last) {
            return false;
        }
        (space, last) = (m.space, extent(m).last);
        seen[place] = true;
        let mark = &mut found.marks[m.backing as usize];
        if *mark == 0 {
            *mark = number as u8;
            found.charge += pages(m.memory, m.length);
        } else {
            let first = &mappings[*mark as usize - 1];
            if (first.memory, first.length, first.founder) != (m.memory, m.length, m.founder) {
                return false;
            }
        }
    }
    found.used = listed;
    found.alignments = alignments;
    index[listed..].iter().all(|&number| number == 0) && mappings.iter().zip(&seen).all(|(m, &seen)| seen || *m == Mapping::default())
}

/// A record in use, by itself and the alignment of its space, 0 where that is none. An alignment is a power of two.
fn record_good(alignment: u64, m: &Mapping) -> bool {
    alignment != 0
        && (m.address | m.length) & (alignment - 1) == 0
        && m.length <= MAX_LENGTH
        && Range::of(m.address, m.length).is_some()
        && Range::of(m.memory, m.length).is_some()
        && (1..=WRITE | READ).contains(&m.rights)
        && m.founder <= 1
        && (m.rights & WRITE == 0 || m.founder == 1)
        && (1..=RECORDS as u32).contains(&m.backing)
}

fn clear_of_reserved(head: &Head, mappings: &Records, listed: &[u64]) -> bool {
    let devices = head.objects.iter().filter(|o| o.kind == ATTACHED);
    devices.flat_map(|d| reserved(d).map(|r| (d.home, r))).all(|(home, r)| !is_mapped(mappings, listed, home, r))
}
