//! The seven commands: opening one, and the rules of each with its checks in the paper's order.
use super::checks::{Answer, Check, Name, ALLOW_IOVAS, COPY, DESTROY, IOAS_ALLOC, IOVA_RANGES, MAP, UNKNOWN, UNMAP};
use super::table::{overlap, pages, Mapping, Object, Range, Table, LONGEST_MAPPING, MOST_ALLOWED, U64MAX};

/// Request number, name and size in bytes.
const COMMANDS: [(u32, Name, usize); 7] = [
    (0x3B80, DESTROY, 8),
    (0x3B81, IOAS_ALLOC, 12),
    (0x3B82, ALLOW_IOVAS, 24),
    (0x3B83, COPY, 40),
    (0x3B84, IOVA_RANGES, 32),
    (0x3B85, MAP, 40),
    (0x3B86, UNMAP, 24),
];

/// What a request is called.
pub fn name(request: u32) -> Name {
    COMMANDS.iter().find(|command| command.0 == request).map_or(UNKNOWN, |command| command.1)
}

/// A request on a good table.
pub fn run(table: &mut Table, request: u32, bytes: &mut [u8], area: &mut [u8]) -> Answer {
    let known = COMMANDS.iter().find(|command| command.0 == request);
    let (_, name, known_size) = *UNKNOWN.need(known, 25, "unknown request")?;
    open(name, known_size, bytes)?;
    match name {
        MAP => map(table, bytes),
        COPY => copy(table, bytes),
        UNMAP => unmap(table, bytes),
        ALLOW_IOVAS => allow_iovas(table, bytes, area),
        IOVA_RANGES => iova_ranges(table, bytes, area),
        IOAS_ALLOC => ioas_alloc(table, bytes),
        _ => destroy(table, bytes),
    }
}

/// Opening a command, after 117 and 25. From here on the bytes hold every field of the command.
fn open(name: Name, known_size: usize, bytes: &[u8]) -> Result<(), Check> {
    name.refuse(bytes.len() < 4, 14, "fewer than 4 bytes lent")?;
    let size = u32_at(bytes, 0) as usize;
    name.refuse(size < known_size, 22, "size field below the table's size")?;
    name.refuse(size > bytes.len(), 14, "size field above the bytes lent")?;
    name.refuse(bytes[known_size..size].iter().any(|byte| *byte != 0), 7, "a byte beyond the known size is not zero")
}

// ---- numbers in the bytes, little-endian

fn little_endian(bytes: &[u8]) -> u64 {
    bytes.iter().rev().fold(0, |number, byte| number << 8 | u64::from(*byte))
}

fn u32_at(bytes: &[u8], at: usize) -> u32 {
    little_endian(&bytes[at..at + 4]) as u32
}

fn u64_at(bytes: &[u8], at: usize) -> u128 {
    little_endian(&bytes[at..at + 8]).into()
}

fn put_u32(bytes: &mut [u8], at: usize, number: u32) {
    bytes[at..at + 4].copy_from_slice(&number.to_le_bytes());
}

fn put_u64(bytes: &mut [u8], at: usize, number: u128) {
    bytes[at..at + 8].copy_from_slice(&(number as u64).to_le_bytes());
}

// ---- MAP and COPY

/// The flags of MAP and COPY.
#[derive(Clone, Copy)]
struct Flags {
    fixed: bool,
    write: bool,
    read: bool,
    /// One above bit 2 is set.
    unknown: bool,
}

fn flags_at(bytes: &[u8], at: usize) -> Flags {
    let bits = u32_at(bytes, at);
    Flags { fixed: bits & 1 != 0, write: bits & 2 != 0, read: bits & 4 != 0, unknown: bits > 7 }
}

/// Where a MAP or a COPY lands: its space, or the target's, and the range that it asks for, if it is fixed.
#[derive(Clone, Copy)]
pub struct Landing {
    pub space: u32,
    pub range: Range,
}

/// Of the bytes of a MAP or a COPY that holds every field.
pub fn landing(request: u32, bytes: &[u8]) -> Landing {
    let (length, address) = if name(request) == MAP { (24, 32) } else { (16, 24) };
    Landing { space: u32_at(bytes, 8), range: Range::new(u64_at(bytes, address), u64_at(bytes, length)) }
}

/// The checks of rights and length that MAP and COPY have in common.
fn asked(name: Name, flags: Flags, length: u128) -> Result<(), Check> {
    name.refuse(!flags.write && !flags.read, 22, "neither writeable nor readable")?;
    name.refuse(length == 0, 22, "length 0")?;
    name.refuse(length > LONGEST_MAPPING, 22, "length over 2^40")
}

/// MAP from its alignment check to the free record, and COPY alike: the address taken, and the record for the mapping.
fn place(table: &Table, name: Name, space: u32, fixed: Option<u128>, length: u128) -> Result<(u128, usize), Check> {
    let alignment = table.alignment(space);
    let address = match fixed {
        Some(address) => {
            let asked = Range::new(address, length);
            name.refuse(!address.is_multiple_of(alignment), 22, "fixed: address not a multiple of the alignment")?;
            name.refuse(!(address + length).is_multiple_of(alignment), 22, "fixed: address + length not a multiple of the alignment")?;
            name.refuse(table.reserved(space).iter().any(|range| range.touches(asked)), 22, "fixed: touches reserved")?;
            let is_mapped = table.mappings_of(space).any(|mapping| mapping.addresses().touches(asked));
            name.refuse(is_mapped, 17, "fixed: touches a mapping of the space")?;
            address
        }
        None => {
            name.refuse(!length.is_multiple_of(alignment), 22, "not fixed: length not a multiple of the alignment")?;
            name.need(lowest_candidate(table, space, length), 28, "not fixed: no candidate")?
        }
    };
    let record = name.need(table.free_mapping(), 12, "no free mapping record")?;
    Ok((address, record))
}

/// The lowest candidate for an automatic address.
fn lowest_candidate(table: &Table, space: u32, length: u128) -> Option<u128> {
    let alignment = table.alignment(space);
    let allowed = table.allow_list(space).unwrap_or(&[]);
    let mut blocked = table.reserved(space);
    blocked.extend(table.mappings_of(space).map(Mapping::addresses));

    // The multiple below the lowest candidate is none itself: it is below 0, before the start of the allowed range, or touches a blocked range that the
    // candidate is just behind. So it is enough to try the first multiple from 0, from each allowed start and from behind each blocked range.
    let mut tries = vec![0];
    tries.extend(allowed.iter().map(|range| range.first.next_multiple_of(alignment)));
    tries.extend(blocked.iter().map(|range| (range.last + 1).next_multiple_of(alignment)));
    tries.sort_unstable();

    tries.into_iter().find(|address| {
        let whole = Range::new(*address, length);
        !whole.is_past_u64max()
            && !blocked.iter().any(|range| range.touches(whole))
            && (allowed.is_empty() || allowed.iter().any(|range| whole.is_inside(*range)))
    })
}

fn map(table: &mut Table, bytes: &mut [u8]) -> Answer {
    let (flags, space, reserved_field) = (flags_at(bytes, 4), u32_at(bytes, 8), u32_at(bytes, 12));
    let (memory, length, address) = (u64_at(bytes, 16), u64_at(bytes, 24), u64_at(bytes, 32));

    MAP.refuse(flags.unknown || reserved_field != 0, 95, "flags above bit 2 or reserved field not 0")?;
    asked(MAP, flags, length)?;
    let memory_range = Range::new(memory, length);
    MAP.refuse(memory_range.is_past_u64max(), 75, "memory + length - 1 past U64MAX")?;
    let is_past = flags.fixed && Range::new(address, length).is_past_u64max();
    MAP.refuse(is_past, 75, "fixed and address + length - 1 past U64MAX")?;
    MAP.refuse(!table.is_space(space), 2, "no such space")?;
    let (address, record) = place(table, MAP, space, flags.fixed.then_some(address), length)?;
    MAP.refuse(table.charge() + pages(memory_range) > table.limit, 12, "charge would pass the limit")?;

    // Each MAP founds a backing.
    let (backing, founder_write) = (table.free_backing(), flags.write);
    table.mappings[record] = Some(Mapping { space, address, length, memory, write: flags.write, read: flags.read, backing, founder_write });
    put_u64(bytes, 32, address);
    MAP.done(if flags.fixed { "done, fixed" } else { "done, automatic" })
}

fn copy(table: &mut Table, bytes: &mut [u8]) -> Answer {
    let (flags, target, source) = (flags_at(bytes, 4), u32_at(bytes, 8), u32_at(bytes, 12));
    let (length, target_address, source_address) = (u64_at(bytes, 16), u64_at(bytes, 24), u64_at(bytes, 32));

    COPY.refuse(flags.unknown, 95, "unknown flags")?;
    asked(COPY, flags, length)?;
    COPY.refuse(Range::new(source_address, length).is_past_u64max(), 75, "source address + length - 1 past U64MAX")?;
    let is_past = flags.fixed && Range::new(target_address, length).is_past_u64max();
    COPY.refuse(is_past, 75, "fixed and target address + length - 1 past U64MAX")?;
    COPY.refuse(!table.is_space(target), 2, "no target space")?;
    COPY.refuse(!table.is_space(source), 2, "no source space")?;
    let exact = table.mappings_of(source).find(|mapping| mapping.address == source_address && mapping.length == length).copied();
    let exact = COPY.need(exact, 2, "no source mapping with exactly this address and length")?;
    COPY.refuse(flags.write && !exact.founder_write, 1, "writeable asked where the founding MAP was not")?;
    let (address, record) = place(table, COPY, target, flags.fixed.then_some(target_address), length)?;

    // The copy joins its source's backing, so memory, length, backing and founding right are the source's.
    table.mappings[record] = Some(Mapping { space: target, address, write: flags.write, read: flags.read, ..exact });
    put_u64(bytes, 24, address);
    COPY.done(if flags.fixed { "done, fixed" } else { "done, automatic" })
}

// ---- the other commands

fn unmap(table: &mut Table, bytes: &mut [u8]) -> Answer {
    let (space, address, length) = (u32_at(bytes, 4), u64_at(bytes, 8), u64_at(bytes, 16));

    UNMAP.refuse(length == 0, 22, "length 0")?;
    let asked = Range::new(address, length);
    UNMAP.refuse(asked.is_past_u64max(), 75, "address + length - 1 past U64MAX")?;
    UNMAP.refuse(!table.is_space(space), 2, "no such space")?;
    if address == 0 && length == U64MAX {
        let removed = table.release(|mapping| mapping.space == space);
        put_u64(bytes, 16, removed);
        return UNMAP.done("done, remove-all form");
    }
    let is_inside = |mapping: &Mapping| mapping.addresses().is_inside(asked);
    let is_cut = table.mappings_of(space).any(|mapping| mapping.addresses().touches(asked) && !is_inside(mapping));
    UNMAP.refuse(is_cut, 2, "a mapping shares an address and is not wholly inside")?;
    UNMAP.refuse(!table.mappings_of(space).any(is_inside), 2, "none inside")?;

    let removed = table.release(|mapping| mapping.space == space && is_inside(mapping));
    put_u64(bytes, 16, removed);
    UNMAP.done("done")
}

/// Where range i of the range area starts.
fn in_area(i: usize) -> usize {
    16 * i
}

fn allow_iovas(table: &mut Table, bytes: &mut [u8], area: &mut [u8]) -> Answer {
    let (space, count, reserved_field) = (u32_at(bytes, 4), u32_at(bytes, 8), u32_at(bytes, 12));

    ALLOW_IOVAS.refuse(reserved_field != 0, 95, "reserved field not 0")?;
    ALLOW_IOVAS.refuse(!table.is_space(space), 2, "no such space")?;
    ALLOW_IOVAS.refuse(count > MOST_ALLOWED, 12, "count over 8")?;
    let count = count as usize;
    ALLOW_IOVAS.refuse(area.len() < in_area(count), 14, "range area short")?;
    let ranges = (0..count).map(in_area).map(|at| Range { first: u64_at(area, at), last: u64_at(area, at + 8) }).collect::<Vec<_>>();
    ALLOW_IOVAS.refuse(ranges.iter().any(|range| range.is_reversed()), 22, "a start above its last")?;
    ALLOW_IOVAS.refuse(overlap(&ranges), 22, "two ranges overlap")?;
    let reserved = table.reserved(space);
    let touches_reserved = ranges.iter().any(|range| reserved.iter().any(|other| range.touches(*other)));
    ALLOW_IOVAS.refuse(touches_reserved, 98, "a range touches reserved")?;

    table.set(space, Object::Space { allow: ranges });
    ALLOW_IOVAS.done("done")
}

/// What is not reserved in a space, as the fewest ranges, ascending.
fn not_reserved(table: &Table, space: u32) -> Vec<Range> {
    let mut reserved = table.reserved(space);
    reserved.sort_unstable_by_key(|range| range.first);
    let mut free = Vec::new();
    let mut next = 0; // all addresses below it are in `free` or reserved
    for range in reserved {
        if next < range.first {
            free.push(Range { first: next, last: range.first - 1 });
        }
        next = next.max(range.last + 1);
    }
    if next <= U64MAX {
        free.push(Range { first: next, last: U64MAX });
    }
    free
}

fn iova_ranges(table: &Table, bytes: &mut [u8], area: &mut [u8]) -> Answer {
    let (space, count, reserved_field) = (u32_at(bytes, 4), u32_at(bytes, 8), u32_at(bytes, 12));

    IOVA_RANGES.refuse(reserved_field != 0, 95, "reserved field not 0")?;
    IOVA_RANGES.refuse(!table.is_space(space), 2, "no such space")?;
    let room = count as usize;
    IOVA_RANGES.refuse(area.len() < in_area(room), 14, "range area shorter than 16 times count")?;

    let ranges = not_reserved(table, space);
    for (i, range) in ranges.iter().take(room).enumerate() {
        put_u64(area, in_area(i), range.first);
        put_u64(area, in_area(i) + 8, range.last);
    }
    put_u32(bytes, 8, ranges.len() as u32);
    put_u64(bytes, 24, table.alignment(space));
    // The one refusal that writes.
    IOVA_RANGES.refuse(ranges.len() > room, 90, "some ranges had no room")?;
    IOVA_RANGES.done("done")
}

fn ioas_alloc(table: &mut Table, bytes: &mut [u8]) -> Answer {
    let flags = u32_at(bytes, 4);

    IOAS_ALLOC.refuse(flags != 0, 95, "flags not 0")?;
    let id = IOAS_ALLOC.need(table.free_id(), 12, "no free object record")?;

    table.set(id, Object::Space { allow: Vec::new() });
    put_u32(bytes, 8, id);
    IOAS_ALLOC.done("done")
}

fn destroy(table: &mut Table, bytes: &[u8]) -> Answer {
    let id = u32_at(bytes, 4);

    DESTROY.refuse(table.object(id).is_none(), 2, "no such object")?;
    DESTROY.refuse(table.device(id).is_some_and(|device| device.home.is_some()), 16, "an attached device")?;
    DESTROY.refuse(table.devices_of(id).next().is_some(), 16, "a space with an attached device")?;

    // A space's mappings go with it; a device has none.
    table.release(|mapping| mapping.space == id);
    table.set(id, Object::Free);
    DESTROY.done("done")
}
