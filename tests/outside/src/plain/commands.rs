//! The seven commands: what each decides, with the reply written where it is accepted, and the change that is then made.
use super::place::{place, Landing, Target};
use super::range::{overlap, touch, Range};
use super::table::{extent, pages, Run, Table};
use super::wire::{ranges, read32, read64, write32, write64, RANGE};
use super::{
    refuse, Answer, ATTACHED, E2BIG, EADDRINUSE, EBUSY, EFAULT, EINVAL, EMSGSIZE, ENOENT, ENOMEM, ENOTTY, EOPNOTSUPP, EOVERFLOW, EPERM, MAX_LENGTH,
    READ, SPACE, WORDS, WRITE,
};
use iommufd::raw::{Head, Mapping, Object};
use iommufd::request::{ALLOW_IOVAS, COPY, DESTROY, IOAS_ALLOC, IOVA_RANGES, MAP, UNMAP};
use iommufd::{FIXED, READABLE, WRITEABLE};

/// What a command does to the table. A place is that of an object record; runs are places of the index.
pub enum Change {
    Nothing,
    NewSpace(usize),
    /// The object goes, and where it is a space its mappings with it.
    Release(usize, Run),
    /// The allow list becomes the first `count` ranges of the range area.
    Allow {
        place: usize,
        count: usize,
    },
    /// A mapping into a record, which is listed at a place of the index.
    Put {
        record: usize,
        listed: usize,
        mapping: Mapping,
    },
    /// The mappings that are listed there go.
    Clear(Run),
}

pub fn decide(t: Table, request: u32, command: &mut [u8], area: &mut [u8]) -> Answer<Change> {
    open(request, command)?;
    match request {
        DESTROY => destroy(t, command),
        IOAS_ALLOC => alloc(t, command),
        ALLOW_IOVAS => allow(t, command, area),
        COPY => copy(t, command),
        IOVA_RANGES => iova_ranges(t, command, area),
        MAP => map(t, command),
        _ => unmap(t, command),
    }
}

pub fn apply(head: &mut Head, mappings: &mut [Mapping], index: &mut [u64], change: Change, area: &[u8]) {
    match change {
        Change::Nothing => {}
        Change::NewSpace(i) => head.objects[i].kind = SPACE,
        Change::Release(i, run) => {
            head.objects[i] = Object::default();
            clear(mappings, index, run);
        }
        Change::Allow { place, count } => set_allowed(&mut head.objects[place], &area[..RANGE * count]),
        Change::Put { record, listed, mapping } => {
            mappings[record] = mapping;
            // A record was free, so the last word is 0.
            index.copy_within(listed..WORDS - 1, listed + 1);
            index[listed] = record as u64 + 1;
        }
        Change::Clear(run) => clear(mappings, index, run),
    }
}

/// The mappings of a run go, and what is listed behind it moves up.
fn clear(mappings: &mut [Mapping], index: &mut [u64], run: Run) {
    for &number in &index[run.clone()] {
        mappings[number as usize - 1] = Mapping::default();
    }
    index.copy_within(run.end.., run.start);
    index[WORDS - run.len()..].fill(0);
}

fn set_allowed(space: &mut Object, list: &[u8]) {
    space.allow_starts = [0; 8];
    space.allow_lasts = [0; 8];
    space.allow_count = (list.len() / RANGE) as u32;
    for (i, r) in ranges(list).enumerate() {
        space.allow_starts[i] = r.start;
        space.allow_lasts[i] = r.last;
    }
}

// ---- opening

fn known_size(request: u32) -> Option<usize> {
    match request {
        DESTROY => Some(8),
        IOAS_ALLOC => Some(12),
        ALLOW_IOVAS | UNMAP => Some(24),
        IOVA_RANGES => Some(32),
        COPY | MAP => Some(40),
        _ => None,
    }
}

/// The checks of the request number, the size field and the bytes beyond the known size.
fn open(request: u32, command: &[u8]) -> Answer<()> {
    let known = known_size(request).ok_or(ENOTTY)?;
    refuse(command.len() < 4, EFAULT)?;
    let size = read32(command, 0) as usize;
    refuse(size < known, EINVAL)?;
    let tail = command.get(known..size).ok_or(EFAULT)?;
    refuse(tail.iter().any(|&b| b != 0), E2BIG)
}

// ---- objects

fn destroy(t: Table, command: &[u8]) -> Answer<Change> {
    let id = read32(command, 4);
    let object = t.object(id).ok_or(ENOENT)?;
    refuse(object.kind == ATTACHED || t.devices(id).next().is_some(), EBUSY)?;
    let run = if object.kind == SPACE { t.run(id) } else { 0..0 };
    Ok(Change::Release(id as usize - 1, run))
}

fn alloc(t: Table, command: &mut [u8]) -> Answer<Change> {
    refuse(read32(command, 4) != 0, EOPNOTSUPP)?;
    let place = t.free_object().ok_or(ENOMEM)?;
    write32(command, 8, place as u32 + 1);
    Ok(Change::NewSpace(place))
}

fn allow(t: Table, command: &[u8], area: &[u8]) -> Answer<Change> {
    let (id, count, zero) = (read32(command, 4), read32(command, 8) as usize, read32(command, 12));
    refuse(zero != 0, EOPNOTSUPP)?;
    t.space(id).ok_or(ENOENT)?;
    refuse(count > 8, ENOMEM)?;
    let list = ranges(area.get(..RANGE * count).ok_or(EFAULT)?);
    refuse(!list.clone().all(Range::is_valid) || overlap(list.clone()), EINVAL)?;
    refuse(touch(t.reserved(id), list), EADDRINUSE)?;
    Ok(Change::Allow { place: id as usize - 1, count })
}

/// The one refusal that writes: where the count is too small the reply tells the full one.
fn iova_ranges(t: Table, command: &mut [u8], area: &mut [u8]) -> Answer<Change> {
    let (id, count, zero) = (read32(command, 4), read32(command, 8) as usize, read32(command, 12));
    refuse(zero != 0, EOPNOTSUPP)?;
    t.space(id).ok_or(ENOENT)?;
    let room = area.get_mut(..RANGE * count).ok_or(EFAULT)?;
    let full = write_free(t, id, room);
    write32(command, 8, full as u32);
    write64(command, 24, t.alignment(id));
    refuse(count < full, EMSGSIZE)?;
    Ok(Change::Nothing)
}

/// Writes the ranges that are not reserved, as many as have room, and counts them all.
fn write_free(t: Table, space: u32, room: &mut [u8]) -> usize {
    let mut room = room.chunks_exact_mut(RANGE);
    let mut full = 0;
    let mut from = Some(0);
    while let Some(free) = from.and_then(|x| next_free(t, space, x)) {
        if let Some(bytes) = room.next() {
            write64(bytes, 0, free.start);
            write64(bytes, 8, free.last);
        }
        full += 1;
        from = free.last.checked_add(1);
    }
    full
}

/// The first range from x on that no device of the space reserves, as long as it can be.
fn next_free(t: Table, space: u32, mut x: u64) -> Option<Range> {
    while let Some(r) = t.reserved(space).find(|r| r.start <= x && x <= r.last) {
        x = r.last.checked_add(1)?;
    }
    let next = t.reserved(space).map(|r| r.start).filter(|&start| start > x).min();
    Some(Range { start: x, last: next.map_or(u64::MAX, |start| start - 1) })
}

// ---- mappings

fn check_flags(flags: u32) -> Answer<()> {
    refuse(flags & (WRITEABLE | READABLE) == 0, EINVAL)
}

fn check_length(length: u64) -> Answer<()> {
    refuse(length == 0 || length > MAX_LENGTH, EINVAL)
}

fn check_sum(start: u64, length: u64) -> Answer<()> {
    refuse(Range::of(start, length).is_none(), EOVERFLOW)
}

fn is_unknown(flags: u32) -> bool {
    flags & !(FIXED | WRITEABLE | READABLE) != 0
}

fn rights(flags: u32) -> u32 {
    (if flags & WRITEABLE != 0 { WRITE } else { 0 }) | (if flags & READABLE != 0 { READ } else { 0 })
}

fn map(t: Table, command: &mut [u8]) -> Answer<Change> {
    let (flags, id, zero) = (read32(command, 4), read32(command, 8), read32(command, 12));
    let (memory, length, address) = (read64(command, 16), read64(command, 24), read64(command, 32));
    let target = Target { id, fixed: flags & FIXED != 0, length, address };
    refuse(is_unknown(flags) || zero != 0, EOPNOTSUPP)?;
    check_flags(flags)?;
    check_length(length)?;
    check_sum(memory, length)?;
    if target.fixed {
        check_sum(address, length)?;
    }
    let space = t.space(id).ok_or(ENOENT)?;
    let Landing { address, place: listed } = place(t, space, &target)?;
    let record = t.free_mapping().ok_or(ENOMEM)?;
    let (charge, backing) = t.backings();
    refuse(charge + pages(memory, length) > t.head.limit, ENOMEM)?;
    write64(command, 32, address);
    let founder = (flags & WRITEABLE != 0) as u32;
    let mapping = Mapping { space: id, rights: rights(flags), founder, backing, address, length, memory };
    Ok(Change::Put { record, listed, mapping })
}

fn copy(t: Table, command: &mut [u8]) -> Answer<Change> {
    let (flags, id, source) = (read32(command, 4), read32(command, 8), read32(command, 12));
    let (length, address, from) = (read64(command, 16), read64(command, 24), read64(command, 32));
    let target = Target { id, fixed: flags & FIXED != 0, length, address };
    refuse(is_unknown(flags), EOPNOTSUPP)?;
    check_flags(flags)?;
    check_length(length)?;
    check_sum(from, length)?;
    if target.fixed {
        check_sum(address, length)?;
    }
    let space = t.space(id).ok_or(ENOENT)?;
    t.space(source).ok_or(ENOENT)?;
    let source = t.first_from(source, from).filter(|m| m.address == from && m.length == length).ok_or(ENOENT)?;
    refuse(flags & WRITEABLE != 0 && source.founder == 0, EPERM)?;
    let Landing { address, place: listed } = place(t, space, &target)?;
    let record = t.free_mapping().ok_or(ENOMEM)?;
    write64(command, 24, address);
    Ok(Change::Put { record, listed, mapping: Mapping { space: id, rights: rights(flags), address, ..*source } })
}

fn unmap(t: Table, command: &mut [u8]) -> Answer<Change> {
    let (id, address, length) = (read32(command, 4), read64(command, 8), read64(command, 16));
    refuse(length == 0, EINVAL)?;
    let asked = Range::of(address, length).ok_or(EOVERFLOW)?;
    t.space(id).ok_or(ENOENT)?;
    let all = (address, length) == (0, u64::MAX);
    let (run, removed) = inside(t, id, if all { Range::ALL } else { asked })?;
    refuse(run.is_empty() && !all, ENOENT)?;
    write64(command, 16, removed);
    Ok(Change::Clear(run))
}

/// The mappings of a space inside a range and their bytes, where none is cut.
fn inside(t: Table, space: u32, range: Range) -> Answer<(Run, u64)> {
    let first = t.seek(space, range.start);
    let (mut behind, mut bytes) = (first, 0);
    for m in t.from(first, space).take_while(|m| m.address <= range.last) {
        refuse(!extent(m).is_inside(range), ENOENT)?;
        behind += 1;
        bytes += m.length;
    }
    Ok((first..behind, bytes))
}
