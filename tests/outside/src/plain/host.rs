//! The host calls: the record that bind, attach and detach change, where a device reaches, and which mapping comes next.
use super::range::{ranges, touch, Range};
use super::table::{allowed, extent, holds, page, reserved, Table};
use super::{refuse, Answer, ATTACHED, EADDRINUSE, EBUSY, EFAULT, EINVAL, ENOENT, ENOMEM, EOVERFLOW, EPERM, LOOSE, MAX_PAGE};
use iommufd::raw::{Object, Reserved};

pub fn bind(t: Table, bitmap: u64, list: &Reserved) -> Answer<usize> {
    refuse(bitmap == 0 || page(bitmap) > MAX_PAGE, EINVAL)?;
    refuse(list.count > 4, EINVAL)?;
    refuse(!ranges(&list.starts, &list.lasts, list.count).all(Range::is_valid), EINVAL)?;
    t.free_object().ok_or(ENOMEM)
}

/// A new device. Places past the count stay zero, whatever was given there.
pub fn device(bitmap: u64, list: &Reserved) -> Object {
    let mut device = Object { kind: LOOSE, bitmap, reserved_count: list.count, ..Object::default() };
    for (i, r) in ranges(&list.starts, &list.lasts, list.count).enumerate() {
        device.reserved_starts[i] = r.start;
        device.reserved_lasts[i] = r.last;
    }
    device
}

pub fn attach(t: Table, id: u32, home: u32) -> Answer<usize> {
    let device = t.device(id).ok_or(ENOENT)?;
    let space = t.space(home).ok_or(ENOENT)?;
    refuse(device.kind == ATTACHED, EBUSY)?;
    refuse(reserved(device).any(|r| t.is_mapped(home, r)), EADDRINUSE)?;
    refuse(touch(reserved(device), allowed(space)), EADDRINUSE)?;
    // The mappings fit the alignment that the space has, so that only the new device's counts.
    let rest = page(device.bitmap) - 1;
    refuse(t.mappings(home).any(|m| (m.address | m.length) & rest != 0), EADDRINUSE)?;
    Ok(id as usize - 1)
}

pub fn detach(t: Table, id: u32) -> Answer<usize> {
    let device = t.device(id).ok_or(ENOENT)?;
    refuse(device.kind == LOOSE, EINVAL)?;
    Ok(id as usize - 1)
}

pub fn reach(t: Table, id: u32, address: u64, length: u64, write: bool) -> Answer<u64> {
    let device = t.device(id).ok_or(ENOENT)?;
    refuse(device.kind == LOOSE, EINVAL)?;
    refuse(length == 0, EINVAL)?;
    let range = Range::of(address, length).ok_or(EOVERFLOW)?;
    let mapping = t.first_from(device.home, address).filter(|m| range.is_inside(extent(m))).ok_or(EFAULT)?;
    refuse(!holds(mapping, write), EPERM)?;
    Ok(mapping.memory + (address - mapping.address))
}

/// The number of the record, 0 where there is none.
pub fn next(t: Table, id: u32, address: u64) -> Answer<u64> {
    t.space(id).ok_or(ENOENT)?;
    let place = t.seek(id, address);
    Ok(t.at(place, id).map_or(0, |_| t.listed[place]))
}
