//! A fresh table, the four host calls, the charge and the next mapping, with their checks in the paper's order after 117.
use super::checks::{Answer, ATTACH, BIND, CHARGE, DETACH, FRESH, NEXT, REACH};
use super::table::{has_other_than_128_records, has_other_than_128_words, list, lowest_bit, Device, Object, Range, Table};
use super::table::{HIGHEST_LIMIT, MOST_RESERVED, PAGE};
use crate::calls::Lent;
use iommufd::raw::Reserved;

/// What the memory held plays no part, the index neither.
pub fn fresh(lent: &mut Lent, limit: u64) -> Answer {
    let limit = u128::from(limit);
    FRESH.refuse(has_other_than_128_records(lent), 117, "the mapping records are not 128")?;
    FRESH.refuse(has_other_than_128_words(lent), 117, "the words of the index are not 128")?;
    FRESH.refuse(limit > HIGHEST_LIMIT, 22, "limit above 2^36")?;
    Table::empty(limit).store(lent);
    FRESH.done("done")
}

/// The result is the new id. Places past the count are not taken.
pub fn bind(table: &mut Table, bitmap: u64, reserved: &Reserved) -> Answer {
    BIND.refuse(bitmap == 0, 22, "bitmap 0")?;
    BIND.refuse(lowest_bit(bitmap) > PAGE, 22, "lowest bit of the bitmap above 4,096")?;
    BIND.refuse(reserved.count > MOST_RESERVED, 22, "over 4 ranges")?;
    let reserved = list(reserved.count, &reserved.starts, &reserved.lasts);
    BIND.refuse(reserved.iter().any(|range| range.is_reversed()), 22, "a start above its last")?;
    let id = BIND.need(table.free_id(), 12, "no free object record")?;

    table.set(id, Object::Device(Device { bitmap, reserved, home: None }));
    BIND.give(id as i32, 0, "done")
}

pub fn attach(table: &mut Table, id: u32, space: u32) -> Answer {
    let device = ATTACH.need(table.device(id), 2, "no device")?;
    let allowed = ATTACH.need(table.allow_list(space), 2, "no space")?;
    ATTACH.refuse(device.home.is_some(), 16, "already attached")?;
    let touches_reserved = |range: Range| device.reserved.iter().any(|reserved| reserved.touches(range));
    let on_mapping = table.mappings_of(space).any(|mapping| touches_reserved(mapping.addresses()));
    ATTACH.refuse(on_mapping, 98, "a reserved range touches a mapping")?;
    ATTACH.refuse(allowed.iter().any(|range| touches_reserved(*range)), 98, "a reserved range touches the allow list")?;
    // The new alignment is the space's with this device, which may be the one it had.
    let alignment = table.alignment(space).max(device.smallest_page());
    let misfits = table.mappings_of(space).any(|mapping| !mapping.addresses().fits(alignment));
    ATTACH.refuse(misfits, 98, "a mapping misfits the new alignment")?;

    let attached = Device { home: Some(space), ..device.clone() };
    table.set(id, Object::Device(attached));
    ATTACH.done("done")
}

pub fn detach(table: &mut Table, id: u32) -> Answer {
    let device = DETACH.need(table.device(id), 2, "no device")?;
    DETACH.refuse(device.home.is_none(), 22, "not attached")?;

    let loose = Device { home: None, ..device.clone() };
    table.set(id, Object::Device(loose));
    DETACH.done("done")
}

/// The value is the memory that the device gets to.
pub fn reach(table: &Table, id: u32, address: u64, length: u64, write: bool) -> Answer {
    let (address, length) = (u128::from(address), u128::from(length));
    let device = REACH.need(table.device(id), 2, "no device")?;
    let space = REACH.need(device.home, 22, "not attached")?;
    REACH.refuse(length == 0, 22, "length 0")?;
    let asked = Range::new(address, length);
    REACH.refuse(asked.is_past_u64max(), 75, "past U64MAX")?;
    let around = table.mappings_of(space).find(|mapping| asked.is_inside(mapping.addresses()));
    let mapping = REACH.need(around, 14, "not wholly inside one mapping")?;
    REACH.refuse(write && !mapping.write, 1, "right to write missing")?;
    REACH.refuse(!write && !mapping.read, 1, "right to read missing")?;

    REACH.give(0, (mapping.memory + (address - mapping.address)) as u64, "done")
}

/// The table's charge beside 0.
pub fn charge(table: &Table) -> Answer {
    CHARGE.give(0, table.charge() as u64, "done")
}

/// Of the space's mappings that end at or after the address, the number of the one with the lowest address; 0 for none.
pub fn next(table: &Table, space: u32, address: u64) -> Answer {
    let address = u128::from(address);
    NEXT.refuse(!table.is_space(space), 2, "no such space")?;
    let ending = table.records().filter(|(_, mapping)| mapping.space == space && mapping.addresses().last >= address);
    match ending.min_by_key(|(_, mapping)| mapping.address) {
        Some((number, _)) => NEXT.give(0, number, "done, found"),
        None => NEXT.give(0, 0, "done, none"),
    }
}
