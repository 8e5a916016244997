//! The fields of a table by number and name, to change one or to tell where two tables differ.
use crate::calls::Lent;
use iommufd::raw::{Mapping, Object};

/// A field of a table. Records, objects and the words of the index count from 0.
#[derive(Clone, Copy, Debug, PartialEq, Eq)]
pub enum Place {
    Limit,
    Object { at: usize, field: usize },
    Record { at: usize, field: usize },
    Index { at: usize },
}

pub const OBJECTS: usize = 32;
pub const OBJECT_FIELDS: usize = 29;
pub const RECORD_FIELDS: usize = 7;

enum Slot<'a> {
    Half(&'a mut u32),
    Full(&'a mut u64),
}

impl Slot<'_> {
    fn value(&self) -> u64 {
        match self {
            Slot::Half(value) => u64::from(**value),
            Slot::Full(value) => **value,
        }
    }
}

fn object_slot(object: &mut Object, field: usize) -> Slot<'_> {
    match field {
        0 => Slot::Half(&mut object.kind),
        1 => Slot::Half(&mut object.home),
        2 => Slot::Full(&mut object.bitmap),
        3 => Slot::Half(&mut object.reserved_count),
        4 => Slot::Half(&mut object.allow_count),
        5..=8 => Slot::Full(&mut object.reserved_starts[field - 5]),
        9..=12 => Slot::Full(&mut object.reserved_lasts[field - 9]),
        13..=20 => Slot::Full(&mut object.allow_starts[field - 13]),
        _ => Slot::Full(&mut object.allow_lasts[field - 21]),
    }
}

fn object_name(field: usize) -> String {
    match field {
        0..=4 => ["kind", "home", "bitmap", "reserved_count", "allow_count"][field].to_string(),
        5..=8 => format!("reserved_starts[{}]", field - 5),
        9..=12 => format!("reserved_lasts[{}]", field - 9),
        13..=20 => format!("allow_starts[{}]", field - 13),
        _ => format!("allow_lasts[{}]", field - 21),
    }
}

fn record_slot(record: &mut Mapping, field: usize) -> Slot<'_> {
    match field {
        0 => Slot::Half(&mut record.space),
        1 => Slot::Half(&mut record.rights),
        2 => Slot::Half(&mut record.founder),
        3 => Slot::Half(&mut record.backing),
        4 => Slot::Full(&mut record.address),
        5 => Slot::Full(&mut record.length),
        _ => Slot::Full(&mut record.memory),
    }
}

const RECORD_NAMES: [&str; RECORD_FIELDS] = ["space", "rights", "founder", "backing", "address", "length", "memory"];

impl Place {
    pub fn name(self) -> String {
        match self {
            Place::Limit => "limit".to_string(),
            Place::Object { at, field } => format!("object {} {}", at + 1, object_name(field)),
            Place::Record { at, field } => format!("record {} {}", at, RECORD_NAMES[field]),
            Place::Index { at } => format!("index[{at}]"),
        }
    }

    /// None where so many records, or words of the index, are not lent.
    fn slot(self, lent: &mut Lent) -> Option<Slot<'_>> {
        match self {
            Place::Limit => Some(Slot::Full(&mut lent.head.limit)),
            Place::Object { at, field } => Some(object_slot(&mut lent.head.objects[at], field)),
            Place::Record { at, field } => lent.mappings.get_mut(at).map(|record| record_slot(record, field)),
            Place::Index { at } => lent.index.get_mut(at).map(Slot::Full),
        }
    }

    /// None where so many records, or words of the index, are not lent.
    pub fn get(self, lent: &Lent) -> Option<u64> {
        match self {
            Place::Limit => Some(lent.head.limit),
            Place::Object { at, field } => {
                let mut object = lent.head.objects[at];
                Some(object_slot(&mut object, field).value())
            }
            Place::Record { at, field } => lent.mappings.get(at).map(|record| {
                let mut record = *record;
                record_slot(&mut record, field).value()
            }),
            Place::Index { at } => lent.index.get(at).copied(),
        }
    }

    /// The value cut to the field's width.
    pub fn set(self, lent: &mut Lent, to: u64) {
        match self.slot(lent) {
            Some(Slot::Half(value)) => *value = to as u32,
            Some(Slot::Full(value)) => *value = to,
            None => {}
        }
    }
}

/// Every field of a table with so many records and words of the index.
pub fn places(records: usize, words: usize) -> impl Iterator<Item = Place> {
    let objects = (0..OBJECTS).flat_map(|at| (0..OBJECT_FIELDS).map(move |field| Place::Object { at, field }));
    let records = (0..records).flat_map(|at| (0..RECORD_FIELDS).map(move |field| Place::Record { at, field }));
    let index = (0..words).map(|at| Place::Index { at });
    std::iter::once(Place::Limit).chain(objects).chain(records).chain(index)
}
