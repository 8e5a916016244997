//! The seven commands as bytes: which field stands where.

pub const DESTROY: u32 = 0x3B80;
pub const ALLOC: u32 = 0x3B81;
pub const ALLOW: u32 = 0x3B82;
pub const COPY: u32 = 0x3B83;
pub const RANGES: u32 = 0x3B84;
pub const MAP: u32 = 0x3B85;
pub const UNMAP: u32 = 0x3B86;

pub const FIXED: u64 = 1;
pub const WRITEABLE: u64 = 2;
pub const READABLE: u64 = 4;

/// What a field says, which decides the values that are worth trying in it.
#[derive(Clone, Copy, Debug, PartialEq, Eq)]
pub enum Says {
    Flags,
    Id,
    Count,
    /// Reserved: it has to be 0.
    Nothing,
    Length,
    Address,
    Memory,
    /// Not read.
    Unread,
}

/// A field behind the size field.
#[derive(Debug)]
pub struct Field {
    pub says: Says,
    pub at: usize,
    pub wide: usize,
}

#[derive(Debug)]
pub struct Form {
    pub request: u32,
    pub size: usize,
    pub fields: &'static [Field],
}

const fn half(says: Says, at: usize) -> Field {
    Field { says, at, wide: 4 }
}

const fn full(says: Says, at: usize) -> Field {
    Field { says, at, wide: 8 }
}

use Says::{Address, Count, Flags, Id, Length, Memory, Nothing, Unread};

pub const FORMS: [Form; 7] = [
    Form { request: DESTROY, size: 8, fields: &[half(Id, 4)] },
    Form { request: ALLOC, size: 12, fields: &[half(Flags, 4), half(Unread, 8)] },
    Form { request: ALLOW, size: 24, fields: &[half(Id, 4), half(Count, 8), half(Nothing, 12), full(Unread, 16)] },
    Form {
        request: COPY,
        size: 40,
        fields: &[half(Flags, 4), half(Id, 8), half(Id, 12), full(Length, 16), full(Address, 24), full(Address, 32)],
    },
    Form {
        request: RANGES,
        size: 32,
        fields: &[half(Id, 4), half(Count, 8), half(Nothing, 12), full(Unread, 16), full(Unread, 24)],
    },
    Form {
        request: MAP,
        size: 40,
        fields: &[half(Flags, 4), half(Id, 8), half(Nothing, 12), full(Memory, 16), full(Length, 24), full(Address, 32)],
    },
    Form { request: UNMAP, size: 24, fields: &[half(Id, 4), full(Address, 8), full(Length, 16)] },
];

pub fn form(request: u32) -> Option<&'static Form> {
    FORMS.iter().find(|form| form.request == request)
}

/// The form of one of the seven.
pub fn known(request: u32) -> &'static Form {
    form(request).expect("a request that is known")
}

/// A number in the bytes, little-endian.
pub fn read(bytes: &[u8], at: usize, wide: usize) -> u64 {
    let mut full = [0; 8];
    full[..wide].copy_from_slice(&bytes[at..at + wide]);
    u64::from_le_bytes(full)
}

pub fn write(bytes: &mut [u8], at: usize, wide: usize, value: u64) {
    bytes[at..at + wide].copy_from_slice(&value.to_le_bytes()[..wide]);
}

/// The values of a whole command's fields, in order.
pub fn values(form: &Form, bytes: &[u8]) -> Vec<u64> {
    form.fields.iter().map(|field| read(bytes, field.at, field.wide)).collect()
}

/// The bytes of a command of its own size.
pub fn command(form: &Form, values: &[u64]) -> Vec<u8> {
    let mut bytes = vec![0; form.size];
    write(&mut bytes, 0, 4, form.size as u64);
    for (field, value) in form.fields.iter().zip(values) {
        write(&mut bytes, field.at, field.wide, *value);
    }
    bytes
}

/// A range area with these ranges.
pub fn area(ranges: &[(u64, u64)]) -> Vec<u8> {
    ranges.iter().flat_map(|(start, last)| [start.to_le_bytes(), last.to_le_bytes()].concat()).collect()
}

/// The whole ranges of an area.
pub fn ranges(area: &[u8]) -> Vec<(u64, u64)> {
    area.chunks_exact(16).map(|range| (read(range, 0, 8), read(range, 8, 8))).collect()
}
