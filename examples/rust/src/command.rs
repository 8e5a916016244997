//! The seven commands with the fields that a caller sets, and the bytes that each stands for. Size and reserved fields are written here and nowhere else. COPY is best
//! written `command::Copy`: imported by its name it hides Rust's own `Copy`.
use crate::{raw, request};

/// Flags of MAP and COPY: a fixed address.
pub const FIXED: u32 = 1;
/// Flags of MAP and COPY: the device may write.
pub const WRITEABLE: u32 = 2;
/// Flags of MAP and COPY: the device may read.
pub const READABLE: u32 = 4;

/// The most ranges of an allow list.
pub const MOST_ALLOWED: usize = 8;
/// The most ranges that IOVA_RANGES has to tell: a space leaves room for 31 devices, and each takes out at most 4 ranges.
pub const MOST_RANGES: usize = 4 * (raw::OBJECTS - 1) + 1;

// ---- the words of a command

/// Addresses from `start` to `last`, both among them.
#[derive(Clone, Copy, Debug, Default, PartialEq, Eq, Hash)]
pub struct Range {
    /// The first address.
    pub start: u64,
    /// The last address.
    pub last: u64,
}

impl Range {
    /// The addresses from `start` to `last`.
    pub const fn new(start: u64, last: u64) -> Range {
        Range { start, last }
    }
}

/// What a device may do with a mapping's memory: read, write or both. A mapping without a right cannot be asked for.
#[derive(Clone, Copy, Debug, PartialEq, Eq, Hash)]
pub struct Rights {
    read: bool,
    write: bool,
}

impl Rights {
    /// Read and not write.
    pub const READ: Rights = Rights { read: true, write: false };
    /// Write and not read.
    pub const WRITE: Rights = Rights { read: false, write: true };
    /// Both.
    pub const READ_WRITE: Rights = Rights { read: true, write: true };

    /// Whether the device may read.
    pub const fn read(self) -> bool {
        self.read
    }

    /// Whether the device may write.
    pub const fn write(self) -> bool {
        self.write
    }

    /// The rights of a mapping record.
    pub(crate) const fn of_record(bits: u32) -> Rights {
        Rights { read: bits & raw::RIGHT_READ != 0, write: bits & raw::RIGHT_WRITE != 0 }
    }

    const fn flags(self) -> u32 {
        let (read, write) = (if self.read { READABLE } else { 0 }, if self.write { WRITEABLE } else { 0 });
        read | write
    }
}

/// Where a new mapping goes.
#[derive(Clone, Copy, Debug, PartialEq, Eq, Hash)]
pub enum Place {
    /// To this address. The allow list has no say.
    Fixed(u64),
    /// To the lowest address that devices, mappings and allow list leave.
    Automatic,
}

impl Place {
    /// The flag and the address field. The field of an automatic place is not read.
    const fn field(self) -> (u32, u64) {
        match self {
            Place::Fixed(address) => (FIXED, address),
            Place::Automatic => (0, 0),
        }
    }
}

// ---- the commands

/// Makes memory reachable in a space; the answer is the address.
#[derive(Clone, Copy, Debug, PartialEq, Eq)]
pub struct Map {
    /// The space.
    pub space: u32,
    /// What its devices may do.
    pub rights: Rights,
    /// The first byte of memory.
    pub memory: u64,
    /// The length in bytes, from 1 to 2^40.
    pub length: u64,
    /// Where it goes.
    pub place: Place,
}

/// Makes the memory of a mapping reachable a second time, without charge; the answer is the address in the target space.
#[derive(Clone, Copy, Debug, PartialEq, Eq)]
pub struct Copy {
    /// The space of the new mapping.
    pub target: u32,
    /// What the devices of the target may do; to write only where the MAP that founded the source's backing was writeable.
    pub rights: Rights,
    /// Where it goes in the target.
    pub place: Place,
    /// The space of the mapping that is copied. It may be the target.
    pub source: u32,
    /// That mapping's address.
    pub source_address: u64,
    /// That mapping's length.
    pub length: u64,
}

/// Removes the mappings that lie inside a range; the answer is the bytes removed. A mapping that the range cuts, or none inside, is a refusal.
#[derive(Clone, Copy, Debug, PartialEq, Eq)]
pub struct Unmap {
    /// The space.
    pub space: u32,
    /// The first address of the range.
    pub address: u64,
    /// Its length in bytes.
    pub length: u64,
}

impl Unmap {
    /// Removes every mapping of a space, also one at the last address, and succeeds where there is none.
    pub const fn all(space: u32) -> Unmap {
        Unmap { space, address: 0, length: u64::MAX }
    }
}

/// Makes a space; the answer is its id.
#[derive(Clone, Copy, Debug, PartialEq, Eq)]
pub struct IoasAlloc;

/// Removes an object: a loose device, or a space without devices, with its mappings.
#[derive(Clone, Copy, Debug, PartialEq, Eq)]
pub struct Destroy {
    /// The object.
    pub id: u32,
}

/// Replaces a space's allow list, which says where automatic mappings may go. No range empties the list: then they may go anywhere.
#[derive(Clone, Copy, Debug, PartialEq, Eq)]
pub struct AllowIovas<'a> {
    /// The space.
    pub space: u32,
    /// The list, at most [`MOST_ALLOWED`] ranges; more are refused.
    pub ranges: &'a [Range],
}

/// Asks for the ranges of a space that no device of it reserves.
#[derive(Clone, Copy, Debug, PartialEq, Eq)]
pub struct IovaRanges {
    /// The space.
    pub space: u32,
    /// How many ranges the range area has room for.
    pub room: u32,
}

/// What IOVA_RANGES tells. Where `written` is below `total`, the ranges that had room are there and the others are not: C's EMSGSIZE.
#[derive(Clone, Copy, Debug, PartialEq, Eq)]
#[must_use]
pub struct FreeRanges {
    /// How many ranges there are.
    pub total: usize,
    /// How many of them were written, from the lowest on.
    pub written: usize,
    /// What addresses and lengths of the space are multiples of.
    pub alignment: u64,
}

impl FreeRanges {
    /// Whether all ranges were written.
    pub const fn complete(&self) -> bool {
        self.written == self.total
    }
}

// ---- their bytes

impl Map {
    /// The request number.
    pub const REQUEST: u32 = request::MAP;
    /// The size in bytes.
    pub const SIZE: usize = 40;

    /// The command's bytes; the reply has the address in the last field.
    pub fn bytes(&self) -> [u8; Map::SIZE] {
        let (fixed, address) = self.place.field();
        encode([fixed | self.rights.flags(), self.space, 0], [self.memory, self.length, address])
    }
}

impl Copy {
    /// The request number.
    pub const REQUEST: u32 = request::COPY;
    /// The size in bytes.
    pub const SIZE: usize = 40;

    /// The command's bytes; the reply has the address in the field before the last.
    pub fn bytes(&self) -> [u8; Copy::SIZE] {
        let (fixed, address) = self.place.field();
        encode([fixed | self.rights.flags(), self.target, self.source], [self.length, address, self.source_address])
    }
}

impl Unmap {
    /// The request number.
    pub const REQUEST: u32 = request::UNMAP;
    /// The size in bytes.
    pub const SIZE: usize = 24;

    /// The command's bytes; the reply has the bytes removed in the last field.
    pub fn bytes(&self) -> [u8; Unmap::SIZE] {
        encode([self.space], [self.address, self.length])
    }
}

impl IoasAlloc {
    /// The request number.
    pub const REQUEST: u32 = request::IOAS_ALLOC;
    /// The size in bytes.
    pub const SIZE: usize = 12;

    /// The command's bytes; the reply has the id in the last field.
    pub fn bytes(&self) -> [u8; IoasAlloc::SIZE] {
        encode([0, 0], [])
    }
}

impl Destroy {
    /// The request number.
    pub const REQUEST: u32 = request::DESTROY;
    /// The size in bytes.
    pub const SIZE: usize = 8;

    /// The command's bytes.
    pub fn bytes(&self) -> [u8; Destroy::SIZE] {
        encode([self.id], [])
    }
}

impl AllowIovas<'_> {
    /// The request number.
    pub const REQUEST: u32 = request::ALLOW_IOVAS;
    /// The size in bytes.
    pub const SIZE: usize = 24;

    /// The command's bytes. The pointer field is 0: the archive takes the list from the range area.
    pub fn bytes(&self) -> [u8; AllowIovas::SIZE] {
        let count = u32::try_from(self.ranges.len()).unwrap_or(u32::MAX);
        encode([self.space, count, 0], [0])
    }

    /// The range area. It has the first [`MOST_ALLOWED`] ranges: where there are more, the count is refused before a range is read.
    pub fn area(&self) -> [u8; RANGE * MOST_ALLOWED] {
        let mut area = [0; RANGE * MOST_ALLOWED];
        for (place, range) in area.chunks_exact_mut(RANGE).zip(self.ranges) {
            place.copy_from_slice(&range.bytes());
        }
        area
    }
}

impl IovaRanges {
    /// The request number.
    pub const REQUEST: u32 = request::IOVA_RANGES;
    /// The size in bytes.
    pub const SIZE: usize = 32;

    /// The command's bytes; the reply has the full number of ranges in place of the room, and the alignment in the last field. The pointer field is 0, as in ALLOW_IOVAS.
    pub fn bytes(&self) -> [u8; IovaRanges::SIZE] {
        encode([self.space, self.room, 0], [0, 0])
    }
}

/// The bytes of a range in the range area.
pub(crate) const RANGE: usize = 16;

impl Range {
    fn bytes(self) -> [u8; RANGE] {
        let mut bytes = [0; RANGE];
        bytes[..8].copy_from_slice(&self.start.to_le_bytes());
        bytes[8..].copy_from_slice(&self.last.to_le_bytes());
        bytes
    }

    /// The range in so many bytes of a range area.
    pub(crate) fn of_bytes(bytes: &[u8]) -> Range {
        Range::new(word(bytes, 0), word(bytes, 8))
    }
}

/// A size field, 32-bit fields, 64-bit fields, all little-endian: every command is so.
fn encode<const SIZE: usize, const HALVES: usize, const WORDS: usize>(halves: [u32; HALVES], words: [u64; WORDS]) -> [u8; SIZE] {
    const { assert!(SIZE == 4 + 4 * HALVES + 8 * WORDS) };
    let mut bytes = [0; SIZE];
    let (size, fields) = bytes.split_at_mut(4);
    size.copy_from_slice(&(SIZE as u32).to_le_bytes());
    let (small, large) = fields.split_at_mut(4 * HALVES);
    for (field, number) in small.chunks_exact_mut(4).zip(halves) {
        field.copy_from_slice(&number.to_le_bytes());
    }
    for (field, number) in large.chunks_exact_mut(8).zip(words) {
        field.copy_from_slice(&number.to_le_bytes());
    }
    bytes
}

/// Where the fields that a reply writes, and those that name a list, stand in their command.
pub(crate) mod at {
    pub const SPACE_MADE: usize = 8;
    pub const MAP_ADDRESS: usize = 32;
    pub const COPY_ADDRESS: usize = 24;
    pub const REMOVED: usize = 16;
    pub const COUNT: usize = 8;
    pub const POINTER: usize = 16;
    pub const ALIGNMENT: usize = 24;
}

/// A 32-bit field.
#[inline]
pub(crate) fn half(bytes: &[u8], at: usize) -> u32 {
    let mut field = [0; 4];
    field.copy_from_slice(&bytes[at..at + 4]);
    u32::from_le_bytes(field)
}

/// A 64-bit field.
#[inline]
pub(crate) fn word(bytes: &[u8], at: usize) -> u64 {
    let mut field = [0; 8];
    field.copy_from_slice(&bytes[at..at + 8]);
    u64::from_le_bytes(field)
}
