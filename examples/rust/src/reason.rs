//! What stood in the way of a MAP or a COPY.
use crate::raw::Explanation;
use crate::Errno;
use core::fmt;

/// A run of free addresses.
#[derive(Clone, Copy, Debug, PartialEq, Eq, Hash)]
pub struct Run {
    /// Its first address, a multiple of the space's alignment.
    pub start: u64,
    /// How many addresses it has, at least one.
    pub length: u64,
}

/// The first failing check of a MAP or a COPY.
#[derive(Clone, Copy, Debug, PartialEq, Eq, Hash)]
pub enum Reason {
    /// Fewer than the four bytes of the size field are lent.
    NoSizeField,
    /// The size field is below the size of the command.
    SizeTooSmall,
    /// The size field is above the number of bytes lent.
    SizePastBytes,
    /// A byte behind the command's fields is not zero.
    TailNotZero,
    /// An unknown flag, or MAP's reserved field.
    Flags,
    /// Neither right is asked.
    NoRight,
    /// A length of 0, or above 2^40.
    WrongLength,
    /// MAP's memory ends past the last address.
    MemoryPasses,
    /// COPY's source ends past the last address.
    SourcePasses,
    /// The fixed range ends past the last address.
    AddressPasses,
    /// No such space; of a COPY, no such target.
    NoSpace,
    /// No such source space.
    NoSourceSpace,
    /// No mapping of the source space has this address and length.
    NoSource,
    /// The right to write is asked, and the founding MAP did not have it.
    NotWriteable,
    /// The fixed address or its end is no multiple of the space's alignment.
    Misaligned,
    /// The fixed range touches what the object with this id reserves; none with a lower id reserves an address of it.
    TouchesReserved(u32),
    /// The fixed range touches the mapping in the record with this number, 1 to 128; none in a lower one has an address of it.
    TouchesMapping(u32),
    /// The length is no multiple of the space's alignment.
    LengthMisaligned,
    /// No place: this is the longest free run, the lowest of equals, or there is none.
    NoPlace(Option<Run>),
    /// No mapping record is free.
    NoRecord,
    /// The charge would pass the limit.
    OverLimit,
    /// A number that is none of the above. The archive is proved never to tell one; see [`Errno::Other`].
    Other(u64),
}

impl Reason {
    /// What an explanation says; nothing where the call would be accepted.
    pub fn of(told: &Explanation) -> Option<Reason> {
        // an id is at most 32, the number of a record at most 128
        let number = told.number as u32;
        let run = (told.length > 0).then_some(Run { start: told.start, length: told.length });
        Some(match told.reason {
            0 => return None,
            1 => Reason::NoSizeField,
            2 => Reason::SizeTooSmall,
            3 => Reason::SizePastBytes,
            4 => Reason::TailNotZero,
            5 => Reason::Flags,
            6 => Reason::NoRight,
            7 => Reason::WrongLength,
            8 => Reason::MemoryPasses,
            9 => Reason::SourcePasses,
            10 => Reason::AddressPasses,
            11 => Reason::NoSpace,
            12 => Reason::NoSourceSpace,
            13 => Reason::NoSource,
            14 => Reason::NotWriteable,
            15 => Reason::Misaligned,
            16 => Reason::TouchesReserved(number),
            17 => Reason::TouchesMapping(number),
            18 => Reason::LengthMisaligned,
            19 => Reason::NoPlace(run),
            20 => Reason::NoRecord,
            21 => Reason::OverLimit,
            other => Reason::Other(other),
        })
    }

    /// The errno that the call answers for it.
    pub fn errno(self) -> Errno {
        Errno::from_number(self.row().0)
    }

    /// Errno and sentence.
    const fn row(self) -> (i32, &'static str) {
        match self {
            Reason::NoSizeField => (14, "fewer than the four bytes of the size field are lent"),
            Reason::SizeTooSmall => (22, "the size field is below the size of the command"),
            Reason::SizePastBytes => (14, "the size field is above the number of bytes lent"),
            Reason::TailNotZero => (7, "a byte behind the command's fields is not zero"),
            Reason::Flags => (95, "a flag is unknown, or the reserved field is not zero"),
            Reason::NoRight => (22, "neither the right to write nor the right to read is asked"),
            Reason::WrongLength => (22, "the length is 0 or above 2^40"),
            Reason::MemoryPasses => (75, "the memory ends past the last address"),
            Reason::SourcePasses => (75, "the source ends past the last address"),
            Reason::AddressPasses => (75, "the fixed range ends past the last address"),
            Reason::NoSpace => (2, "there is no such space"),
            Reason::NoSourceSpace => (2, "there is no such source space"),
            Reason::NoSource => (2, "the source space has no mapping with this address and length"),
            Reason::NotWriteable => (1, "the right to write is asked, and the founding MAP did not have it"),
            Reason::Misaligned => (22, "the address or the end is no multiple of the space's alignment"),
            Reason::TouchesReserved(_) => (22, "the range touches what a device reserves"),
            Reason::TouchesMapping(_) => (17, "the range touches a mapping"),
            Reason::LengthMisaligned => (22, "the length is no multiple of the space's alignment"),
            Reason::NoPlace(_) => (28, "no free place is long enough"),
            Reason::NoRecord => (12, "no mapping record is free"),
            Reason::OverLimit => (12, "the charge would pass the limit"),
            Reason::Other(_) => (0, "no reason of this interface"),
        }
    }
}

impl fmt::Display for Reason {
    fn fmt(&self, f: &mut fmt::Formatter<'_>) -> fmt::Result {
        let text = self.row().1;
        match *self {
            Reason::TouchesReserved(id) => write!(f, "{text}: object {id}"),
            Reason::TouchesMapping(number) => write!(f, "{text}: record {number}"),
            Reason::NoPlace(Some(run)) => write!(f, "{text}: the longest free run is {:#x} bytes at {:#x}", run.length, run.start),
            Reason::NoPlace(None) => write!(f, "{text}: no multiple of the alignment is free"),
            Reason::Other(code) => write!(f, "{text}: {code}"),
            _ => f.write_str(text),
        }
    }
}
