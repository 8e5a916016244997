//! A call as data, and the table that it is made on: what the archive, the model and the plain program all take.
use iommufd::raw::{Head, Mapping, Number, Reserved, EXPLAIN_WORDS};

/// A table in the caller's memory. The numbers of mapping records and of words of the index that are lent may be any; a good table has 128 of each.
#[derive(Clone, Debug, PartialEq, Eq)]
pub struct Lent {
    pub head: Box<Head>,
    pub mappings: Vec<Mapping>,
    pub index: Vec<u64>,
}

impl Lent {
    /// Memory of the right size in which everything is 0.
    pub fn zeroed() -> Lent {
        Lent { head: Box::default(), mappings: vec![Mapping::default(); 128], index: vec![0; 128] }
    }
}

/// A call with its arguments. The bytes and the area of a command are those lent to it, and hold the reply afterwards.
#[derive(Clone, Debug, PartialEq, Eq)]
pub enum Call {
    Fresh { limit: u64 },
    Command { request: u32, bytes: Vec<u8>, area: Vec<u8> },
    /// What the command would answer; the table stays.
    Preview { request: u32, bytes: Vec<u8>, area: Vec<u8> },
    Bind { bitmap: u64, reserved: Reserved },
    Attach { device: u32, space: u32 },
    Detach { device: u32 },
    /// `write` of 0 reads, any other writes.
    Reach { device: u32, address: u64, length: u64, write: u32 },
    Charge,
    /// The number of the record is the value.
    Next { space: u32, address: u64 },
    /// Why a command would be refused. The words are those lent to it, and hold what it tells afterwards; bytes and table stay.
    Explain { request: u32, bytes: Vec<u8>, words: [u64; EXPLAIN_WORDS] },
}

impl Call {
    /// The bytes and the area of a command, nothing of any other call. A command that is to be explained has no area.
    pub fn lent_bytes(&self) -> (&[u8], &[u8]) {
        match self {
            Call::Command { bytes, area, .. } | Call::Preview { bytes, area, .. } => (bytes, area),
            Call::Explain { bytes, .. } => (bytes, &[]),
            _ => (&[], &[]),
        }
    }

    /// The words that an explanation goes into, nothing of any other call.
    pub fn lent_words(&self) -> &[u64] {
        match self {
            Call::Explain { words, .. } => words,
            _ => &[],
        }
    }

    /// Puts back what was lent: bytes, area and words.
    pub fn put_back(&mut self, new_bytes: &[u8], new_area: &[u8], new_words: &[u64]) {
        match self {
            Call::Command { bytes, area, .. } | Call::Preview { bytes, area, .. } => {
                bytes.copy_from_slice(new_bytes);
                area.copy_from_slice(new_area);
            }
            Call::Explain { bytes, words, .. } => {
                bytes.copy_from_slice(new_bytes);
                words.copy_from_slice(new_words);
            }
            _ => {}
        }
    }
}

/// A system that answers calls: the table, the bytes and the area are changed in place. The value is 0 where a call gives none.
pub type System = fn(&mut Lent, &mut Call) -> Number;
