//! A table to look at: what the calls ask of its records.
use super::check::Found;
use super::range::{ranges, Range};
use super::{ATTACHED, LOOSE, READ, RECORDS, SPACE, WORDS, WRITE};
use iommufd::raw::{Head, Mapping, Object};

/// The mapping records of a table.
pub type Records = [Mapping; RECORDS];
/// The numbers of the records in use, from 1 on, by space and then by address; zeros behind them.
pub type Index = [u64; WORDS];
/// Places of the index.
pub type Run = std::ops::Range<usize>;

#[derive(Clone, Copy)]
pub struct Table<'a> {
    pub head: &'a Head,
    pub mappings: &'a Records,
    /// The index up to its zeros.
    pub listed: &'a [u64],
    /// What the check has found; where the table is trusted nothing is known, and what a call needs is worked out.
    pub found: Option<&'a Found>,
}

// ---- one record

/// The lowest set bit of a device's page sizes.
pub fn page(bitmap: u64) -> u64 {
    bitmap & bitmap.wrapping_neg()
}

pub fn is_device(o: &Object) -> bool {
    o.kind == LOOSE || o.kind == ATTACHED
}

pub fn reserved(device: &Object) -> impl Iterator<Item = Range> + Clone + '_ {
    ranges(&device.reserved_starts, &device.reserved_lasts, device.reserved_count)
}

pub fn allowed(space: &Object) -> impl Iterator<Item = Range> + Clone + '_ {
    ranges(&space.allow_starts, &space.allow_lasts, space.allow_count)
}

/// The addresses of a good mapping.
pub fn extent(m: &Mapping) -> Range {
    Range { start: m.address, last: m.address + (m.length - 1) }
}

pub fn holds(m: &Mapping, write: bool) -> bool {
    m.rights & if write { WRITE } else { READ } != 0
}

/// The pages that the bytes touch, of which there is at least one.
pub fn pages(memory: u64, length: u64) -> u64 {
    (memory + (length - 1)) / 4096 - memory / 4096 + 1
}

// ---- the index of a good table

/// The index up to its zeros.
pub fn listed(index: &Index) -> &[u64] {
    &index[..index.partition_point(|&number| number != 0)]
}

fn numbered(mappings: &Records, number: u64) -> &Mapping {
    &mappings[number as usize - 1]
}

/// The place of the first mapping of a space that ends at an address or behind it; where there is none, that of what follows the space.
pub fn seek(mappings: &Records, listed: &[u64], space: u32, address: u64) -> usize {
    listed.partition_point(|&number| {
        let m = numbered(mappings, number);
        (m.space, extent(m).last) < (space, address)
    })
}

/// The mapping at a place, where it is one of the space.
fn at<'a>(mappings: &'a Records, listed: &[u64], place: usize, space: u32) -> Option<&'a Mapping> {
    listed.get(place).map(|&number| numbered(mappings, number)).filter(|m| m.space == space)
}

/// Whether a mapping of a space shares an address with a range.
pub fn is_mapped(mappings: &Records, listed: &[u64], space: u32, range: Range) -> bool {
    at(mappings, listed, seek(mappings, listed, space, range.start), space).is_some_and(|m| m.address <= range.last)
}

// ---- the whole

impl<'a> Table<'a> {
    /// The object with an id; `None` also where the record is free.
    pub fn object(self, id: u32) -> Option<&'a Object> {
        let object = self.head.objects.get((id as usize).checked_sub(1)?)?;
        (object.kind != 0).then_some(object)
    }

    pub fn space(self, id: u32) -> Option<&'a Object> {
        self.object(id).filter(|o| o.kind == SPACE)
    }

    pub fn device(self, id: u32) -> Option<&'a Object> {
        self.object(id).filter(|o| is_device(o))
    }

    /// The lowest free object record.
    pub fn free_object(self) -> Option<usize> {
        self.found.filter(|found| found.looked).map_or_else(|| self.head.objects.iter().position(|o| o.kind == 0), |found| found.object)
    }

    /// The lowest released mapping record.
    pub fn free_mapping(self) -> Option<usize> {
        self.found.filter(|found| found.looked).map_or_else(|| self.mappings.iter().position(|m| m.space == 0), |found| found.mapping)
    }

    /// The devices of a space.
    pub fn devices(self, space: u32) -> impl Iterator<Item = &'a Object> + Clone {
        self.head.objects.iter().filter(move |o| o.kind == ATTACHED && o.home == space)
    }

    /// The alignment of a space that there is.
    pub fn alignment(self, space: u32) -> u64 {
        match self.found {
            Some(found) => found.alignments[space as usize],
            None => self.devices(space).map(|d| page(d.bitmap)).max().unwrap_or(1),
        }
    }

    /// What the devices of a space reserve.
    pub fn reserved(self, space: u32) -> impl Iterator<Item = Range> + Clone + 'a {
        self.devices(space).flat_map(reserved)
    }

    /// The place in the index of the first mapping of a space that ends at an address or behind it.
    pub fn seek(self, space: u32, address: u64) -> usize {
        seek(self.mappings, self.listed, space, address)
    }

    /// The mapping at a place of the index, where it is one of the space.
    pub fn at(self, place: usize, space: u32) -> Option<&'a Mapping> {
        at(self.mappings, self.listed, place, space)
    }

    /// The mappings of a space from a place of the index on, in ascending address.
    pub fn from(self, place: usize, space: u32) -> impl Iterator<Item = &'a Mapping> + Clone {
        self.listed[place..].iter().map(move |&number| numbered(self.mappings, number)).take_while(move |m| m.space == space)
    }

    /// The first mapping of a space that ends at an address or behind it.
    pub fn first_from(self, space: u32, address: u64) -> Option<&'a Mapping> {
        self.at(self.seek(space, address), space)
    }

    pub fn mappings(self, space: u32) -> impl Iterator<Item = &'a Mapping> + Clone {
        self.from(self.seek(space, 0), space)
    }

    /// The places in the index of all mappings of a space.
    pub fn run(self, space: u32) -> Run {
        self.seek(space, 0)..self.seek(space + 1, 0)
    }

    /// Whether a mapping of a space shares an address with a range.
    pub fn is_mapped(self, space: u32, range: Range) -> bool {
        is_mapped(self.mappings, self.listed, space, range)
    }

    /// The pages of all backings, each counted once.
    pub fn charge(self) -> u64 {
        self.found.map_or_else(|| self.marked().1, |found| found.charge)
    }

    /// The charge, and the lowest backing number that no mapping has: there is one where a mapping record is free.
    pub fn backings(self) -> (u64, u32) {
        let lowest = |marks: &[u8; RECORDS + 1]| (1..).zip(&marks[1..]).find(|(_, &mark)| mark == 0).map_or(0, |(n, _)| n);
        match self.found {
            Some(found) => (found.charge, lowest(&found.marks)),
            None => {
                let (marks, charge) = self.marked();
                (charge, lowest(&marks))
            }
        }
    }

    /// A mark for each backing, and their charge.
    fn marked(self) -> ([u8; RECORDS + 1], u64) {
        let (mut marks, mut charge) = ([0; RECORDS + 1], 0);
        for m in self.mappings.iter().filter(|m| m.space != 0) {
            if std::mem::replace(&mut marks[m.backing as usize], 1) == 0 {
                charge += pages(m.memory, m.length);
            }
        }
        (marks, charge)
    }
}
