//! The mappings of a space, read off the index and the records, and those of a range, asked for one after another.
use crate::command::{Range, Rights};
use crate::raw;
use crate::table::Table;
use core::iter::FusedIterator;
use core::slice;

/// A mapping of a space.
#[derive(Clone, Copy, Debug, PartialEq, Eq)]
#[non_exhaustive]
pub struct Mapping {
    /// The first address.
    pub address: u64,
    /// The length in bytes.
    pub length: u64,
    /// The first byte of memory.
    pub memory: u64,
    /// What a device of the space may do.
    pub rights: Rights,
    /// The backing's number; mappings of one backing share its memory and its charge.
    pub backing: u32,
}

impl Mapping {
    /// Its addresses. The last one is at most 2^64 - 1, so that the sum is right though it may wrap on its way.
    pub const fn range(&self) -> Range {
        Range::new(self.address, self.address.wrapping_add(self.length).wrapping_sub(1))
    }

    /// That of a record by its number; none has the number 0.
    pub(crate) fn numbered(records: &[raw::Mapping; raw::MAPPINGS], number: u64) -> Option<Mapping> {
        record(records, number).map(Mapping::of)
    }

    fn of(record: &raw::Mapping) -> Mapping {
        Mapping {
            address: record.address,
            length: record.length,
            memory: record.memory,
            rights: Rights::of_record(record.rights),
            backing: record.backing,
        }
    }
}

/// The mappings of a space in ascending address, as the table's index has them side by side. Nothing is allocated, and of the other records hardly one is read.
#[derive(Clone, Debug)]
pub struct Mappings<'a> {
    records: &'a [raw::Mapping; raw::MAPPINGS],
    /// The numbers of the records that are still to come.
    numbers: slice::Iter<'a, u64>,
}

/// The record that has a number of the index.
fn record(records: &[raw::Mapping; raw::MAPPINGS], number: u64) -> Option<&raw::Mapping> {
    records.get(usize::try_from(number).ok()?.checked_sub(1)?)
}

impl<'a> Mappings<'a> {
    pub(crate) fn of(records: &'a [raw::Mapping; raw::MAPPINGS], index: &'a [u64; raw::INDEX_WORDS], space: u32) -> Mappings<'a> {
        let space_of = |number: &u64| record(records, *number).map_or(0, |record| record.space);
        // The index is ordered by space, and the zeros behind it are of none.
        let listed = &index[..index.partition_point(|number| *number != 0)];
        let from = &listed[listed.partition_point(|number| space_of(number) < space)..];
        let own = &from[..from.partition_point(|number| space_of(number) == space)];
        Mappings { records, numbers: own.iter() }
    }
}

impl Iterator for Mappings<'_> {
    type Item = Mapping;

    fn next(&mut self) -> Option<Mapping> {
        self.numbers.next().and_then(|number| Mapping::numbered(self.records, *number))
    }

    fn size_hint(&self) -> (usize, Option<usize>) {
        self.numbers.size_hint()
    }
}

impl ExactSizeIterator for Mappings<'_> {}
impl FusedIterator for Mappings<'_> {}

/// The mappings of a space that share an address with a range, in ascending address: the walk that the C header shows beside `iommufd_next`.
#[derive(Clone, Debug)]
pub struct Walk<'a> {
    table: &'a Table,
    space: u32,
    /// Where to go on; nothing is left behind the last address of all, and behind the range.
    from: Option<u64>,
    last: u64,
}

impl<'a> Walk<'a> {
    pub(crate) fn over(table: &'a Table, space: u32, range: Range) -> Walk<'a> {
        Walk { table, space, from: (range.start <= range.last).then_some(range.start), last: range.last }
    }
}

impl Iterator for Walk<'_> {
    type Item = Mapping;

    fn next(&mut self) -> Option<Mapping> {
        // Only an id that is no space is refused.
        let found = self.table.next(self.space, self.from?).ok().flatten();
        let found = found.filter(|mapping| mapping.address <= self.last);
        self.from = found.and_then(|mapping| mapping.range().last.checked_add(1));
        found
    }
}

impl FusedIterator for Walk<'_> {}
