//! The seven commands as drafts, each likely to be accepted.
use super::{down, up, Aim, LONGEST, TOP};
use crate::sight::last;
use crate::wire::{self, ALLOC, ALLOW, COPY, DESTROY, MAP, RANGES, UNMAP};
use iommufd::raw::Mapping;

/// A command before it becomes bytes: the fields behind its size, and its range area. `space` is the one that it aims at.
pub(super) struct Draft {
    pub request: u32,
    pub space: u32,
    pub values: Vec<u64>,
    pub area: Vec<u8>,
}

impl Aim<'_> {
    fn map(&mut self) -> Draft {
        let space = self.space();
        let length = self.length(space);
        let fixed = self.dice.chance(2);
        let address = if fixed { self.landing(space, length) } else { self.garbage() };
        let across = if fixed && self.dice.chance(10) { self.across(space) } else { None };
        let (address, length) = across.unwrap_or((address, length));
        let values = vec![self.flags(fixed), space.into(), 0, self.memory(length), length, address];
        Draft { request: MAP, space, values, area: vec![] }
    }

    /// From one thing that a space has to another, both touched.
    fn across(&mut self, space: u32) -> Option<(u64, u64)> {
        let reserved = self.sight.reserved(space);
        let both_reserved = !reserved.is_empty() && self.dice.chance(2);
        let mut one_thing = || if both_reserved { Some(self.dice.one_of(&reserved)) } else { self.having(space) };
        let (one, other) = (one_thing()?, one_thing()?);
        let unit = self.sight.alignment(space);
        let (start, last) = (one.0.min(other.0), one.1.max(other.1));
        let length = up(last.saturating_sub(down(start, unit)).min(LONGEST - 1) + 1, unit);
        Some((down(start, unit), length))
    }

    fn copy(&mut self) -> Draft {
        let target = self.space();
        let source = self.mapping().unwrap_or(Mapping { space: 1, length: 1, ..Mapping::default() });
        let fixed = self.dice.chance(2);
        let address = if fixed { self.landing(target, source.length) } else { self.garbage() };
        let values = vec![self.flags(fixed), target.into(), source.space.into(), source.length, address, source.address];
        Draft { request: COPY, space: target, values, area: vec![] }
    }

    fn unmap(&mut self) -> Draft {
        let space = self.space();
        let (address, length) = self.range_to_unmap(space);
        Draft { request: UNMAP, space, values: vec![space.into(), address, length], area: vec![] }
    }

    fn range_to_unmap(&mut self, space: u32) -> (u64, u64) {
        let mapped = self.sight.mappings(space);
        let mut any = || if mapped.is_empty() { Mapping::default() } else { *self.dice.one_of(&mapped) };
        let (one, other) = (any(), any());
        match self.dice.weighted(&[8, 5, 2, 4]) {
            0 => (one.address, one.length),
            1 => self.over(one, other),
            2 => self.dice.one_of(&[(0, TOP), (0, TOP - 1), (1, TOP), (1, TOP - 1), (2, TOP), (TOP, 1)]),
            _ => {
                let start = self.address(space);
                (start, self.length(space))
            }
        }
    }

    /// From one mapping to another, at their ends or beside them.
    fn over(&mut self, one: Mapping, other: Mapping) -> (u64, u64) {
        let (first, second) = if one.address <= other.address { (one, other) } else { (other, one) };
        let start = first.address.wrapping_add(self.dice.one_of(&[0, 0, 0, 1, TOP]));
        let end = last(&second).wrapping_add(self.dice.one_of(&[1, 1, 1, 0, 2]));
        (start, end.wrapping_sub(start))
    }

    fn allow(&mut self) -> Draft {
        let space = self.space();
        let wanted = self.dice.one_of(&[0, 1, 1, 2, 2, 3, 4, 6, 8, 8, 9]);
        let mut ranges = if self.dice.chance(4) { self.wild_ranges(space, wanted) } else { self.tidy_ranges(space, wanted) };
        if self.dice.chance(2) {
            self.dice.shuffle(&mut ranges);
        }
        if self.dice.chance(self.mood.field) && !ranges.is_empty() {
            self.bend_ranges(space, &mut ranges);
        }
        let area = self.around_area(wire::area(&ranges));
        let values = vec![space.into(), ranges.len() as u64, 0, self.garbage()];
        Draft { request: ALLOW, space, values, area }
    }

    /// The area as it is, longer with anything in it, or short.
    fn around_area(&mut self, mut area: Vec<u8>) -> Vec<u8> {
        match self.dice.below(2 * self.mood.field + 4) {
            0 => area.truncate(area.len().saturating_sub(self.dice.one_of(&[1, 8, 15, 16, 17]))),
            1 | 2 => {
                let more = self.dice.one_of(&[1, 8, 15, 16, 17, 40]);
                area.extend(self.dice.bytes(more));
            }
            _ => {}
        }
        area
    }

    fn ranges(&mut self) -> Draft {
        let space = self.space();
        let full = self.sight.usable(space).len();
        let room = self.dice.one_of(&[full, full, full + 1, full.saturating_sub(1), 0, 1, 2, full + 7]);
        let area = self.dice.bytes(16 * room);
        let area = self.around_area(area);
        let values = vec![space.into(), room as u64, 0, self.garbage(), self.garbage()];
        Draft { request: RANGES, space, values, area }
    }

    fn alloc(&mut self) -> Draft {
        Draft { request: ALLOC, space: 0, values: vec![0, self.garbage()], area: vec![] }
    }

    fn destroy(&mut self) -> Draft {
        let id = match self.dice.below(4) {
            0 => self.device(false),
            1 => self.device(true),
            _ => {
                let spaces = self.sight.spaces.clone();
                self.one_id(&spaces)
            }
        };
        Draft { request: DESTROY, space: id, values: vec![id.into()], area: vec![] }
    }

    pub(super) fn draft(&mut self, request: u32) -> Draft {
        match request {
            MAP => self.map(),
            COPY => self.copy(),
            UNMAP => self.unmap(),
            ALLOW => self.allow(),
            RANGES => self.ranges(),
            ALLOC => self.alloc(),
            _ => self.destroy(),
        }
    }
}
