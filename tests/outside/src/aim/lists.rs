//! Lists of ranges, as an allow list or a device has them.
use super::{Aim, TOP};
use crate::sight::Range;

impl Aim<'_> {
    /// Ranges apart from each other and from what is reserved, some of them adjoining.
    pub(super) fn tidy_ranges(&mut self, space: u32, wanted: usize) -> Vec<Range> {
        let usable = self.sight.usable(space);
        let (mut ranges, mut within) = (vec![], usable.iter());
        let Some((mut next, mut end)) = within.next() else { return ranges };
        if end - next > 1 << 20 {
            next = self.in_world().clamp(next, end);
        }
        while ranges.len() < wanted {
            let start = next.saturating_add(self.dice.one_of(&[0, 0, 1, self.world.grain]));
            let last = start.saturating_add(self.few().wrapping_mul(self.world.grain) - 1);
            if start <= end {
                ranges.push((start, last.min(end)));
            }
            next = last.saturating_add(1);
            if next > end || last == TOP {
                let Some(more) = within.next() else { return ranges };
                (next, end) = *more;
            }
        }
        ranges
    }

    pub(super) fn wild_ranges(&mut self, space: u32, wanted: usize) -> Vec<Range> {
        (0..wanted).map(|_| self.wild_range(space)).collect()
    }

    pub(super) fn wild_range(&mut self, space: u32) -> Range {
        let (one, other) = (self.address(space), self.address(space));
        match self.dice.below(12) {
            0 => (one, one),
            1 => (one, other),
            2 => self.dice.one_of(&[(0, TOP), (0, 0), (TOP, TOP), (0, TOP - 1), (1, TOP)]),
            3..=6 => (one, one.saturating_add(self.few().wrapping_mul(self.world.grain) - 1)),
            _ => (one.min(other), one.max(other)),
        }
    }

    /// One of them becomes a fault, or nearly.
    pub(super) fn bend_ranges(&mut self, space: u32, ranges: &mut [Range]) {
        let (at, from) = (self.dice.below(ranges.len()), self.dice.below(ranges.len()));
        let (start, last) = ranges[at];
        let reserved = self.sight.reserved(space);
        let other = if reserved.is_empty() || self.dice.chance(2) { ranges[from] } else { self.dice.one_of(&reserved) };
        ranges[at] = match self.dice.below(8) {
            0 => other,
            1 => (last, start),
            2 => (last.wrapping_add(1), last),
            3 => (start, last.wrapping_add(1)),
            4 => (start.wrapping_sub(1), last),
            5 => (start.min(other.0), other.0),
            6 => (other.1, last.max(other.1)),
            _ => (start, self.beside(other)),
        };
    }
}
