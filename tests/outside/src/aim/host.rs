//! The host calls.
use super::{Aim, TOP};
use crate::calls::Call;
use crate::sight::{last, Range};
use iommufd::raw::{Mapping, Reserved};

impl Aim<'_> {
    fn bitmap(&mut self) -> u64 {
        let most = (self.world.grain.trailing_zeros() + 3).min(13) as usize;
        let low = 1u64 << self.dice.below(most);
        let higher = self.dice.roll() & !(low | (low - 1));
        match self.dice.below(2 * self.mood.field + 4) {
            0 => self.dice.one_of(&[0, 1 << 12, 1 << 13, 3 << 12, 3 << 13, 1 << 63, TOP, 1 << 32]),
            1..=3 => low | higher,
            _ => low,
        }
    }

    /// A range for a device to reserve, often one that a space with mappings and an allow list can bear.
    fn reserved_range(&mut self, earlier: &[Range]) -> Range {
        let space = self.space();
        let length = self.few().wrapping_mul(self.world.grain);
        let (start, last) = self.gap(space);
        let before = earlier.last().copied().unwrap_or((0, 0));
        match self.dice.weighted(&[4, 3, 3, 2, 2, 1, 2]) {
            0 => (start, last.min(start.saturating_add(length - 1))),
            1 => (last.saturating_sub(length - 1).max(start), last),
            2 => {
                let start = self.in_world();
                (start, start.saturating_add(length - 1))
            }
            3 => (before.1.saturating_add(1), before.1.saturating_add(length)),
            4 => before,
            5 => self.wild_range(space),
            _ => self.all_but((start, last), length),
        }
    }

    /// All from an address on, or up to one: what is left is small, so that a place can be missing without an allow list.
    fn all_but(&mut self, (start, last): Range, length: u64) -> Range {
        let (at, behind) = (self.in_world(), start.saturating_add(length));
        self.dice.one_of(&[(start, TOP), (last, TOP), (behind, TOP), (at, TOP), (0, last), (0, behind), (0, at), (0, at)])
    }

    pub fn bind(&mut self) -> Call {
        let bitmap = self.bitmap();
        let count = self.dice.one_of(&[0, 0, 1, 1, 2, 3, 4, 4]);
        let mut ranges: Vec<Range> = vec![];
        for _ in 0..count {
            let range = self.reserved_range(&ranges);
            ranges.push(range);
        }
        self.dice.shuffle(&mut ranges);
        if count > 0 && self.dice.chance(3 * self.mood.field) {
            self.bend_ranges(0, &mut ranges);
        }
        Call::Bind { bitmap, reserved: self.reserved(&ranges) }
    }

    fn reserved(&mut self, ranges: &[Range]) -> Reserved {
        let mut made = Reserved { count: ranges.len() as u32, ..Reserved::default() };
        if self.dice.chance(2) {
            // what is past the count, and the spare field, are not read
            made = Reserved { count: made.count, spare: self.dice.roll() as u32, starts: [TOP; 4], lasts: [self.dice.roll(); 4] };
        }
        for (k, (start, last)) in ranges.iter().enumerate() {
            (made.starts[k], made.lasts[k]) = (*start, *last);
        }
        if self.dice.chance(4 * self.mood.field) {
            made.count = self.dice.one_of(&[5, 6, 8, 256, 1 << 31, u32::MAX]);
        }
        made
    }

    pub fn attach(&mut self) -> Call {
        Call::Attach { device: self.device(false), space: self.space() }
    }

    pub fn detach(&mut self) -> Call {
        Call::Detach { device: self.device(true) }
    }

    pub fn reach(&mut self) -> Call {
        let device = self.device(true);
        let home = self.sight.object(device).map_or(0, |object| object.home);
        let mapped = self.sight.mappings(home);
        let one = if mapped.is_empty() { Mapping::default() } else { *self.dice.one_of(&mapped) };
        let (address, length) = self.part_to_reach(home, one);
        let write = self.dice.one_of(&[0, 0, 0, 1, 1, 2, 256, 1 << 31, u32::MAX]);
        Call::Reach { device, address, length, write }
    }

    /// At an end of a mapping or just beside it, inside, or anywhere. The space is one that there is, most often.
    pub fn next_mapping(&mut self) -> Call {
        let space = self.space();
        let mapped = self.sight.mappings(space);
        let one = if mapped.is_empty() { Mapping::default() } else { *self.dice.one_of(&mapped) };
        let inside = one.address.wrapping_add(self.dice.roll() % one.length.max(1));
        let near = [one.address, one.address.wrapping_sub(1), last(&one), last(&one), last(&one).wrapping_add(1), last(&one).wrapping_add(1), inside];
        let anywhere = [self.address(space), self.in_world(), self.dice.roll(), 0, 0, TOP];
        let address = if self.dice.chance(3) { self.dice.one_of(&anywhere) } else { self.dice.one_of(&near) };
        Call::Next { space, address }
    }

    fn part_to_reach(&mut self, space: u32, one: Mapping) -> (u64, u64) {
        let within = self.dice.roll() % one.length.max(1);
        let rest = one.length.wrapping_sub(within);
        let inside = one.address.wrapping_add(within);
        let address = self.address(space);
        match self.dice.below(12) {
            0 | 1 => (one.address, one.length),
            2 | 3 => (inside, rest),
            4 => (inside, 1),
            5 => (inside, rest.wrapping_add(1)),
            6 => (one.address.wrapping_sub(1), one.length),
            7 => (one.address, one.length.wrapping_add(1)),
            8 => (last(&one), self.dice.one_of(&[1, 2])),
            9 => (address, self.dice.one_of(&[0, 1, 2, TOP, address.wrapping_neg(), address.wrapping_neg().wrapping_add(1)])),
            10 => (inside, self.dice.one_of(&[0, TOP, inside.wrapping_neg(), inside.wrapping_neg().wrapping_add(1)])),
            _ => (address, self.length(space)),
        }
    }
}
