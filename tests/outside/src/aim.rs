//! Calls aimed at what a table holds: many that are accepted, and most of the others one step from it.
mod bends;
mod commands;
mod host;
mod lists;

use crate::dice::Dice;
use crate::sight::{last, Range, Sight, PAGE};
use crate::wire::{FIXED, READABLE, WRITEABLE};
use iommufd::raw::Mapping;

/// Where a sequence lives: base + k * grain for k below span. A small world lets things meet.
#[derive(Clone, Copy, Debug)]
pub struct World {
    pub base: u64,
    pub grain: u64,
    pub span: usize,
}

/// How often commands are bent: one in so many has a field changed, one in so many its bytes as a whole.
#[derive(Clone, Copy, Debug)]
pub struct Mood {
    pub field: usize,
    pub wire: usize,
}

pub struct Aim<'a> {
    pub dice: &'a mut Dice,
    pub world: World,
    pub mood: Mood,
    pub sight: Sight<'a>,
}

const LONGEST: u64 = 1 << 40;
const TOP: u64 = u64::MAX;
const EDGES: [u64; 14] =
    [0, 1, PAGE - 1, PAGE, PAGE + 1, 0xFFFF_FFFF, 1 << 32, LONGEST, 1 << 63, TOP - PAGE, TOP - PAGE + 1, TOP - 2, TOP - 1, TOP];

fn up(value: u64, unit: u64) -> u64 {
    value.div_ceil(unit).wrapping_mul(unit)
}

fn down(value: u64, unit: u64) -> u64 {
    value / unit * unit
}

// ---- numbers
impl Aim<'_> {
    fn few(&mut self) -> u64 {
        1 + self.dice.below(4) as u64
    }

    fn anything(&mut self) -> u64 {
        let bits = self.dice.below(64);
        self.dice.roll() >> bits
    }

    /// What a field that is not read may hold.
    fn garbage(&mut self) -> u64 {
        if self.dice.chance(2) { self.dice.roll() } else { self.dice.one_of(&EDGES) }
    }

    fn in_world(&mut self) -> u64 {
        let at = self.dice.below(self.world.span) as u64;
        self.world.base.wrapping_add(at.wrapping_mul(self.world.grain))
    }

    /// At or beside an end of a range.
    fn beside(&mut self, (start, last): Range) -> u64 {
        let after = last.wrapping_add(1);
        self.dice.one_of(&[start, start.wrapping_sub(1), start.wrapping_add(1), last, last.wrapping_sub(1), after])
    }

    /// Something that a space has: a mapping, a reserved range or an allowed one.
    fn having(&mut self, space: u32) -> Option<Range> {
        let kind = self.dice.below(4);
        let ranges: Vec<Range> = match kind {
            0 => self.sight.reserved(space),
            1 => self.sight.allowed(space),
            _ => self.sight.mappings(space).into_iter().map(|mapping| (mapping.address, last(mapping))).collect(),
        };
        (!ranges.is_empty()).then(|| self.dice.one_of(&ranges))
    }

    fn address(&mut self, space: u32) -> u64 {
        match self.dice.weighted(&[5, 7, 2, 1]) {
            0 => self.in_world(),
            1 => self.having(space).map_or(0, |range| self.beside(range)),
            2 => self.dice.one_of(&EDGES),
            _ => self.anything(),
        }
    }

    fn gap(&mut self, space: u32) -> Range {
        let mut free = self.sight.free(space);
        free.truncate(6); // the gap above everything is always huge and need not be chosen more often than the others
        if free.is_empty() { (0, 0) } else { self.dice.one_of(&free) }
    }

    /// Exactly as long as a gap or an allowed range, or a little off.
    fn fitting(&mut self, space: u32, unit: u64) -> u64 {
        let allowed = self.sight.allowed(space);
        let (start, last) = if allowed.is_empty() || self.dice.chance(2) { self.gap(space) } else { self.dice.one_of(&allowed) };
        let whole = last.wrapping_sub(up(start, unit)).wrapping_add(1);
        let length = down(whole, unit).wrapping_add(self.dice.one_of(&[0, 0, unit, unit.wrapping_neg(), 1]));
        if (1..=LONGEST).contains(&length) { length } else { unit }
    }

    fn length(&mut self, space: u32) -> u64 {
        let (unit, few) = (self.sight.alignment(space), self.few());
        match self.dice.weighted(&[9, 5, 5, 2, 2]) {
            0 => unit.wrapping_mul(few),
            1 => up(self.world.grain.wrapping_mul(few), unit),
            2 => self.fitting(space, unit),
            3 => self.dice.one_of(&[LONGEST, LONGEST.wrapping_sub(unit), LONGEST / 2, PAGE, PAGE - 1, PAGE + 1]),
            _ => self.sight.pages_left().clamp(1, 1 << 28) * PAGE,
        }
    }

    /// Memory for so many bytes: the charge depends on where in a page it begins.
    fn memory(&mut self, length: u64) -> u64 {
        let page = self.dice.below(64) as u64 * PAGE;
        match self.dice.weighted(&[6, 4, 2, 1, 1]) {
            0 => page,
            1 => page + self.dice.one_of(&[1, PAGE - 1, PAGE / 2, PAGE - length % PAGE, (PAGE - length % PAGE) % PAGE + 1]),
            2 => length.wrapping_neg(),
            3 => self.dice.one_of(&EDGES),
            _ => self.anything(),
        }
    }

    /// An address where a fixed mapping of so many bytes may well be permitted.
    fn landing(&mut self, space: u32, length: u64) -> u64 {
        let unit = self.sight.alignment(space);
        let (start, last) = self.gap(space);
        match self.dice.weighted(&[6, 4, 4, 1, 2]) {
            0 => up(start, unit),
            1 => last.wrapping_sub(length).wrapping_add(1),
            2 => down(self.in_world(), unit),
            3 => length.wrapping_neg(),
            _ => self.address(space),
        }
    }

    fn flags(&mut self, fixed: bool) -> u64 {
        let rights = self.dice.one_of(&[READABLE, READABLE, WRITEABLE, READABLE | WRITEABLE, READABLE | WRITEABLE]);
        rights | if fixed { FIXED } else { 0 }
    }
}

// ---- ids
impl Aim<'_> {
    fn one_id(&mut self, ids: &[u32]) -> u32 {
        if ids.is_empty() || self.dice.chance(40) { self.odd_id() } else { self.dice.one_of(ids) }
    }

    /// An id that is perhaps of the wrong kind, free, or none at all.
    fn odd_id(&mut self) -> u32 {
        let any = 1 + self.dice.below(32) as u32;
        self.dice.one_of(&[0, 33, 34, u32::MAX, 1 << 31, 256 + any, 32, any, any, 1, 2, 3])
    }

    fn space(&mut self) -> u32 {
        let spaces = self.sight.spaces.clone();
        // most calls meet in few spaces, also where a table has many
        let few = if self.dice.chance(4) { spaces.len() } else { spaces.len().min(2) };
        self.one_id(&spaces[..few])
    }

    fn device(&mut self, attached: bool) -> u32 {
        let (loose, attached_ids) = (self.sight.loose.clone(), self.sight.attached.clone());
        let (wanted, other) = if attached { (attached_ids, loose) } else { (loose, attached_ids) };
        let ids = if wanted.is_empty() || self.dice.chance(12) { other } else { wanted };
        self.one_id(&ids)
    }

    fn mapping(&mut self) -> Option<Mapping> {
        let used = &self.sight.used;
        (!used.is_empty()).then(|| self.sight.lent.mappings[used[self.dice.below(used.len())]])
    }
}
