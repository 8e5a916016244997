//! Commands with a fault or nearly: a field changed, or the bytes as a whole.
use super::commands::Draft;
use super::{Aim, LONGEST, TOP};
use crate::calls::Call;
use crate::sight::PAGE;
use crate::wire::{self, Form, Says, FIXED, WRITEABLE};

const STRANGE_REQUESTS: [u32; 12] =
    [0, 0x3B7F, 0x3B87, 0x3B88, 0x3B8F, 0x3B00, 0x80, 0x3A85, 0x0001_3B85, 0x3B85_0000, 0x8000_3B85, u32::MAX];

impl Aim<'_> {
    fn bend_field(&mut self, form: &Form, draft: &mut Draft) {
        let at = self.dice.below(form.fields.len());
        let value = draft.values[at];
        let partner = self.partner(form, draft, form.fields[at].says);
        draft.values[at] = match form.fields[at].says {
            Says::Flags => {
                let any_bit = 8u64 << self.dice.below(29);
                let bit = self.dice.one_of(&[8, 1 << 31, any_bit]);
                let any = self.dice.roll();
                self.dice.one_of(&[value | bit, value | bit, value & FIXED, value ^ FIXED, value ^ WRITEABLE, any])
            }
            Says::Id => self.odd_id().into(),
            Says::Count => {
                let near = [value.wrapping_add(1), value.wrapping_sub(1), 0, 7, 8, 9];
                let far = [1 << 28, (1 << 28) + 1, 1 << 31, u32::MAX.into()];
                if self.dice.chance(2) { self.dice.one_of(&near) } else { self.dice.one_of(&far) }
            }
            Says::Nothing => self.dice.one_of(&[1, 1 << 31, 256, u32::MAX.into()]),
            Says::Length => self.odd_length(draft.space, value, partner),
            Says::Address | Says::Memory => self.odd_start(draft.space, value, partner),
            Says::Unread => self.garbage(),
        };
    }

    /// Of a length one of the addresses that it is added to, of an address the length.
    fn partner(&mut self, form: &Form, draft: &Draft, says: Says) -> u64 {
        let wanted: &[Says] = if says == Says::Length { &[Says::Address, Says::Memory] } else { &[Says::Length] };
        let values = form.fields.iter().zip(&draft.values).filter(|(field, _)| wanted.contains(&field.says));
        let values: Vec<u64> = values.map(|(_, value)| *value).collect();
        if values.is_empty() { 0 } else { self.dice.one_of(&values) }
    }

    fn odd_length(&mut self, space: u32, value: u64, partner: u64) -> u64 {
        let unit = self.sight.alignment(space);
        let near = [value.wrapping_add(1), value.wrapping_sub(1), value.wrapping_add(unit), value.wrapping_sub(unit), value / 2];
        let sums = [partner.wrapping_neg(), partner.wrapping_neg().wrapping_add(1), partner.wrapping_neg().wrapping_sub(1)];
        let edges = [0, 1, LONGEST, LONGEST + 1, LONGEST - 1, LONGEST + unit, TOP, TOP - 1, 1 << 63];
        match self.dice.below(3) {
            0 => self.dice.one_of(&near),
            1 => self.dice.one_of(&sums),
            _ => self.dice.one_of(&edges),
        }
    }

    fn odd_start(&mut self, space: u32, value: u64, length: u64) -> u64 {
        let near = [value.wrapping_add(1), value.wrapping_sub(1), value ^ PAGE, value.wrapping_sub(length), value.wrapping_add(length)];
        let sums = [length.wrapping_neg(), length.wrapping_neg().wrapping_add(1), TOP];
        match self.dice.below(4) {
            0 => self.dice.one_of(&near),
            1 => self.dice.one_of(&sums),
            2 => self.address(space),
            _ => self.having(space).map_or(0, |range| self.beside(range).wrapping_sub(length).wrapping_add(self.dice.below(2) as u64)),
        }
    }

    fn extra(&mut self) -> usize {
        self.dice.one_of(&[1, 2, 3, 4, 7, 8, 8, 16, 24, 56])
    }

    /// The size field grows with zero bytes behind the command: how many.
    fn grow(&mut self, bytes: &mut Vec<u8>) -> usize {
        let more = self.extra();
        let size = bytes.len() + more;
        bytes.resize(size, 0);
        set_size(bytes, size as u64);
        more
    }

    /// Fewer bytes than the command has: not even a size, or less than the size field says, or a size field below the command's too.
    fn cut(&mut self, bytes: &mut Vec<u8>) {
        let rest = self.dice.below(bytes.len().saturating_sub(4));
        match self.dice.below(3) {
            0 => bytes.truncate(self.dice.below(4)),
            1 => bytes.truncate(4 + rest),
            _ => {
                bytes.truncate(4 + rest * self.dice.below(2));
                let size = bytes.len() as u64;
                set_size(bytes, self.dice.one_of(&[0, 3, 4, size, size + 1, size + 3]));
            }
        }
    }

    fn other_size(&mut self, bytes: &mut [u8]) {
        let size = bytes.len() as u64;
        let below = [0, 1, 4, size / 2, size.wrapping_sub(1)];
        let above = [size + 1, size + 2, size + 8, size + 256, size + (1 << 16), 1 << 31, u32::MAX.into()];
        set_size(bytes, if self.dice.chance(2) { self.dice.one_of(&below) } else { self.dice.one_of(&above) });
    }

    /// Bytes behind the one that the size field tells, which are nobody's.
    fn lend_more(&mut self, bytes: &mut Vec<u8>) {
        let more = self.extra();
        bytes.extend(self.dice.bytes(more));
    }

    /// A byte of the tail that is not zero: its first, its last or any.
    fn spoil_tail(&mut self, bytes: &mut Vec<u8>) {
        let known = bytes.len();
        let more = self.grow(bytes);
        let any = self.dice.below(more);
        bytes[known + self.dice.one_of(&[0, more - 1, any])] = self.dice.one_of(&[1, 128, 255]);
        if self.dice.chance(3) {
            self.lend_more(bytes);
        }
    }

    fn bend_bytes(&mut self, bytes: &mut Vec<u8>) {
        match self.dice.weighted(&[3, 2, 1, 1, 2, 1]) {
            0 => self.cut(bytes),
            1 => self.other_size(bytes),
            2 => drop(self.grow(bytes)),
            3 => self.lend_more(bytes),
            4 => self.spoil_tail(bytes),
            _ => {
                self.grow(bytes);
                self.lend_more(bytes);
            }
        }
    }

    /// A command with this request, most of them accepted, the others with one fault or more.
    pub fn command(&mut self, request: u32) -> Call {
        let mut draft = self.draft(request);
        let form = wire::known(draft.request);
        while self.dice.chance(self.mood.field) {
            self.bend_field(form, &mut draft);
        }
        let mut bytes = wire::command(form, &draft.values);
        while self.dice.chance(self.mood.wire) {
            self.bend_bytes(&mut bytes);
        }
        let strange = self.dice.chance(4 * self.mood.wire);
        let request = if strange { self.dice.one_of(&STRANGE_REQUESTS) } else { draft.request };
        if self.dice.chance(8) {
            return Call::Preview { request, bytes, area: draft.area };
        }
        Call::Command { request, bytes, area: draft.area }
    }
}

fn set_size(bytes: &mut [u8], size: u64) {
    if bytes.len() >= 4 {
        wire::write(bytes, 0, 4, size);
    }
}
