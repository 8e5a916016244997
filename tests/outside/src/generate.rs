//! Sequences of steps in several styles, each step chosen by a look at the table that the steps before it made.
use crate::aim::{Aim, Mood, World};
use crate::calls::{Call, Lent};
use crate::dice::Dice;
use crate::model;
use crate::places::{Place, OBJECTS, OBJECT_FIELDS, RECORD_FIELDS};
use crate::sight::{last, Sight, PAGE};
use crate::steps::{Damage, Step};
use crate::wire::{ALLOC, ALLOW, COPY, DESTROY, MAP, RANGES, UNMAP};
use crate::workloads::Shape;
use iommufd::raw::Reserved;

/// How often each kind of call is made: the commands in this order, then bind, attach, detach, reach, charge, next, fresh.
const COMMANDS: [u32; 7] = [MAP, COPY, UNMAP, ALLOW, RANGES, ALLOC, DESTROY];
const KIND_ALLOC: usize = 5;
const KIND_BIND: usize = 7;
const KIND_ATTACH: usize = 8;
const KIND_DETACH: usize = 9;
const KIND_REACH: usize = 10;
const KIND_CHARGE: usize = 11;
const KIND_NEXT: usize = 12;
const KIND_FRESH: usize = 13;
type Weights = [usize; 14];

#[derive(Clone, Copy, Debug)]
struct Style {
    weights: Weights,
    mood: Mood,
    /// One step in so many is a damage.
    damage: usize,
    steps: (usize, usize),
}

const CALM: Mood = Mood { field: 4, wire: 16 };
const NEVER: usize = usize::MAX;

/// How often a style is chosen, and the style.
const STYLES: [(usize, Style); 8] = [
    // everything meets
    (6, Style { weights: [60, 30, 24, 12, 12, 6, 4, 8, 12, 6, 24, 4, 12, 1], mood: CALM, damage: 60, steps: (20, 160) }),
    // many objects, up to a full table of them
    (2, Style { weights: [8, 4, 2, 4, 8, 40, 8, 40, 24, 8, 4, 1, 2, 0], mood: Mood { field: 8, wire: 40 }, damage: 90, steps: (60, 200) }),
    // all mapping records taken
    (2, Style { weights: [120, 40, 3, 1, 2, 4, 1, 1, 1, 1, 6, 1, 6, 0], mood: Mood { field: 14, wire: 60 }, damage: 80, steps: (260, 480) }),
    // allow lists and what lands in them
    (3, Style { weights: [50, 6, 8, 40, 4, 3, 2, 6, 10, 6, 2, 1, 3, 0], mood: CALM, damage: 60, steps: (30, 160) }),
    // devices that come and go with what they reserve
    (3, Style { weights: [20, 6, 6, 10, 40, 4, 3, 30, 40, 20, 8, 1, 4, 0], mood: CALM, damage: 60, steps: (30, 160) }),
    // shared backings
    (2, Style { weights: [24, 60, 20, 1, 1, 6, 6, 2, 4, 2, 10, 8, 8, 0], mood: CALM, damage: 60, steps: (30, 160) }),
    // damaged bytes of commands
    (2, Style { weights: [20, 10, 10, 10, 10, 10, 6, 4, 4, 2, 2, 1, 1, 0], mood: Mood { field: 4, wire: 2 }, damage: NEVER, steps: (20, 80) }),
    // damaged tables
    (6, Style { weights: [50, 30, 8, 16, 8, 8, 2, 12, 20, 4, 8, 4, 8, 1], mood: Mood { field: 9, wire: 30 }, damage: 4, steps: (40, 200) }),
];

/// Low and high ends, single bytes, pages and huge pieces.
const WORLDS: [World; 10] = [
    World { base: 0, grain: 1, span: 40 },
    World { base: u64::MAX - 39, grain: 1, span: 40 },
    World { base: u64::MAX - 19, grain: 1, span: 40 }, // around the end and the beginning
    World { base: 0, grain: 8, span: 48 },
    World { base: 0, grain: 512, span: 64 },
    World { base: 0, grain: PAGE, span: 64 },
    World { base: u64::MAX - 64 * PAGE + 1, grain: PAGE, span: 64 },
    World { base: 0xFEE0_0000 - 8 * PAGE, grain: PAGE, span: 300 },
    World { base: 0, grain: 1 << 38, span: 1 << 26 },
    World { base: u64::MAX - (1 << 43) + 1, grain: 1 << 39, span: 16 },
];

const MOST_PAGES: u64 = 1 << 36;

/// One sequence in so many begins with a table that is measured.
const FROM: usize = 16;
/// One command in so many is asked for its reason, of those that have none.
const OTHERS: usize = 12;

pub struct Generator {
    dice: Dice,
    style: Style,
    world: World,
    left: usize,
    begun: bool,
    /// Some sequences do without, so that the alignment stays 1 and nothing is reserved.
    wants_devices: bool,
    /// Devices that are bound first. Some sequences have many, so that what comes then has the highest ids, up to 32.
    before: usize,
    /// Calls that are still made before the damaged table is put back.
    damaged: Option<usize>,
    /// A table to begin with, of those that are measured. Most sequences make their own.
    from: Option<(Shape, usize)>,
    /// For what is asked beside the calls, so that they are the same with it and without.
    aside: Dice,
    /// A command that has been explained and is made next.
    explained: Option<Step>,
}

impl Generator {
    pub fn new(seed: u64) -> Generator {
        let mut dice = Dice::new(seed);
        let weights: Vec<usize> = STYLES.iter().map(|(weight, _)| *weight).collect();
        let (_, style) = STYLES[dice.weighted(&weights)];
        let (least, most) = style.steps;
        let left = least + dice.below(most - least);
        let (world, wants_devices) = (dice.one_of(&WORLDS), !dice.chance(4));
        let before = if dice.chance(8) { OBJECTS - 1 - dice.below(5) } else { 0 };
        let mut aside = Dice::new(!seed);
        let shapes = [(Shape::Worn, 128), (Shape::Worn, 127), (Shape::Worn, 40), (Shape::Crowded, 128), (Shape::Crowded, 120), (Shape::Crowded, 3)];
        let from = aside.chance(FROM).then(|| aside.one_of(&shapes));
        let before = if from.is_some() { 0 } else { before };
        Generator { dice, style, world, left, begun: false, wants_devices, before, damaged: None, from, aside, explained: None }
    }

    /// The next step on this table, None at the end of the sequence. Before each MAP and COPY its reason is asked, and before some other commands.
    pub fn next(&mut self, lent: &Lent) -> Option<Step> {
        if let Some(step) = self.explained.take() {
            return Some(step);
        }
        let step = self.made(lent)?;
        let Step::Call(Call::Command { request, bytes, .. } | Call::Preview { request, bytes, .. }) = &step else { return Some(step) };
        if ![MAP, COPY].contains(request) && !self.aside.chance(OTHERS) {
            return Some(step);
        }
        let explain = Call::Explain { request: *request, bytes: bytes.clone(), words: [0; 5].map(|_| self.aside.roll()) };
        self.explained = Some(step);
        Some(Step::Call(explain))
    }

    fn made(&mut self, lent: &Lent) -> Option<Step> {
        if self.begun && self.before > 0 {
            self.before -= 1;
            return Some(Step::Call(Call::Bind { bitmap: self.dice.one_of(&[1, PAGE]), reserved: Reserved::default() }));
        }
        self.left = self.left.checked_sub(1)?;
        if !self.begun {
            self.begun = true;
            return Some(self.beginning());
        }
        Some(match self.damaged {
            Some(0) => self.after_damage(lent),
            Some(calls) => {
                self.damaged = Some(calls - 1);
                Step::Call(self.call(lent))
            }
            None if self.dice.chance(self.style.damage) => {
                self.damaged = Some(1 + self.dice.below(3));
                Step::Damage(self.damage(lent))
            }
            None => Step::Call(self.call(lent)),
        })
    }

    /// Most begin with a fresh table, some with zeroed memory as it is or with other memory to make a table in.
    fn beginning(&mut self) -> Step {
        if let Some((shape, count)) = self.from {
            return Step::Damage(vec![Damage::Become(shape, count)]);
        }
        match self.dice.below(24) {
            0 => Step::Call(Call::Charge),
            1 => {
                let (at, field) = (self.dice.below(OBJECTS), self.dice.below(OBJECT_FIELDS));
                self.damaged = Some(self.dice.below(2));
                Step::Damage(vec![Damage::Set(Place::Object { at, field }, self.dice.roll())])
            }
            _ => Step::Call(Call::Fresh { limit: self.limit() }),
        }
    }

    fn limit(&mut self) -> u64 {
        let few = self.dice.below(80) as u64;
        match self.dice.below(16) {
            0 => 0,
            1..=4 => few,
            5 => (1 << 28) + self.dice.below(3) as u64 * (1 << 28) + few,
            6 => MOST_PAGES - 1,
            7 if self.dice.chance(4) => self.dice.one_of(&[MOST_PAGES + 1, u64::MAX, 1 << 63, 1 << 37]),
            _ => MOST_PAGES,
        }
    }

    /// A damaged table that is good is as good as any other: half of them are kept.
    fn after_damage(&mut self, lent: &Lent) -> Step {
        self.damaged = None;
        if model::bad(lent).is_none() && self.dice.chance(2) {
            return Step::Call(self.call(lent));
        }
        Step::Restore
    }

    /// Where there is no space, or no device in one, the next call often makes one: most others would find nothing.
    fn kind(&mut self, sight: &Sight) -> usize {
        let lonely = sight.spaces.is_empty() && !self.dice.chance(4);
        let bare = sight.attached.is_empty() && self.wants_devices && self.dice.chance(3);
        match (lonely, bare) {
            (true, _) => KIND_ALLOC,
            (_, true) if sight.loose.is_empty() => KIND_BIND,
            (_, true) => KIND_ATTACH,
            _ => self.dice.weighted(&self.style.weights),
        }
    }

    fn call(&mut self, lent: &Lent) -> Call {
        let sight = Sight::of(lent);
        let kind = self.kind(&sight);
        if kind == KIND_FRESH || (self.damaged.is_some() && self.dice.chance(20)) {
            return Call::Fresh { limit: self.limit() };
        }
        let mut aim = Aim { dice: &mut self.dice, world: self.world, mood: self.style.mood, sight };
        match kind {
            KIND_BIND => aim.bind(),
            KIND_ATTACH => aim.attach(),
            KIND_DETACH => aim.detach(),
            KIND_REACH => aim.reach(),
            KIND_CHARGE => Call::Charge,
            KIND_NEXT => aim.next_mapping(),
            _ => aim.command(COMMANDS[kind]),
        }
    }
}

// ---- damages
impl Generator {
    /// Of the index alone, or of the rest: then the index most often agrees again, so that nothing but the change itself can make the table bad.
    fn damage(&mut self, lent: &Lent) -> Vec<Damage> {
        let of_index = self.dice.chance(4);
        let mut changes = vec![self.one_damage(lent, of_index)];
        while self.dice.chance(5) {
            changes.push(self.one_damage(lent, of_index));
        }
        if !of_index && !self.dice.chance(4) {
            changes.push(Damage::Agree);
        }
        changes
    }

    fn one_damage(&mut self, lent: &Lent, of_index: bool) -> Damage {
        let sight = Sight::of(lent);
        if of_index {
            return self.change_index(&sight);
        }
        let (one, other, any) = (self.record(&sight), self.record(&sight), self.dice.below(128));
        match self.dice.weighted(&[12, 10, 2, 3, 2, 1, 1]) {
            0 if !sight.used.is_empty() => self.change_record(&sight, one),
            1 => self.change_object(&sight),
            2 => self.change_limit(&sight),
            3 => Damage::Alike { from: one, to: self.dice.one_of(&[other, any]) },
            4 => Damage::Swap(one, any),
            5 => Damage::Lend(self.dice.one_of(&[0, 1, 64, 127, 129, 130, 256])),
            6 => Damage::Release(one),
            _ => self.change_free(),
        }
    }

    /// A change of the index: the order of what it lists, one number, or how many words are lent.
    fn change_index(&mut self, sight: &Sight) -> Damage {
        let listed = sight.lent.index.iter().take_while(|word| **word != 0).count();
        let (one, other) = (self.dice.below(listed), self.dice.below(listed));
        match self.dice.weighted(&[4, 3, 2, 9, 2]) {
            0 if listed > 1 => Damage::SwapWords(one, self.dice.one_of(&[other, (one + 1) % listed])),
            1 if listed > 0 => {
                // also behind the zeros, the last number most often: what is listed before them is then in order
                let from = self.dice.one_of(&[one, listed - 1]);
                Damage::MoveWord { from, to: self.dice.one_of(&[other, other, listed, listed + 1, 127]).min(127) }
            }
            2 if listed > 0 => Damage::DropWord(one),
            3 => self.change_word(sight, listed),
            _ => Damage::LendWords(self.dice.one_of(&[0, 0, 1, 64, 127, 127, 129, 129, 130, 256])),
        }
    }

    /// A word that is listed, the first that is not, or one behind it; with a number that is listed already, of a released record, just none, or one but for high bits.
    fn change_word(&mut self, sight: &Sight, listed: usize) -> Damage {
        let one = self.dice.below(listed);
        let at = self.dice.one_of(&[one, one, listed, listed, listed + 1, 127]).min(127);
        let any = self.dice.roll();
        let word = |at: usize| sight.lent.index.get(at).copied().unwrap_or(0);
        let (own, theirs) = (word(at), word(self.dice.below(listed)));
        let numbers = [0, theirs, theirs, 1 + any % 128, 1 + any % 128, own.wrapping_add(1), own.wrapping_sub(1), 128, 129, 256];
        let high = [own | 1 << 32, theirs.wrapping_add(256), theirs | 1 << 63, u64::MAX, any];
        let value = if self.dice.chance(3) { self.dice.one_of(&high) } else { self.dice.one_of(&numbers) };
        Damage::Set(Place::Index { at }, value)
    }

    fn record(&mut self, sight: &Sight) -> usize {
        if sight.used.is_empty() { self.dice.below(128) } else { self.dice.one_of(&sight.used) }
    }

    fn change_record(&mut self, sight: &Sight, at: usize) -> Damage {
        let field = self.dice.below(RECORD_FIELDS);
        Damage::Set(Place::Record { at, field }, self.record_value(sight, at, field))
    }

    /// A value of a record's field that another rule of a good table turns on.
    fn record_value(&mut self, sight: &Sight, at: usize, field: usize) -> u64 {
        let value = |at: usize| Place::Record { at, field }.get(sight.lent).unwrap_or(0);
        let (mine, own, theirs) = (sight.lent.mappings[at], value(at), value(self.record(sight)));
        let any = self.dice.roll();
        let id = 1 + self.dice.below(32) as u64;
        match field {
            0 => self.dice.one_of(&[0, id, id, theirs, 33, any]),
            1 => self.dice.one_of(&[0, 1, 2, 3, 4, 7, any]),
            2 => self.dice.one_of(&[0, 1, 2, 256, any]),
            3 => self.dice.one_of(&[0, 1 + any % 128, 1 + any % 128, theirs, 127, 128, 129, any]),
            4 => self.an_address(sight, mine.space, own, mine.length),
            5 => {
                let near = [own.wrapping_add(1), own.wrapping_sub(1), own / 2, mine.address.wrapping_neg()];
                if self.dice.chance(2) { self.dice.one_of(&near) } else { self.dice.one_of(&[0, 1 << 40, (1 << 40) + 1, any]) }
            }
            _ => {
                let end = mine.length.wrapping_neg();
                self.dice.one_of(&[0, own.wrapping_add(1), own ^ PAGE, theirs, end, end.wrapping_add(1), any])
            }
        }
    }

    fn an_address(&mut self, sight: &Sight, space: u32, own: u64, length: u64) -> u64 {
        let mut ends = vec![own.wrapping_add(1), own ^ 1, length.wrapping_neg(), length.wrapping_neg().wrapping_add(1), 0, self.dice.roll()];
        ends.extend(sight.mappings(space).iter().flat_map(|mapping| [mapping.address, last(mapping), last(mapping).wrapping_add(1)]));
        for (start, last) in sight.reserved(space).into_iter().chain(sight.allowed(space)) {
            let near = [start, last, start.wrapping_sub(length), start.wrapping_sub(length).wrapping_add(1), last.wrapping_add(1)];
            ends.extend(near.iter().chain(&near).copied()); // twice: there are many more mappings
        }
        self.dice.one_of(&ends)
    }

    fn change_object(&mut self, sight: &Sight) -> Damage {
        let known: Vec<u32> = [&sight.spaces[..], &sight.loose, &sight.attached].concat();
        let id = if known.is_empty() || self.dice.chance(8) { 1 + self.dice.below(OBJECTS) as u32 } else { self.dice.one_of(&known) };
        let at = id as usize - 1;
        // the five single fields as often as the 24 places of the lists
        let field = if self.dice.chance(2) { self.dice.below(5) } else { self.dice.below(OBJECT_FIELDS) };
        Damage::Set(Place::Object { at, field }, self.object_value(sight, at, field))
    }

    fn object_value(&mut self, sight: &Sight, at: usize, field: usize) -> u64 {
        let object = &sight.lent.head.objects[at];
        let (id, any) = (1 + self.dice.below(32) as u64, self.dice.roll());
        let space = if object.home == 0 { at as u32 + 1 } else { object.home };
        let own = Place::Object { at, field }.get(sight.lent).unwrap_or(0);
        match field {
            0 => self.dice.one_of(&[0, 1, 2, 3, 4, any]),
            1 => self.dice.one_of(&[0, id, id, 33, u64::from(u32::MAX), any]),
            2 => self.dice.one_of(&[0, 1, 2, 8, 512, PAGE, 2 * PAGE, object.bitmap | 1, any]),
            3 => self.dice.one_of(&[0, 1, 2, 3, 4, 5, own.wrapping_add(1), any]),
            4 => self.dice.one_of(&[0, 1, 2, 7, 8, 9, own.wrapping_add(1), any]),
            _ => {
                let near = [own.wrapping_add(1), own.wrapping_sub(1), 0, 1, u64::MAX, any];
                if self.dice.chance(2) { self.dice.one_of(&near) } else { self.an_address(sight, space, own, 0) }
            }
        }
    }

    /// At, above or below the charge, or the highest.
    fn change_limit(&mut self, sight: &Sight) -> Damage {
        let charge = sight.lent.head.limit.wrapping_sub(sight.pages_left());
        let around = [charge, charge, charge.wrapping_sub(1), charge.wrapping_add(1), charge.wrapping_add(2)];
        let edges = [MOST_PAGES, MOST_PAGES + 1, u64::MAX, 0, charge.wrapping_add(1 << 28)];
        let to = if self.dice.chance(2) { self.dice.one_of(&around) } else { self.dice.one_of(&edges) };
        Damage::Set(Place::Limit, to)
    }

    /// One field of any record, most of which are free.
    fn change_free(&mut self) -> Damage {
        let (at, field) = (self.dice.below(128), self.dice.below(RECORD_FIELDS));
        Damage::Set(Place::Record { at, field }, self.dice.one_of(&[1, 1 << 31, u64::MAX]))
    }
}
