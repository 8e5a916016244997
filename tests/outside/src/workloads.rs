//! What is measured: tables of a given number of mappings, and on each a few calls that leave it as it was, so that they can be repeated.
use crate::calls::{Call, Lent, System};
use crate::plain;
use iommufd::raw::{Mapping, Reserved};
use iommufd::request::{COPY, IOAS_ALLOC, MAP, UNMAP};
use iommufd::{FIXED, READABLE, WRITEABLE};
use std::hint::black_box;

/// The numbers of mappings that are asked for.
pub const COUNTS: [usize; 4] = [0, 16, 64, 128];

const SPACE: u32 = 1;
const DEVICE: u32 = 2;
/// A mapping, and the distance between two of them: the gaps are too small for another one.
const LENGTH: u64 = 0x3000;
const SLOT: u64 = 0x4000;
/// An address far behind all slots.
const FREE: u64 = 0x4000_0000;
const RESERVED: (u64, u64) = (0xFEE0_0000, 0xFEEF_FFFF);

#[derive(Clone, Copy, Debug, PartialEq, Eq)]
pub enum Shape {
    /// One space with one device; the records stand in the order of their addresses.
    Ascending,
    /// Two spaces more, one with a device, and a loose device; a long history of MAP and UNMAP has left the records in a random order.
    Worn,
    /// One space with as many reserved ranges as there are gaps between most of its mappings; the records stand in a random order.
    Crowded,
}

#[derive(Clone, Copy, Debug, PartialEq, Eq)]
pub enum Workload {
    Fixed,
    Automatic,
    Copy,
    Reach,
    Late,
    Early,
}

impl Shape {
    /// Those that every workload is measured on.
    pub const ALL: [Shape; 2] = [Shape::Ascending, Shape::Worn];

    pub fn name(self) -> &'static str {
        match self {
            Shape::Ascending => "ascending",
            Shape::Worn => "worn",
            Shape::Crowded => "crowded",
        }
    }

    pub fn description(self) -> &'static str {
        match self {
            Shape::Ascending => {
                "one space with one attached device (4 KiB pages, one reserved range), mappings of 12 KiB every 16 KiB, each with a backing of its own, \
                 records in the order of the addresses"
            }
            Shape::Worn => {
                "two spaces and two devices more, a quarter of the mappings in those spaces, records in a random order after a long history of MAP and UNMAP"
            }
            Shape::Crowded => {
                "one space with 29 attached devices of four reserved ranges each, all 116 in gaps between the mappings, records in a random order; it has no limit"
            }
        }
    }
}

impl Workload {
    pub const ALL: [Workload; 6] = [Workload::Fixed, Workload::Automatic, Workload::Copy, Workload::Reach, Workload::Late, Workload::Early];

    pub fn name(self) -> &'static str {
        match self {
            Workload::Fixed => "fixed MAP + UNMAP",
            Workload::Automatic => "automatic MAP + UNMAP",
            Workload::Copy => "COPY + UNMAP",
            Workload::Reach => "reach",
            Workload::Late => "refused late",
            Workload::Early => "refused early",
        }
    }

    /// The mappings that stand in the table where so many are asked for: a pair needs a free record, and a copy a source.
    fn standing(self, asked: usize) -> usize {
        match self {
            Workload::Fixed | Workload::Automatic => asked.min(127),
            Workload::Copy => asked.clamp(1, 127),
            Workload::Reach | Workload::Late | Workload::Early => asked,
        }
    }
}

/// Calls on a table. Each call of a job writes back the bytes that it was given, or bytes that it does not read.
#[derive(Clone, Debug, PartialEq, Eq)]
pub struct Job {
    pub lent: Lent,
    pub calls: Vec<Call>,
}

impl Job {
    pub fn new(workload: Workload, shape: Shape, asked: usize) -> Job {
        let mut lent = table(shape, workload.standing(asked));
        let calls = calls(workload, &mut lent);
        Job { lent, calls }
    }

    /// Each call once. What is measured around it holds no frame of this function.
    #[inline(always)]
    pub fn round(&mut self, system: System) {
        for call in &mut self.calls {
            black_box(system(&mut self.lent, call));
        }
    }

    /// The mappings that stand in the table.
    pub fn standing(&self) -> usize {
        self.lent.mappings.iter().filter(|m| m.space != 0).count()
    }
}

// ---- calls

fn bytes(small: &[u32], large: &[u64]) -> Vec<u8> {
    small.iter().flat_map(|n| n.to_le_bytes()).chain(large.iter().flat_map(|n| n.to_le_bytes())).collect()
}

fn command(request: u32, small: &[u32], large: &[u64]) -> Call {
    Call::Command { request, bytes: bytes(small, large), area: Vec::new() }
}

fn map(space: u32, flags: u32, memory: u64, address: u64) -> Call {
    command(MAP, &[40, flags | WRITEABLE | READABLE, space, 0], &[memory, LENGTH, address])
}

fn unmap(space: u32, address: u64) -> Call {
    command(UNMAP, &[24, space], &[address, LENGTH])
}

fn copy(from: u64, to: u64) -> Call {
    command(COPY, &[40, FIXED | READABLE, SPACE, SPACE], &[LENGTH, to, from])
}

fn calls(workload: Workload, lent: &mut Lent) -> Vec<Call> {
    let last = lent.mappings.iter().rev().find(|m| m.space == SPACE).map(|m| m.address);
    match workload {
        Workload::Fixed => vec![map(SPACE, FIXED, 0, FREE), unmap(SPACE, FREE)],
        Workload::Automatic => vec![map(SPACE, 0, 0, 0), unmap(SPACE, automatic(lent))],
        Workload::Copy => vec![copy(last.unwrap_or(0), FREE), unmap(SPACE, FREE)],
        Workload::Reach => vec![Call::Reach { device: DEVICE, address: last.unwrap_or(0) + 0x100, length: 0x40, write: 1 }],
        // Where nothing is mapped the reserved range stands in the way.
        Workload::Late => vec![map(SPACE, FIXED, 0, last.unwrap_or(RESERVED.0))],
        Workload::Early => vec![map(SPACE, 8, 0, FREE)],
    }
}

/// The address that an automatic MAP gets.
fn automatic(lent: &Lent) -> u64 {
    let mut lent = lent.clone();
    let before = lent.mappings.clone();
    must(&mut lent, map(SPACE, 0, 0, 0));
    let new = lent.mappings.iter().zip(&before).find(|(now, then)| now != then);
    new.map(|(m, _)| m.address).expect("a MAP that is accepted changes a record")
}

// ---- tables

/// A call of the set-up, which no rule refuses.
fn must(lent: &mut Lent, mut call: Call) {
    let told = plain::checked(lent, &mut call);
    assert!(told.result >= 0, "{call:x?} is refused with {}", told.result);
}

fn bind(lent: &mut Lent, bitmap: u64, ranges: &[(u64, u64)]) {
    let mut reserved = Reserved { count: ranges.len() as u32, ..Reserved::default() };
    for (i, &(start, last)) in ranges.iter().enumerate() {
        (reserved.starts[i], reserved.lasts[i]) = (start, last);
    }
    must(lent, Call::Bind { bitmap, reserved });
}

fn space(lent: &mut Lent) {
    must(lent, command(IOAS_ALLOC, &[12, 0, 0], &[]));
}

/// A table of a shape with so many mappings, at most 128.
pub fn table(shape: Shape, count: usize) -> Lent {
    let mut lent = Lent::zeroed();
    must(&mut lent, Call::Fresh { limit: 1 << 36 });
    space(&mut lent);
    match shape {
        Shape::Ascending => {
            device(&mut lent, DEVICE, &[RESERVED]);
            (0..count).for_each(|slot| must(&mut lent, map_slot(SPACE, slot)));
        }
        Shape::Worn => {
            device(&mut lent, DEVICE, &[RESERVED]);
            wear(&mut lent, count);
        }
        Shape::Crowded => crowd(&mut lent, count),
    }
    assert_eq!(lent.mappings.iter().filter(|m| **m != Mapping::default()).count(), count);
    lent
}

/// The device that gets this id, attached to the first space.
fn device(lent: &mut Lent, id: u32, ranges: &[(u64, u64)]) {
    bind(lent, 0x1000, ranges);
    must(lent, Call::Attach { device: id, space: SPACE });
}

fn address(slot: usize) -> u64 {
    SLOT * slot as u64
}

fn map_slot(space: u32, slot: usize) -> Call {
    map(space, FIXED, 0x10_0000 * (1 + slot as u64), address(slot))
}

/// Objects 2 to 30 are devices, of which each reserves the gaps behind four slots.
fn crowd(lent: &mut Lent, count: usize) {
    let gap = |slot| (address(slot) + LENGTH, address(slot + 1) - 1);
    for k in 0..29 {
        device(lent, DEVICE + k as u32, &[4 * k, 4 * k + 1, 4 * k + 2, 4 * k + 3].map(gap));
    }
    let mut random = Random::new();
    let mut slots: Vec<usize> = (0..count).collect();
    while !slots.is_empty() {
        let slot = slots.swap_remove(random.below(slots.len()));
        must(lent, map_slot(SPACE, slot));
    }
}

/// Objects 3 to 6: a space with a device, a space without, a loose device.
fn wear(lent: &mut Lent, count: usize) {
    space(lent);
    bind(lent, 0x20_1000, &[RESERVED, (0xA_0000, 0xB_FFFF)]);
    must(lent, Call::Attach { device: 4, space: 3 });
    space(lent);
    bind(lent, 0x1000, &[RESERVED]);
    history(lent, count);
}

/// Of 8 slots the first 6 are of space 1, without a gap for one more; the others are of space 3, behind what its device reserves, and of space 5.
fn home(slot: usize, count: usize) -> (u32, usize) {
    match 8 * slot / count {
        6 => (3, slot + 64),
        7 => (5, slot),
        _ => (SPACE, slot),
    }
}

/// Slots are mapped and unmapped at random, then all that are missing are mapped in a random order.
fn history(lent: &mut Lent, count: usize) {
    let mut random = Random::new();
    let mut mapped = vec![false; count];
    let mut turn = |slot: usize, mapped: &mut Vec<bool>| {
        let (space, place) = home(slot, count);
        must(lent, if mapped[slot] { unmap(space, address(place)) } else { map_slot(space, place) });
        mapped[slot] = !mapped[slot];
    };
    for _ in 0..32 * count {
        turn(random.below(count), &mut mapped);
    }
    while mapped.contains(&false) {
        let slot = random.below(count);
        if !mapped[slot] {
            turn(slot, &mut mapped);
        }
    }
}

/// A xorshift generator: the same table in every run.
struct Random(u64);

impl Random {
    fn new() -> Random {
        Random(0x9E37_79B9_7F4A_7C15)
    }

    fn below(&mut self, end: usize) -> usize {
        self.0 ^= self.0 << 13;
        self.0 ^= self.0 >> 7;
        self.0 ^= self.0 << 17;
        (self.0 >> 33) as usize % end
    }
}
