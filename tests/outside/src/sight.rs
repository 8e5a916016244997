//! What a table shows to whoever aims calls at it. The table may be bad, so that nothing here trusts its fields.
use crate::calls::Lent;
use iommufd::raw::{Mapping, Object};

/// First and last address.
pub type Range = (u64, u64);

pub const PAGE: u64 = 4096;

const SPACE: u32 = 1;
const LOOSE: u32 = 2;
const ATTACHED: u32 = 3;

pub struct Sight<'a> {
    pub lent: &'a Lent,
    pub spaces: Vec<u32>,
    pub loose: Vec<u32>,
    pub attached: Vec<u32>,
    /// The indexes of the records in use.
    pub used: Vec<usize>,
}

fn ids(lent: &Lent, kind: u32) -> Vec<u32> {
    (1..=32).filter(|id| lent.head.objects[*id as usize - 1].kind == kind).collect()
}

pub fn last(mapping: &Mapping) -> u64 {
    mapping.address.wrapping_add(mapping.length).wrapping_sub(1)
}

fn reserved_of(object: &Object) -> Vec<Range> {
    let count = object.reserved_count.min(4) as usize;
    (0..count).map(|k| (object.reserved_starts[k], object.reserved_lasts[k])).collect()
}

/// What lies between the ranges, ascending.
fn gaps(mut blocked: Vec<Range>) -> Vec<Range> {
    blocked.sort_unstable();
    let (mut free, mut next) = (vec![], Some(0));
    for (start, last) in blocked {
        match next {
            Some(from) if from < start => free.push((from, start - 1)),
            _ => {}
        }
        next = next.and_then(|from| last.checked_add(1).map(|after| from.max(after)));
    }
    free.extend(next.map(|from| (from, u64::MAX)));
    free
}

impl<'a> Sight<'a> {
    pub fn of(lent: &'a Lent) -> Sight<'a> {
        let used = (0..lent.mappings.len()).filter(|k| lent.mappings[*k] != Mapping::default()).collect();
        Sight { lent, spaces: ids(lent, SPACE), loose: ids(lent, LOOSE), attached: ids(lent, ATTACHED), used }
    }

    /// None where there is no such record.
    pub fn object(&self, id: u32) -> Option<&'a Object> {
        self.lent.head.objects.get((id as usize).wrapping_sub(1))
    }

    pub fn mappings(&self, space: u32) -> Vec<&'a Mapping> {
        self.used.iter().map(|k| &self.lent.mappings[*k]).filter(|mapping| mapping.space == space).collect()
    }

    fn devices(&self, space: u32) -> impl Iterator<Item = &'a Object> {
        let objects = &self.lent.head.objects;
        objects.iter().filter(move |object| object.kind == ATTACHED && object.home == space)
    }

    pub fn reserved(&self, space: u32) -> Vec<Range> {
        self.devices(space).flat_map(reserved_of).collect()
    }

    pub fn allowed(&self, space: u32) -> Vec<Range> {
        self.object(space).map_or(vec![], |object| {
            let count = object.allow_count.min(8) as usize;
            (0..count).map(|k| (object.allow_starts[k], object.allow_lasts[k])).collect()
        })
    }

    pub fn alignment(&self, space: u32) -> u64 {
        self.devices(space).map(|device| device.bitmap & device.bitmap.wrapping_neg()).max().unwrap_or(1).max(1)
    }

    /// What is not reserved.
    pub fn usable(&self, space: u32) -> Vec<Range> {
        gaps(self.reserved(space))
    }

    /// What is neither reserved nor mapped.
    pub fn free(&self, space: u32) -> Vec<Range> {
        let mapped = self.mappings(space).into_iter().map(|mapping| (mapping.address, last(mapping)));
        gaps(self.reserved(space).into_iter().chain(mapped).collect())
    }

    /// Pages that may still be charged.
    pub fn pages_left(&self) -> u64 {
        let (mut seen, mut charge) = ([false; 129], 0u64);
        for mapping in self.used.iter().map(|k| &self.lent.mappings[*k]) {
            let known = &mut seen[mapping.backing.min(128) as usize];
            if !*known {
                *known = true;
                let end = mapping.memory.wrapping_add(mapping.length).wrapping_sub(1);
                charge = charge.wrapping_add((end / PAGE).wrapping_sub(mapping.memory / PAGE).wrapping_add(1));
            }
        }
        self.lent.head.limit.saturating_sub(charge)
    }
}
