//! A sequence is steps on one table: calls, and changes of the table's memory that no call makes.
use crate::calls::{Call, Lent};
use crate::model;
use crate::places::Place;
use crate::workloads::{self, Shape};
use iommufd::raw::Mapping;
use std::sync::Mutex;

/// A change of the table in memory. What it leaves may be a bad table or a good one.
#[derive(Clone, Copy, Debug, PartialEq, Eq)]
pub enum Damage {
    Set(Place, u64),
    /// One record is written over another.
    Alike { from: usize, to: usize },
    /// Two records change places.
    Swap(usize, usize),
    /// A record becomes all zero.
    Release(usize),
    /// So many records are lent; new ones are 0.
    Lend(usize),
    /// Two words of the index change places.
    SwapWords(usize, usize),
    /// A word of the index goes to another place, and those between move up or down.
    MoveWord { from: usize, to: usize },
    /// A word of the index goes, and those behind it move up; the last becomes 0.
    DropWord(usize),
    /// So many words of the index are lent; new ones are 0.
    LendWords(usize),
    /// The index becomes the one that agrees with the records.
    Agree,
    /// The table becomes one that is measured, with so many mappings.
    Become(Shape, usize),
}

#[derive(Clone, Debug, PartialEq, Eq)]
pub enum Step {
    Call(Call),
    Damage(Vec<Damage>),
    /// The table becomes what it was before the last damage, if there was one.
    Restore,
}

/// A table that is measured. It takes thousands of calls to make one, and a sequence that is made short is begun many times: each is made once.
fn measured(shape: Shape, count: usize) -> Lent {
    static MADE: Mutex<Vec<(Shape, usize, Lent)>> = Mutex::new(vec![]);
    let mut made = MADE.lock().unwrap();
    if let Some((.., lent)) = made.iter().find(|(known, size, _)| (*known, *size) == (shape, count)) {
        return lent.clone();
    }
    let lent = workloads::table(shape, count);
    made.push((shape, count, lent.clone()));
    lent
}

impl Damage {
    pub fn apply(self, lent: &mut Lent) {
        let there = lent.mappings.len();
        match self {
            Damage::Set(place, value) => place.set(lent, value),
            Damage::Alike { from, to } if from < there && to < there => lent.mappings[to] = lent.mappings[from],
            Damage::Swap(one, other) if one < there && other < there => lent.mappings.swap(one, other),
            Damage::Release(at) if at < there => lent.mappings[at] = Mapping::default(),
            Damage::Alike { .. } | Damage::Swap(..) | Damage::Release(_) => {}
            Damage::Lend(count) => lent.mappings.resize(count, Mapping::default()),
            Damage::SwapWords(one, other) if one.max(other) < lent.index.len() => lent.index.swap(one, other),
            Damage::MoveWord { from, to } if from.max(to) < lent.index.len() => {
                let word = lent.index.remove(from);
                lent.index.insert(to, word);
            }
            Damage::DropWord(at) if at < lent.index.len() => {
                lent.index.remove(at);
                lent.index.push(0);
            }
            Damage::SwapWords(..) | Damage::MoveWord { .. } | Damage::DropWord(_) => {}
            Damage::LendWords(count) => lent.index.resize(count, 0),
            Damage::Agree => lent.index = model::agreeing_index(lent),
            Damage::Become(shape, count) => *lent = measured(shape, count),
        }
    }
}
