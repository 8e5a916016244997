//! A sequence with a difference made short and simple while a difference persists.
use crate::calls::{Call, Lent};
use crate::compare::{replay, Difference, Tried};
use crate::places::Place;
use crate::steps::{Damage, Step};
use crate::wire::{self, Form, Says, ALLOC, COPY, MAP, UNMAP};
use crate::{model, show};
use iommufd::raw::Reserved;

/// So many steps are replayed at most, which bounds the time: a full table needs long sequences.
const REPLAYED: usize = 400_000;

/// With more pairs than this the sequence is still long and its blocks have to go first.
const FEW_PAIRS: usize = 600;

struct Shrinker {
    tried: Tried,
    steps: Vec<Step>,
    difference: Difference,
    left: usize,
}

/// The shortest sequence found, and its difference at its last step. None where the steps given have no difference.
pub fn shrink(tried: Tried, steps: Vec<Step>) -> Option<(Vec<Step>, Difference)> {
    let (at, difference) = replay(tried, &steps)?;
    let mut shrinker = Shrinker { tried, steps: steps[..=at].to_vec(), difference, left: REPLAYED };
    shrinker.drop_blocks();
    while shrinker.simplify() || shrinker.drop_pair() || shrinker.drop_object() || shrinker.drop_beside_place() {
        shrinker.drop_blocks();
    }
    shrinker.order_as_plan();
    Some((shrinker.steps, shrinker.difference))
}

impl Shrinker {
    /// Takes other steps if they differ as well.
    fn takes(&mut self, steps: Vec<Step>) -> bool {
        if self.left < steps.len() {
            return false;
        }
        self.left -= steps.len();
        match replay(self.tried, &steps) {
            Some((at, difference)) => {
                self.steps = steps[..=at].to_vec();
                self.difference = difference;
                true
            }
            None => false,
        }
    }

    /// Leaves out large blocks first, then smaller ones, from the end; the last step makes the difference and stays.
    fn drop_blocks(&mut self) {
        let mut size = self.steps.len() / 2;
        while size > 0 {
            let mut end = self.steps.len() - 1;
            while end > 0 {
                let from = end.saturating_sub(size);
                let shorter = [&self.steps[..from], &self.steps[end..]].concat();
                self.takes(shorter);
                end = from.min(self.steps.len() - 1);
            }
            size /= 2;
        }
    }

    /// Leaves out two steps that need each other; true if there were some.
    fn drop_pair(&mut self) -> bool {
        let last = self.steps.len() - 1;
        let pairs = (0..last).flat_map(|one| (one + 1..last).map(move |other| (one, other)));
        pairs.take(FEW_PAIRS).any(|(one, other)| {
            let kept = self.steps.iter().enumerate().filter(|(k, _)| *k != one && *k != other);
            let steps = kept.map(|(_, step)| step.clone()).collect();
            self.takes(steps)
        })
    }

    /// Leaves out a step that an automatic place came from, such as an allow list, with the place fixed where it was; true if there was one.
    fn drop_beside_place(&mut self) -> bool {
        let last = self.steps.len() - 1;
        let placed = fixed_places(&self.steps[..last]);
        let pairs = placed.iter().flat_map(|(at, step)| (0..last).filter(move |k| k != at).map(move |k| (*at, step, k)));
        pairs.take(FEW_PAIRS).any(|(at, step, k)| {
            let mut steps = self.steps.clone();
            steps[at] = step.clone();
            steps.remove(k);
            self.takes(steps)
        })
    }

    /// Leaves out a step that makes an object, and lets the ids above it move down; true if there was one.
    fn drop_object(&mut self) -> bool {
        let made = objects_made(&self.steps);
        made.into_iter().any(|(at, id)| {
            let mut steps = self.steps.clone();
            steps.remove(at);
            steps[at..].iter_mut().for_each(|step| renumber(step, id));
            !steps.is_empty() && self.takes(steps)
        })
    }

    /// Tries every simpler form of every step; true if one was taken.
    fn simplify(&mut self) -> bool {
        let (mut any, mut at) = (false, 0);
        while at < self.steps.len() {
            let taken = simpler(&self.steps[at]).into_iter().any(|step| {
                let mut steps = self.steps.clone();
                steps[at] = step;
                self.takes(steps)
            });
            any |= taken;
            if !taken {
                at += 1;
            }
        }
        any
    }

    /// Tries the order of a plan: limit, spaces, devices, attachments, commands.
    fn order_as_plan(&mut self) {
        let mut steps = self.steps.clone();
        steps.sort_by_key(show::section);
        if show::plan(&self.steps).is_none() && show::plan(&steps).is_some() {
            self.takes(steps);
        }
    }
}

// ---- ids
/// The steps that make an object, and its id.
fn objects_made(steps: &[Step]) -> Vec<(usize, u32)> {
    let (mut lent, mut made) = (Lent::zeroed(), vec![]);
    for (at, step) in steps.iter().enumerate() {
        let Step::Call(call) = step else { return made };
        let mut call = call.clone();
        let result = model::run(&mut lent, &mut call).result;
        match call {
            Call::Bind { .. } if result > 0 => made.push((at, result as u32)),
            Call::Command { request: ALLOC, bytes, .. } if result == 0 => made.push((at, wire::read(&bytes, 8, 4) as u32)),
            _ => {}
        }
    }
    made
}

/// Ids above the one that is gone become one less.
fn renumber(step: &mut Step, gone: u32) {
    let move_down = |id: &mut u32| *id -= u32::from(*id > gone);
    match step {
        Step::Call(Call::Attach { device, space }) => [device, space].into_iter().for_each(move_down),
        Step::Call(Call::Detach { device } | Call::Reach { device, .. }) => move_down(device),
        Step::Call(Call::Command { request, bytes, .. } | Call::Preview { request, bytes, .. } | Call::Explain { request, bytes, .. }) => {
            let form = wire::form(*request).filter(|form| bytes.len() >= form.size);
            let ids = form.map_or(&[][..], |form| form.fields).iter().filter(|field| field.says == Says::Id);
            for field in ids {
                let mut id = wire::read(bytes, field.at, 4) as u32;
                move_down(&mut id);
                wire::write(bytes, field.at, 4, id.into());
            }
        }
        _ => {}
    }
}

// ---- simpler forms of a step. Every number becomes smaller, except in the removal of all, so that it ends.
fn smaller(value: u64) -> Vec<u64> {
    let mut tries = vec![0, 1, 2, 4096, value & !0xFFF, value & value.wrapping_sub(1), value / 2];
    if value < 64 {
        tries.push(value.wrapping_sub(1));
    }
    tries.retain(|new| *new < value);
    tries
}

fn smaller_half(value: u32) -> Vec<u32> {
    smaller(value.into()).into_iter().map(|new| new as u32).collect()
}

fn simpler(step: &Step) -> Vec<Step> {
    match step {
        Step::Call(call) => simpler_calls(call).into_iter().map(Step::Call).collect(),
        Step::Damage(changes) => simpler_damage(changes),
        Step::Restore => vec![],
    }
}

fn simpler_damage(changes: &[Damage]) -> Vec<Step> {
    let mut tries = vec![];
    for (k, change) in changes.iter().enumerate() {
        let others = [&changes[..k], &changes[k + 1..]].concat();
        if !others.is_empty() {
            tries.push(others);
        }
        tries.extend(simpler_changes(*change).into_iter().map(|new| {
            let mut changed = changes.to_vec();
            changed[k] = new;
            changed
        }));
    }
    tries.into_iter().map(Step::Damage).collect()
}

/// A smaller value, or a place of the index further in front.
fn simpler_changes(change: Damage) -> Vec<Damage> {
    let places = |at: usize| smaller(at as u64).into_iter().map(|new| new as usize);
    let pairs = |one: usize, other: usize| {
        let both = one.checked_sub(1).zip(other.checked_sub(1));
        places(one).map(move |one| (one, other)).chain(places(other).map(move |other| (one, other))).chain(both).collect::<Vec<_>>()
    };
    match change {
        Damage::Set(Place::Index { at }, value) => {
            let values = smaller(value).into_iter().map(|value| Damage::Set(Place::Index { at }, value));
            values.chain(places(at).map(|at| Damage::Set(Place::Index { at }, value))).collect()
        }
        Damage::Set(place, value) => smaller(value).into_iter().map(|value| Damage::Set(place, value)).collect(),
        Damage::SwapWords(one, other) => pairs(one, other).into_iter().map(|(one, other)| Damage::SwapWords(one, other)).collect(),
        Damage::MoveWord { from, to } => pairs(from, to).into_iter().map(|(from, to)| Damage::MoveWord { from, to }).collect(),
        Damage::DropWord(at) => places(at).map(Damage::DropWord).collect(),
        Damage::Become(shape, count) => places(count).map(|count| Damage::Become(shape, count)).collect(),
        _ => vec![],
    }
}

/// The accepted commands before the first damage that have their place chosen, each with the place fixed there.
fn fixed_places(steps: &[Step]) -> Vec<(usize, Step)> {
    let (mut lent, mut placed) = (Lent::zeroed(), vec![]);
    for (at, step) in steps.iter().enumerate() {
        let Step::Call(call) = step else { break };
        let mut call = call.clone();
        let accepted = model::run(&mut lent, &mut call).result == 0;
        if let (true, Call::Command { request: MAP | COPY, bytes, .. }) = (accepted, &mut call) {
            // the reply has the address in its field
            if bytes[4] & wire::FIXED as u8 == 0 {
                bytes[4] |= wire::FIXED as u8;
                placed.push((at, Step::Call(call)));
            }
        }
    }
    placed
}

fn simpler_calls(call: &Call) -> Vec<Call> {
    match call {
        Call::Fresh { limit } => smaller(*limit).into_iter().map(|limit| Call::Fresh { limit }).collect(),
        Call::Command { request, bytes, area } => {
            let pairs = simpler_bytes(*request, bytes, area).into_iter();
            pairs.map(|(bytes, area)| Call::Command { request: *request, bytes, area }).collect()
        }
        Call::Preview { request, bytes, area } => {
            let mut calls = vec![Call::Command { request: *request, bytes: bytes.clone(), area: area.clone() }];
            let pairs = simpler_bytes(*request, bytes, area).into_iter();
            calls.extend(pairs.map(|(bytes, area)| Call::Preview { request: *request, bytes, area }));
            calls
        }
        Call::Bind { bitmap, reserved } => simpler_binds(*bitmap, reserved),
        Call::Attach { device, space } => {
            let devices = smaller_half(*device).into_iter().map(|device| Call::Attach { device, space: *space });
            devices.chain(smaller_half(*space).into_iter().map(|space| Call::Attach { device: *device, space })).collect()
        }
        Call::Detach { device } => smaller_half(*device).into_iter().map(|device| Call::Detach { device }).collect(),
        Call::Reach { device, address, length, write } => simpler_reaches(*device, *address, *length, *write),
        Call::Charge => vec![],
        Call::Next { space, address } => {
            let spaces = smaller_half(*space).into_iter().map(|space| Call::Next { space, address: *address });
            spaces.chain(smaller(*address).into_iter().map(|address| Call::Next { space: *space, address })).collect()
        }
        Call::Explain { request, bytes, words } => {
            let pairs = simpler_bytes(*request, bytes, &[]).into_iter();
            pairs.map(|(bytes, _)| Call::Explain { request: *request, bytes, words: *words }).collect()
        }
    }
}

fn simpler_reaches(device: u32, address: u64, length: u64, write: u32) -> Vec<Call> {
    let devices = smaller_half(device).into_iter().map(|device| Call::Reach { device, address, length, write });
    let addresses = smaller(address).into_iter().map(|address| Call::Reach { device, address, length, write });
    let lengths = smaller(length).into_iter().map(|length| Call::Reach { device, address, length, write });
    let writes = smaller_half(write).into_iter().map(|write| Call::Reach { device, address, length, write });
    devices.chain(addresses).chain(lengths).chain(writes).collect()
}

fn simpler_binds(bitmap: u64, reserved: &Reserved) -> Vec<Call> {
    let bind = |reserved: Reserved| Call::Bind { bitmap, reserved };
    let mut calls: Vec<Call> = smaller(bitmap).into_iter().map(|bitmap| Call::Bind { bitmap, reserved: *reserved }).collect();
    let tidied = tidied(reserved);
    if tidied != *reserved {
        calls.push(bind(tidied));
    }
    for k in 0..reserved.count.min(4) as usize {
        calls.push(bind(without_range(&tidied, k)));
        let starts = smaller(reserved.starts[k]).into_iter().map(|start| with_range(reserved, k, start, reserved.lasts[k]));
        let lasts = smaller(reserved.lasts[k]).into_iter().map(|last| with_range(reserved, k, reserved.starts[k], last));
        calls.extend(starts.chain(lasts).map(bind));
    }
    calls
}

/// The places past the count zeroed, and the spare field.
fn tidied(reserved: &Reserved) -> Reserved {
    let mut made = Reserved { count: reserved.count, ..Reserved::default() };
    let taken = reserved.count.min(4) as usize;
    made.starts[..taken].copy_from_slice(&reserved.starts[..taken]);
    made.lasts[..taken].copy_from_slice(&reserved.lasts[..taken]);
    made
}

fn without_range(reserved: &Reserved, at: usize) -> Reserved {
    let mut made = *reserved;
    made.starts[at..].rotate_left(1);
    made.lasts[at..].rotate_left(1);
    made.count = reserved.count.min(4) - 1;
    tidied(&made)
}

fn with_range(reserved: &Reserved, at: usize, start: u64, last: u64) -> Reserved {
    let mut made = *reserved;
    (made.starts[at], made.lasts[at]) = (start, last);
    made
}

fn simpler_bytes(request: u32, bytes: &[u8], area: &[u8]) -> Vec<(Vec<u8>, Vec<u8>)> {
    let form = wire::form(request).filter(|form| bytes.len() >= form.size);
    let mut tries = simpler_areas(bytes, area);
    match form {
        Some(form) => {
            tries.extend(simpler_fields(form, bytes).into_iter().map(|bytes| (bytes, area.to_vec())));
            tries.extend(fewer_ranges(form, bytes, area));
        }
        None => tries.extend(shorter(bytes).into_iter().map(|bytes| (bytes, area.to_vec()))),
    }
    tries
}

fn shorter(bytes: &[u8]) -> Vec<Vec<u8>> {
    let lengths = [0, bytes.len() / 2, bytes.len().saturating_sub(1)];
    lengths.iter().filter(|len| **len < bytes.len()).map(|len| bytes[..*len].to_vec()).collect()
}

fn simpler_areas(bytes: &[u8], area: &[u8]) -> Vec<(Vec<u8>, Vec<u8>)> {
    let mut areas = shorter(area);
    areas.push(area[..area.len() / 16 * 16].to_vec());
    areas.push(vec![0; area.len()]);
    for at in (0..area.len().saturating_sub(7)).step_by(8) {
        areas.extend(smaller(wire::read(area, at, 8)).into_iter().map(|value| {
            let mut changed = area.to_vec();
            wire::write(&mut changed, at, 8, value);
            changed
        }));
    }
    areas.retain(|new| new != area);
    areas.into_iter().map(|area| (bytes.to_vec(), area)).collect()
}

/// Its own size, and smaller numbers in its fields.
fn simpler_fields(form: &Form, bytes: &[u8]) -> Vec<Vec<u8>> {
    let mut tries = shorter(&bytes[form.size..]).into_iter().map(|tail| [&bytes[..form.size], &tail].concat()).collect::<Vec<_>>();
    let values = wire::values(form, bytes);
    let exact = wire::command(form, &values);
    if exact != bytes {
        tries.insert(0, exact);
    }
    if form.request == UNMAP && values[1..] != [0, u64::MAX] {
        // removing all needs no address that others decide
        tries.insert(0, wire::command(form, &[values[0], 0, u64::MAX]));
    }
    let removes_all = form.request == UNMAP && values[1..] == [0, u64::MAX];
    for field in form.fields.iter().filter(|field| !(removes_all && field.says == Says::Length)) {
        for value in smaller(wire::read(bytes, field.at, field.wide)) {
            let mut changed = bytes.to_vec();
            wire::write(&mut changed, field.at, field.wide, value);
            tries.push(changed);
        }
    }
    tries
}

/// One range out of a list, and the count one less.
fn fewer_ranges(form: &Form, bytes: &[u8], area: &[u8]) -> Vec<(Vec<u8>, Vec<u8>)> {
    let Some(field) = form.fields.iter().find(|field| field.says == Says::Count) else { return vec![] };
    let count = wire::read(bytes, field.at, field.wide);
    if count == 0 {
        return vec![];
    }
    let mut fewer = bytes.to_vec();
    wire::write(&mut fewer, field.at, field.wide, count - 1);
    (0..area.len() / 16).map(|k| (fewer.clone(), [&area[..16 * k], &area[16 * k + 16..]].concat())).collect()
}
