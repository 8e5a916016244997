//! Sequences as text: as a plan for plans/plan.py where a plan can say it, else a step a line.
use crate::calls::{Call, Lent};
use crate::model;
use crate::steps::{Damage, Step};
use crate::wire::{self, ALLOC, ALLOW, COPY, DESTROY, FIXED, MAP, RANGES, UNMAP};
use iommufd::raw::Reserved;

/// A step in one line.
pub fn line(step: &Step) -> String {
    match step {
        Step::Call(call) => call_line(call),
        Step::Damage(changes) => changes.iter().map(damage).collect::<Vec<_>>().join("; "),
        Step::Restore => "restore".to_string(),
    }
}

fn damage(change: &Damage) -> String {
    match change {
        Damage::Set(place, value) => format!("set {} to {value:#x}", place.name()),
        Damage::Alike { from, to } => format!("write record {from} over record {to}"),
        Damage::Swap(one, other) => format!("swap records {one} and {other}"),
        Damage::Release(at) => format!("release record {at}"),
        Damage::Lend(count) => format!("lend {count} records"),
        Damage::Become(shape, count) => format!("become the {} table of {count} mappings", shape.name()),
        Damage::SwapWords(one, other) => format!("swap index[{one}] and index[{other}]"),
        Damage::MoveWord { from, to } => format!("move index[{from}] to index[{to}]"),
        Damage::DropWord(at) => format!("drop index[{at}]"),
        Damage::LendWords(count) => format!("lend {count} words of the index"),
        Damage::Agree => "let the index agree".to_string(),
    }
}

fn call_line(call: &Call) -> String {
    match call {
        Call::Fresh { limit } => format!("fresh {limit:#x}"),
        Call::Command { request, bytes, area } => command(*request, bytes, area),
        Call::Preview { request, bytes, area } => format!("preview {}", command(*request, bytes, area)),
        Call::Bind { bitmap, reserved } => bind(*bitmap, reserved),
        Call::Attach { device, space } => format!("attach {device} {space}"),
        Call::Detach { device } => format!("detach {device}"),
        Call::Reach { device, address, length, write } => format!("reach device={device} address={address:#x} length={length:#x} write={write}"),
        Call::Charge => "charge".to_string(),
        Call::Next { space, address } => format!("next space={space} address={address:#x}"),
        Call::Explain { request, bytes, .. } => format!("explain {}", command(*request, bytes, &[])),
    }
}

fn ranges(list: &[(u64, u64)]) -> String {
    list.iter().map(|(start, last)| format!(" {start:#x}-{last:#x}")).collect()
}

fn taken(reserved: &Reserved) -> Vec<(u64, u64)> {
    let all = reserved.starts.iter().copied().zip(reserved.lasts);
    all.take(reserved.count.min(4) as usize).collect()
}

/// Only its count and the ranges up to there are not 0.
fn is_tidy(reserved: &Reserved) -> bool {
    let unused = reserved.starts.iter().chain(&reserved.lasts).enumerate();
    let mut unused = unused.filter(|(k, _)| k % 4 >= reserved.count as usize);
    reserved.count <= 4 && reserved.spare == 0 && unused.all(|(_, value)| *value == 0)
}

fn bind(bitmap: u64, reserved: &Reserved) -> String {
    if is_tidy(reserved) {
        return format!("bind {bitmap:#x}{}", ranges(&taken(reserved)));
    }
    format!("bind {bitmap:#x} {reserved:x?}")
}

// ---- commands, in the grammar of plans
/// Its named form where that stands for exactly these bytes, else the raw bytes.
fn command(request: u32, bytes: &[u8], area: &[u8]) -> String {
    named(request, bytes, area).unwrap_or_else(|| raw(request, bytes, area))
}

fn named(request: u32, bytes: &[u8], area: &[u8]) -> Option<String> {
    let form = wire::form(request)?;
    if bytes.len() != form.size || wire::read(bytes, 0, 4) != form.size as u64 {
        return None;
    }
    let v = wire::values(form, bytes);
    let list = wire::ranges(area);
    match request {
        MAP if v[2] == 0 && area.is_empty() => {
            Some(format!("map space={} flags={} memory={:#x} length={:#x}{}", v[1], flags(v[0]), v[3], v[4], landing("address", v[0], v[5])))
        }
        COPY if area.is_empty() => {
            let to = landing("to", v[0], v[4]);
            Some(format!("copy source={} from={:#x} target={}{to} flags={} length={:#x}", v[2], v[5], v[1], flags(v[0]), v[3]))
        }
        UNMAP if area.is_empty() && (v[1], v[2]) == (0, u64::MAX) => Some(format!("unmap space={} all", v[0])),
        UNMAP if area.is_empty() => Some(format!("unmap space={} address={:#x} length={:#x}", v[0], v[1], v[2])),
        ALLOC if v == [0, 0] && area.is_empty() => Some("alloc".to_string()),
        DESTROY if area.is_empty() => Some(format!("destroy {}", v[0])),
        ALLOW if v[1..] == [list.len() as u64, 0, 0] && area.len().is_multiple_of(16) => Some(format!("allow space={}{}", v[0], ranges(&list))),
        RANGES if v[2..] == [0, 0, 0] && area.len() as u64 == 16 * v[1] && area.iter().all(|byte| *byte == 0) => {
            Some(format!("ranges space={} count={}", v[0], v[1]))
        }
        _ => None,
    }
}

fn flags(bits: u64) -> String {
    let names = [(1, "fixed"), (2, "write"), (4, "read")];
    let mut parts: Vec<String> = names.iter().filter(|(bit, _)| bits & bit != 0).map(|(_, name)| name.to_string()).collect();
    if bits & !7 != 0 || parts.is_empty() {
        parts.push(format!("{:#x}", bits & !7));
    }
    parts.join(",")
}

fn landing(key: &str, flags: u64, address: u64) -> String {
    if address != 0 || flags & FIXED != 0 { format!(" {key}={address:#x}") } else { String::new() }
}

fn raw(request: u32, bytes: &[u8], area: &[u8]) -> String {
    let part = |key: &str, bytes: &[u8]| if bytes.is_empty() { String::new() } else { format!(" {key}={}", hex(bytes)) };
    format!("raw {request:#x}{}{}", part("command", bytes), part("area", area))
}

/// Hexadecimal bytes, a long run of one byte told by its number.
fn hex(bytes: &[u8]) -> String {
    let runs = bytes.chunk_by(|a, b| a == b).flat_map(|run| {
        let long = run.len() >= 16;
        let said = if long { format!(",{:02x}*{},", run[0], run.len()) } else { run.iter().map(|byte| format!("{byte:02x}")).collect() };
        said.chars().collect::<Vec<_>>()
    });
    runs.collect::<String>().replace(",,", ",").trim_matches(',').to_string()
}

// ---- plans
/// The part of a plan that a step can stand in: limit, spaces, devices, attachments, commands. None for a step that no plan has.
pub fn section(step: &Step) -> Option<usize> {
    match step {
        Step::Call(Call::Fresh { .. }) => Some(0),
        Step::Call(Call::Command { .. }) if line(step) == "alloc" => Some(1),
        Step::Call(Call::Bind { reserved, .. }) if is_tidy(reserved) => Some(2),
        Step::Call(Call::Attach { .. }) => Some(3),
        Step::Call(Call::Command { .. }) => Some(4),
        _ => None,
    }
}

fn plan_line(step: &Step, section: usize) -> String {
    let line = line(step);
    match section {
        0 => line.replace("fresh", "limit"),
        1 => "space".to_string(),
        2 => line.replace("bind", "device"),
        _ => line,
    }
}

/// The text of a plan with the same calls on a table that is good, if there is one: the setup has to be accepted.
pub fn plan(steps: &[Step]) -> Option<Vec<String>> {
    let (mut lent, mut now, mut lines) = (Lent::zeroed(), 0, vec![]);
    for (k, step) in steps.iter().enumerate() {
        let Step::Call(call) = step else { return None };
        let accepted = model::run(&mut lent, &mut call.clone()).result >= 0;
        let section = section(step)?;
        // an alloc that comes later is a command like any other
        let section = if section == 1 && (now > 1 || !accepted) { 4 } else { section };
        let in_order = section >= now && (section != 0 || k == 0) && (section == 4 || accepted);
        if !in_order {
            return None;
        }
        now = section;
        lines.push(plan_line(step, section));
    }
    if !matches!(steps.first(), Some(Step::Call(Call::Fresh { .. }))) {
        lines.insert(0, "limit 0".to_string()); // what zeroed memory is
    }
    Some(lines)
}
