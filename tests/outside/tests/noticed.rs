//! The comparison is able to fail: systems with one slip each are noticed, and the sequence that is told is short.
use iommufd::raw::Number;
use outside::calls::{Call, Lent};
use outside::compare::{replay, Tried};
use outside::dice::Dice;
use outside::generate::Generator;
use outside::runs::{self, Job};
use outside::shrink::shrink;
use outside::steps::{Damage, Step};
use outside::{guards, model, show, wire};
use std::io::Write;
use std::process::{Command, Stdio};

type Told = Result<Number, &'static str>;

fn model_itself(_: &mut Dice, lent: &mut Lent, call: &mut Call) -> Told {
    Ok(model::run(lent, call))
}

/// A removal of everything leaves the record at the last address half there.
fn keeps_a_byte(_: &mut Dice, lent: &mut Lent, call: &mut Call) -> Told {
    let at_the_end = lent.mappings.iter().position(|mapping| mapping.length > 0 && mapping.address.wrapping_add(mapping.length) == 0);
    let removes = matches!(call, Call::Command { request: wire::UNMAP, .. });
    let number = model::run(lent, call);
    if let (true, 0, Some(record)) = (removes, number.result, at_the_end) {
        lent.mappings[record].memory ^= 1 << 40;
    }
    Ok(number)
}

/// A removal leaves the last number of the index where it stood.
fn keeps_a_number(_: &mut Dice, lent: &mut Lent, call: &mut Call) -> Told {
    let before = lent.index.iter().rposition(|number| *number != 0).map(|at| (at, lent.index[at]));
    let removes = matches!(call, Call::Command { request: wire::UNMAP, .. });
    let number = model::run(lent, call);
    if let (true, 0, Some((at, kept))) = (removes, number.result, before) {
        lent.index[at] = kept;
    }
    Ok(number)
}

/// An index of which two words are out of order is overlooked by calls that do not use it.
fn overlooks_an_order(_: &mut Dice, lent: &mut Lent, call: &mut Call) -> Told {
    let overlooked = matches!(call, Call::Charge | Call::Bind { .. }) && model::bad(lent).is_some_and(|rule| rule.contains("out of order"));
    if !overlooked {
        return Ok(model::run(lent, call));
    }
    let kept = lent.index.clone();
    lent.index = model::agreeing_index(lent);
    let number = model::run(lent, call);
    lent.index = kept;
    Ok(number)
}

/// A refusal by 17 writes into the address field.
fn writes_at_a_refusal(_: &mut Dice, lent: &mut Lent, call: &mut Call) -> Told {
    let number = model::run(lent, call);
    if let (-17, Call::Command { bytes, .. }) = (number.result, call) {
        bytes[39] ^= 1;
    }
    Ok(number)
}

/// A mapping that holds a right beyond the two known ones is overlooked.
fn overlooks_a_right(_: &mut Dice, lent: &mut Lent, call: &mut Call) -> Told {
    let number = model::run(lent, call);
    let odd = lent.mappings.iter().any(|mapping| mapping.rights > 3);
    let overlooked = odd && matches!(call, Call::Charge | Call::Reach { .. } | Call::Preview { .. });
    Ok(if overlooked { Number { result: 0, value: 0 } } else { number })
}

/// A device that reserves the last address makes a write beside the command.
fn leaves_its_memory(_: &mut Dice, lent: &mut Lent, call: &mut Call) -> Told {
    let number = model::run(lent, call);
    let reserved = lent.head.objects.iter().any(|object| object.reserved_lasts.contains(&u64::MAX));
    if reserved { Err("memory beside the command was written") } else { Ok(number) }
}

// ---- slips of the tool that explains

/// The model's answer, with its words changed where an explanation was given.
fn with_words(lent: &mut Lent, call: &mut Call, slip: impl FnOnce(&Lent, &mut [u64; 5])) -> Told {
    let number = model::run(lent, call);
    if let (0, Call::Explain { words, .. }) = (number.result, call) {
        slip(lent, words);
    }
    Ok(number)
}

/// The record with the lowest address of those that are in the way.
fn names_the_lowest_address(_: &mut Dice, lent: &mut Lent, call: &mut Call) -> Told {
    let asked = match &*call {
        Call::Explain { request: wire::MAP, bytes, .. } if bytes.len() >= 40 => Some((wire::read(bytes, 8, 4) as u32, wire::read(bytes, 32, 8), wire::read(bytes, 24, 8))),
        _ => None,
    };
    with_words(lent, call, |lent, words| {
        if let (17, Some((space, address, length))) = (words[0], asked) {
            let last = address + (length - 1);
            let meets = |k: &usize| {
                let mapping = &lent.mappings[*k];
                mapping.space == space && mapping.address <= last && address <= mapping.address + (mapping.length - 1)
            };
            words[2] = (0..128).filter(meets).min_by_key(|k| lent.mappings[*k].address).unwrap() as u64 + 1;
        }
    })
}

/// Records from 0.
fn counts_from_0(_: &mut Dice, lent: &mut Lent, call: &mut Call) -> Told {
    with_words(lent, call, |_, words| words[2] -= u64::from(words[0] == 17))
}

/// The last device that reserves something, where the first is in the way.
fn names_another_object(_: &mut Dice, lent: &mut Lent, call: &mut Call) -> Told {
    with_words(lent, call, |lent, words| {
        if words[0] == 16 {
            words[2] = lent.head.objects.iter().rposition(|object| object.reserved_count > 0).unwrap() as u64 + 1;
        }
    })
}

fn a_run_one_too_long(_: &mut Dice, lent: &mut Lent, call: &mut Call) -> Told {
    with_words(lent, call, |_, words| words[4] += u64::from(words[4] != 0))
}

/// A run that ends on a multiple of a page.
fn a_run_of_whole_pages(_: &mut Dice, lent: &mut Lent, call: &mut Call) -> Told {
    with_words(lent, call, |_, words| words[4] -= if words[4] > 4096 { words[4] % 4096 } else { 0 })
}

/// Of two allowed ranges that are just as long and free the higher one.
fn the_highest_of_equals(_: &mut Dice, lent: &mut Lent, call: &mut Call) -> Told {
    let space = match &*call {
        Call::Explain { bytes, .. } if bytes.len() >= 40 => wire::read(bytes, 8, 4) as usize,
        _ => 0,
    };
    with_words(lent, call, |lent, words| {
        if words[0] == 19 && words[4] != 0 {
            let object = &lent.head.objects[space - 1];
            let ranges = object.allow_starts.iter().zip(object.allow_lasts).take(object.allow_count as usize);
            let used = |start: u64, last: u64| lent.mappings.iter().any(|m| m.space as usize == space && m.address <= last && start <= m.address + (m.length - 1));
            let equal = ranges.filter(|(start, last)| last - **start == words[4] - 1 && !used(**start, *last) && **start % 4096 == 0);
            words[3] = equal.map(|(start, _)| *start).max().unwrap_or(words[3]).max(words[3]);
        }
    })
}

/// An errno that the call does not give.
fn another_errno(_: &mut Dice, lent: &mut Lent, call: &mut Call) -> Told {
    with_words(lent, call, |_, words| words[1] = if words[0] == 9 { 22 } else { words[1] })
}

/// Code and errno of the same reason, but the call answers another: what the words say of the call is compared with it too.
fn the_call_answers_another(_: &mut Dice, lent: &mut Lent, call: &mut Call) -> Told {
    let number = model::run(lent, call);
    let is_map = matches!(call, Call::Command { request: wire::MAP, .. });
    Ok(if is_map && number.result == -17 { Number { result: -98, ..number } } else { number })
}

/// A word is written though the tool refuses.
fn a_word_beside_25(_: &mut Dice, lent: &mut Lent, call: &mut Call) -> Told {
    let number = model::run(lent, call);
    if let (-25, Call::Explain { words, .. }) = (number.result, call) {
        words[0] = 0;
    }
    Ok(number)
}

/// All words are cleared before the table is looked at.
fn words_cleared_beside_117(_: &mut Dice, lent: &mut Lent, call: &mut Call) -> Told {
    let number = model::run(lent, call);
    if let (-117, Call::Explain { words, .. }) = (number.result, call) {
        *words = [0; 5];
    }
    Ok(number)
}

/// The tool does the call while it is at it.
fn does_the_call(_: &mut Dice, lent: &mut Lent, call: &mut Call) -> Told {
    let number = model::run(lent, call);
    if let (0, Call::Explain { request, bytes, .. }) = (number.result, call) {
        model::run(lent, &mut Call::Command { request: *request, bytes: bytes.clone(), area: vec![] });
    }
    Ok(number)
}

/// The address is written into the command that is only to be explained.
fn writes_the_command(_: &mut Dice, lent: &mut Lent, call: &mut Call) -> Told {
    let number = model::run(lent, call);
    if let (0, Call::Explain { bytes, words: [0, ..], .. }) = (number.result, call) {
        bytes[39] ^= 1;
    }
    Ok(number)
}

/// The table is taken for good, whatever its index is.
fn explains_beside_any_index(_: &mut Dice, lent: &mut Lent, call: &mut Call) -> Told {
    let overlooked = matches!(call, Call::Explain { .. }) && model::bad(lent).is_some_and(|rule| rule.starts_with("the index"));
    if !overlooked {
        return Ok(model::run(lent, call));
    }
    let kept = lent.index.clone();
    lent.index = model::agreeing_index(lent);
    let number = model::run(lent, call);
    lent.index = kept;
    Ok(number)
}

/// The first sequence of a seed that differs, made short.
fn found(tried: Tried) -> (Vec<Step>, Vec<String>) {
    let job = Job::Calls { seed: 8, calls: 60_000 };
    let found = runs::run(tried, &job, 2, |_, _| {}).found.expect("a slip was not noticed");
    let steps = runs::steps(tried, found.sequence);
    assert!(replay(tried, &steps).is_some());
    let (shorter, difference) = shrink(tried, steps).unwrap();
    let (at, _) = replay(tried, &shorter).unwrap();
    assert_eq!(at, shorter.len() - 1);
    (shorter, difference.parts)
}

fn lines(steps: &[Step]) -> Vec<String> {
    steps.iter().map(show::line).collect()
}

#[test]
fn a_byte_in_a_released_record() {
    let (steps, parts) = found(keeps_a_byte);
    assert!(steps.len() <= 4, "{:#?}", lines(&steps));
    assert!(parts.iter().any(|part| part == "record 0 memory: model 0x0, system 0x10000000000"), "{parts:?}");
    assert!(show::plan(&steps).is_some_and(|plan| assembles(&plan)));
}

#[test]
fn a_number_in_the_index_of_a_released_record() {
    let (steps, parts) = found(keeps_a_number);
    assert!(steps.len() <= 4, "{:#?}", lines(&steps));
    assert!(parts.iter().any(|part| part == "index[0]: model 0x0, system 0x1"), "{parts:?}");
    assert!(show::plan(&steps).is_some_and(|plan| assembles(&plan)));
}

#[test]
fn an_index_out_of_order_that_is_overlooked() {
    let (steps, parts) = found(overlooks_an_order);
    // a change of the index, or of a record that it lists
    let is_change = |line: &String| line.contains("index[") || line.starts_with("set record");
    assert!(steps.len() <= 7 && lines(&steps).iter().any(is_change), "{:#?}", lines(&steps));
    assert!(parts.iter().any(|part| part.starts_with("result: model -117, system ")), "{parts:?}");
}

#[test]
fn a_refusal_that_writes() {
    let (steps, parts) = found(writes_at_a_refusal);
    assert!(steps.len() <= 4, "{:#?}", lines(&steps));
    assert!(parts.contains(&"a refusal wrote something".to_string()), "{parts:?}");
    assert!(show::plan(&steps).is_some_and(|plan| assembles(&plan)));
}

#[test]
fn a_bad_table_that_is_overlooked() {
    let (steps, _) = found(overlooks_a_right);
    assert!(steps.len() <= 5 && show::plan(&steps).is_none(), "{:#?}", lines(&steps));
}

#[test]
fn memory_that_was_not_lent() {
    let (steps, parts) = found(leaves_its_memory);
    assert_eq!(parts, ["memory beside the command was written"]);
    assert!(steps.len() <= 2, "{:#?}", lines(&steps));
}

/// Which words differ, or what was done that may not be.
#[test]
fn slips_of_the_tool_that_explains() {
    let slips: [(&str, Tried, &str); 13] = [
        ("names the lowest address", names_the_lowest_address, "word 2: "),
        ("counts from 0", counts_from_0, "word 2: model 0x1, system 0x0"),
        ("names another object", names_another_object, "word 2: "),
        ("a run one too long", a_run_one_too_long, "word 4: "),
        ("a run of whole pages", a_run_of_whole_pages, "word 4: "),
        ("the highest of equals", the_highest_of_equals, "word 3: "),
        ("another errno", another_errno, "word 1: model 0x4b, system 0x16"),
        ("a word beside 25", a_word_beside_25, "a refusal wrote something"),
        ("words cleared beside 117", words_cleared_beside_117, "a refusal wrote something"),
        ("does the call", does_the_call, "the table changed, though this call only reads it"),
        ("writes the command", writes_the_command, "the command changed, though it was only to be explained"),
        ("explains beside any index", explains_beside_any_index, "result: model -117, system "),
        ("the call answers another", the_call_answers_another, "result: model -17, system -98"),
    ];
    for (name, tried, told) in slips {
        let (steps, parts) = found(tried);
        assert!(parts.iter().any(|part| part.starts_with(told)), "{name}: {parts:?}");
        assert!(steps.len() <= 12, "{name}: {:#?}", lines(&steps));
    }
}

/// What is told of a command is compared with its answer too, where the command stands right behind.
#[test]
fn what_is_told_is_what_the_call_answers() {
    let fresh = Step::Call(Call::Fresh { limit: 4 });
    let bytes = wire::command(wire::known(wire::MAP), &[4, 1, 0, 0, 1, 0]);
    let explain = Step::Call(Call::Explain { request: wire::MAP, bytes: bytes.clone(), words: [7; 5] });
    let map = Step::Call(Call::Command { request: wire::MAP, bytes, area: vec![] });
    let told = "the errno that was told of this command is not the one that it was answered with";
    let slip: Tried = |_, lent, call| {
        let number = model::run(lent, call);
        let refused = matches!(call, Call::Command { request: wire::MAP, .. }) && number.result == -2;
        Ok(if refused { Number { result: -22, ..number } } else { number })
    };
    let (at, difference) = replay(slip, &[fresh.clone(), explain.clone(), map.clone()]).unwrap();
    assert!(at == 2 && difference.parts.contains(&told.to_string()), "{:?}", difference.parts);
    // not where another step stands between
    let (at, difference) = replay(slip, &[fresh.clone(), explain.clone(), fresh.clone(), map.clone()]).unwrap();
    assert!(at == 3 && !difference.parts.contains(&told.to_string()), "{:?}", difference.parts);
    assert!(replay(guards::run, &[fresh, explain, map]).is_none());
}

/// Before each MAP and COPY stands its explanation, before some others too, and the tables that are measured are among those that are begun with.
#[test]
fn every_map_and_copy_is_explained() {
    let (mut before, mut explained, mut others, mut measured) = (None, 0, 0, 0);
    for seed in 0..200 {
        for step in runs::steps(model_itself, seed) {
            let made = match &step {
                Step::Call(Call::Command { request, bytes, .. } | Call::Preview { request, bytes, .. }) => Some((*request, bytes.clone())),
                _ => None,
            };
            if let Some((request, bytes)) = &made {
                let told = before.as_ref() == Some(&(*request, bytes.clone()));
                assert!(told || ![wire::MAP, wire::COPY].contains(request), "{}", show::line(&step));
                explained += u32::from(told);
                others += u32::from(told && ![wire::MAP, wire::COPY].contains(request));
            }
            measured += u32::from(matches!(&step, Step::Damage(changes) if matches!(changes[..], [Damage::Become(..)])));
            before = match step {
                Step::Call(Call::Explain { request, bytes, .. }) => Some((request, bytes)),
                _ => None,
            };
        }
    }
    assert!(explained > 2000 && others > 100 && measured > 5, "{explained} {others} {measured}");
}

#[test]
fn the_same_on_both_sides_is_alike() {
    let outcome = runs::run(model_itself, &Job::Calls { seed: 1, calls: 2000 }, 2, |_, _| {});
    assert!(outcome.found.is_none() && outcome.calls >= 2000);
}

#[test]
fn the_archive_is_alike() {
    let outcome = runs::run(guards::run, &Job::Calls { seed: 2, calls: 2000 }, 2, |_, _| {});
    assert!(outcome.found.is_none());
    assert!(outcome.coverage.unlisted().is_empty());
}

#[test]
fn a_seed_makes_one_sequence() {
    for seed in 0..20 {
        assert_eq!(runs::steps(model_itself, seed), runs::steps(guards::run, seed));
    }
}

/// A difference that a damage makes is told without a plan, and restore brings back what was there.
#[test]
fn damage_is_undone() {
    let fresh = Step::Call(Call::Fresh { limit: 4 });
    for (damage, told) in [(Damage::Lend(127), "lend 127 records"), (Damage::LendWords(129), "lend 129 words of the index")] {
        let damaged = Step::Damage(vec![damage]);
        let steps = [fresh.clone(), damaged, Step::Call(Call::Charge), Step::Restore, Step::Call(Call::Charge)];
        assert!(replay(guards::run, &steps).is_none());
        assert_eq!(show::plan(&steps), None);
        assert_eq!(lines(&steps)[1..4], [told, "charge", "restore"]);
    }
}

// ---- the text of plans
fn assembled(lines: &[String]) -> Option<Vec<u8>> {
    let tool = concat!(env!("CARGO_MANIFEST_DIR"), "/../../plans/plan.py");
    let mut command = Command::new("python3");
    let mut child = command.args([tool, "assemble", "-"]).stdin(Stdio::piped()).stdout(Stdio::piped()).spawn().unwrap();
    child.stdin.take().unwrap().write_all(lines.join("\n").as_bytes()).unwrap();
    let ended = child.wait_with_output().unwrap();
    ended.status.success().then_some(ended.stdout)
}

fn assembles(lines: &[String]) -> bool {
    assembled(lines).is_some()
}

/// What the bench program would read for these commands alone, behind limit 0 and no setup.
fn plan_bytes(commands: &[(u32, Vec<u8>, Vec<u8>)]) -> Vec<u8> {
    let mut plan = vec![0; 20];
    plan.extend((commands.len() as u32).to_le_bytes());
    for (request, bytes, area) in commands {
        [*request, bytes.len() as u32, area.len() as u32].iter().for_each(|number| plan.extend(number.to_le_bytes()));
        plan.extend(bytes.iter().chain(area));
    }
    plan
}

/// Every command of many sequences comes back from its text as it was.
#[test]
fn commands_come_back_from_their_text() {
    let mut lines = vec!["limit 0".to_string()];
    let mut commands = vec![];
    for seed in 0..60 {
        let (mut generator, mut lent) = (Generator::new(seed), Lent::zeroed());
        while let Some(step) = generator.next(&lent) {
            if let Step::Call(Call::Command { request, bytes, area }) = &step {
                lines.push(show::line(&step));
                commands.push((*request, bytes.clone(), area.clone()));
            }
            match step {
                Step::Call(mut call) => drop(model::run(&mut lent, &mut call)),
                Step::Damage(_) | Step::Restore => {}
            }
        }
        let text_fits = commands.iter().map(|(_, bytes, area)| 12 + bytes.len() + area.len()).sum::<usize>() < 50_000;
        if !text_fits {
            assert_eq!(assembled(&lines), Some(plan_bytes(&commands)));
            lines.truncate(1);
            commands.clear();
        }
    }
}
