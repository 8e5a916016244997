//! Runs a fixed list of sequences through the archive and the model and writes down each call with its answer, for tests/replay/replay.c.
use outside::coverage::Coverage;
use outside::guards;
use outside::recording::Recording;
use outside::runs::{walk, Job};
use std::process::exit;

const USAGE: &str = "record FILE                 sequences of a fixed seed that reach every check of the model
    --sequences N           the first N of them, whatever they reach
Ends with 0, with 1 at a difference, a check that no call came to or a file that cannot be written, with 2 for words that it does not know.";

const SEED: u64 = 1;
/// The first sequences are all recorded, and of those behind them the ones that reach something new, until everything is reached.
const LEAST: u64 = 200;
const MOST: u64 = 10_000;

struct Options {
    file: String,
    /// None for as many as are needed to reach everything.
    sequences: Option<u64>,
}

fn options(mut words: impl Iterator<Item = String>) -> Option<Options> {
    let (mut file, mut sequences) = (None, None);
    while let Some(word) = words.next() {
        match word.as_str() {
            "--sequences" => sequences = Some(words.next()?.parse().ok()?),
            _ if file.is_none() && !word.starts_with('-') => file = Some(word),
            _ => return None,
        }
    }
    Some(Options { file: file?, sequences })
}

/// What a sequence reaches.
fn reached(seed: u64) -> Coverage {
    let mut coverage = Coverage::default();
    walk(guards::run, seed, |_, answer, _| {
        if let Ok(Some(answer)) = answer {
            coverage.count(&answer);
        }
    });
    coverage
}

/// The sequences to record, by their seeds.
fn chosen(sequences: Option<u64>) -> Vec<u64> {
    let job = Job::Fixed { seeds: &[SEED], each: sequences.unwrap_or(MOST) };
    let (mut coverage, mut seeds) = (Coverage::default(), vec![]);
    for (n, seed) in (0..).map_while(|n| Some((n, job.sequence(n)?))) {
        let missing = coverage.missing().len();
        if sequences.is_none() && n >= LEAST && missing == 0 {
            break;
        }
        coverage.add(&reached(seed));
        if sequences.is_some() || n < LEAST || coverage.missing().len() < missing {
            seeds.push(seed);
        }
    }
    seeds
}

/// The recorded file and its last line, or what is wrong.
fn recorded(sequences: Option<u64>) -> Result<(Vec<u8>, String), Vec<String>> {
    let (mut recording, mut coverage) = (Recording::default(), Coverage::default());
    for seed in chosen(sequences) {
        recording.sequence(guards::run, seed, &mut coverage).map_err(|difference| {
            [vec![format!("a difference; the steps to it are told by differential --sequence {seed:#x}")], difference.parts].concat()
        })?;
    }
    let faults = coverage.faults(sequences.is_none());
    let line = recording.line();
    if faults.is_empty() { Ok((recording.finish(), line)) } else { Err(faults) }
}

fn main() {
    let Some(options) = options(std::env::args().skip(1)) else {
        eprintln!("{USAGE}");
        exit(2);
    };
    let written = recorded(options.sequences).and_then(|(bytes, line)| match std::fs::write(&options.file, bytes) {
        Ok(()) => Ok(line),
        Err(fault) => Err(vec![format!("{}: {fault}", options.file)]),
    });
    match written {
        Ok(line) => println!("{line}"),
        Err(faults) => {
            faults.iter().for_each(|fault| eprintln!("{fault}"));
            exit(1);
        }
    }
}
