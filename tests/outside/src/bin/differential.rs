//! Random sequences of calls through the built archive and through the model, compared after every call.
use outside::compare::{replay, Tried};
use outside::coverage::{said, Coverage};
use outside::runs::{self, Found, Job};
use outside::shrink::shrink;
use outside::steps::Step;
use outside::{guards, plain, show};
use std::io::IsTerminal;
use std::process::exit;
use std::time::{Duration, Instant};

const USAGE: &str = "differential                          the fixed set of sequences; every check of the model has to be reached
differential --calls N [--seed S]     a long run on all cores
differential --sequence S             one sequence, as a difference names it
    --system NAME                     the system beside the model: boundary or plain
    --no-shrink                       a difference as it was found
Ends with 0 if all were alike, 1 with a difference or a check that no call came to, 2 for words that it does not know.";

/// The systems that can be asked for, the first one if none is.
const SYSTEMS: [(&str, Tried); 2] = [("boundary", guards::run), ("plain", |_, lent, call| Ok(plain::checked(lent, call)))];

const SEEDS: [u64; 16] = [1, 2, 3, 5, 8, 13, 21, 34, 55, 89, 144, 233, 377, 610, 987, 1597];
const EACH: u64 = 600;
const FIXED_WORKERS: usize = 2;

struct Options {
    job: Job,
    tried: Tried,
    shrinks: bool,
}

fn number(word: Option<&String>) -> Option<u64> {
    let word = word?;
    match word.strip_prefix("0x") {
        Some(hex) => u64::from_str_radix(hex, 16).ok(),
        None => word.parse().ok(),
    }
}

fn system(name: Option<&String>) -> Option<Tried> {
    let name = name?;
    SYSTEMS.iter().find(|system| system.0 == name).map(|system| system.1)
}

fn options(words: &[String]) -> Option<Options> {
    let (mut calls, mut seed, mut sequence) = (None, None, None);
    let (mut tried, mut shrinks) = (SYSTEMS[0].1, true);
    let mut words = words.iter();
    while let Some(word) = words.next() {
        match word.as_str() {
            "--calls" => calls = Some(number(words.next())?),
            "--seed" => seed = Some(number(words.next())?),
            "--sequence" => sequence = Some(number(words.next())?),
            "--system" => tried = system(words.next())?,
            "--no-shrink" => shrinks = false,
            _ => return None,
        }
    }
    let job = match (calls, seed, sequence) {
        (None, None, None) => Job::Fixed { seeds: &SEEDS, each: EACH },
        (Some(calls), seed, None) => Job::Calls { seed: seed.unwrap_or(0), calls },
        (None, None, Some(sequence)) => Job::One { sequence },
        _ => return None,
    };
    Some(Options { job, tried, shrinks })
}

fn progress(calls: u64, time: Duration) {
    let line = format!("{calls} calls, {:.0} calls/s, {:.0} s", calls as f64 / time.as_secs_f64(), time.as_secs_f64());
    if std::io::stderr().is_terminal() {
        eprint!("\r{line}  ");
    } else {
        eprintln!("{line}");
    }
}

/// The difference and the steps to it. All but the steps are comments, so that a plan can be piped into plans/plan.py.
fn tell(found: Found, options: &Options) {
    println!("# difference after {} calls; again with --sequence {:#x}", found.calls, found.sequence);
    let steps = runs::steps(options.tried, found.sequence);
    let told = if options.shrinks {
        shrink(options.tried, steps)
    } else {
        replay(options.tried, &steps).map(|(_, difference)| (vec![], difference))
    };
    let Some((steps, difference)) = told else {
        println!("# the same steps gave no difference when they were made again");
        return;
    };
    difference.parts.iter().for_each(|part| println!("# {part}"));
    println!("# the model's check: {}", said(&difference.check));
    if options.shrinks {
        tell_steps(&steps);
    }
}

fn tell_steps(steps: &[Step]) {
    let lines = show::plan(steps).unwrap_or_else(|| {
        println!("# no plan can say this; {} steps on zeroed memory:", steps.len());
        steps.iter().map(show::line).collect()
    });
    lines.iter().for_each(|line| println!("{line}"));
}

/// The counts, and if they are as they should be.
fn covered(coverage: &Coverage, whole: bool) -> bool {
    coverage.lines().iter().for_each(|line| println!("{line}"));
    let faults = coverage.faults(whole);
    faults.iter().for_each(|fault| println!("{fault}"));
    faults.is_empty()
}

fn main() {
    let words: Vec<String> = std::env::args().skip(1).collect();
    let Some(options) = options(&words) else {
        eprintln!("{USAGE}");
        exit(2);
    };
    let whole = matches!(options.job, Job::Fixed { .. });
    let workers = if whole { FIXED_WORKERS } else { std::thread::available_parallelism().map_or(1, usize::from) };
    let begun = Instant::now();
    let outcome = runs::run(options.tried, &options.job, workers, progress);
    if std::io::stderr().is_terminal() {
        eprintln!(); // behind the line of progress
    }
    if let Some(found) = outcome.found {
        tell(found, &options);
        exit(1);
    }
    let fine = covered(&outcome.coverage, whole);
    let seconds = begun.elapsed().as_secs_f64();
    println!("{} sequences, {} calls, all alike; {seconds:.1} s, {:.0} calls/s", outcome.sequences, outcome.calls, outcome.calls as f64 / seconds);
    exit(if fine { 0 } else { 1 });
}
