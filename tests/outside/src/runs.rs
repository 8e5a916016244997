//! Many sequences on several workers. A sequence is made from its seed alone, so that it is the same on every machine and for any number of workers.
use crate::compare::{Answer, Difference, Pair, Tried};
use crate::coverage::Coverage;
use crate::dice::mixed;
use crate::generate::Generator;
use crate::steps::Step;
use std::sync::atomic::{AtomicU64, Ordering::SeqCst};
use std::sync::Mutex;
use std::thread::{self, ScopedJoinHandle};
use std::time::{Duration, Instant};

/// Which sequences are run.
#[derive(Clone, Debug)]
pub enum Job {
    /// So many sequences of each seed.
    Fixed { seeds: &'static [u64], each: u64 },
    /// Sequences of one seed until so many calls are made.
    Calls { seed: u64, calls: u64 },
    /// One sequence by its own seed.
    One { sequence: u64 },
}

/// A sequence with a difference: its seed, and how many calls were made up to the difference, in the order of the job.
#[derive(Clone, Copy, Debug)]
pub struct Found {
    pub sequence: u64,
    pub calls: u64,
}

#[derive(Debug)]
pub struct Outcome {
    pub calls: u64,
    pub sequences: u64,
    pub coverage: Coverage,
    pub found: Option<Found>,
}

impl Job {
    /// The seed of the n-th sequence, None behind the last.
    pub fn sequence(&self, n: u64) -> Option<u64> {
        match self {
            Job::Fixed { seeds, each } => {
                let count = seeds.len() as u64;
                (n / count < *each).then(|| sequence_seed(seeds[(n % count) as usize], n / count))
            }
            Job::Calls { seed, .. } => Some(sequence_seed(*seed, n)),
            Job::One { sequence } => (n == 0).then_some(*sequence),
        }
    }

    fn most_calls(&self) -> u64 {
        match self {
            Job::Calls { calls, .. } => *calls,
            _ => u64::MAX,
        }
    }
}

fn sequence_seed(seed: u64, n: u64) -> u64 {
    mixed(mixed(seed).wrapping_add(n))
}

/// What the workers share. Sequences are handed out in order, so that all before one with a difference are finished too.
struct Shared {
    next: AtomicU64,
    /// The first sequence with a difference.
    first: AtomicU64,
    calls: AtomicU64,
    /// Calls of every sequence that was run.
    each: Mutex<Vec<(u64, u64)>>,
}

/// Runs a sequence to its end or to its first difference. `each` is told every step, what came of it, and the two tables after it.
pub fn walk(tried: Tried, seed: u64, mut each: impl FnMut(Step, Result<Option<Answer>, Difference>, &Pair)) {
    let (mut pair, mut generator) = (Pair::new(tried), Generator::new(seed));
    while let Some(step) = generator.next(pair.table()) {
        let came = pair.take(&step);
        let differs = came.is_err();
        each(step, came, &pair);
        if differs {
            break;
        }
    }
}

/// Runs a sequence: how many calls it made, and if they were all alike.
fn run_sequence(tried: Tried, seed: u64, coverage: &mut Coverage) -> (u64, bool) {
    let (mut calls, mut alike) = (0, true);
    walk(tried, seed, |_, came, pair| {
        calls = pair.calls();
        match came {
            Ok(answer) => answer.iter().for_each(|answer| coverage.count(answer)),
            Err(_) => alike = false,
        }
    });
    (calls, alike)
}

/// The steps of a sequence up to its difference.
pub fn steps(tried: Tried, seed: u64) -> Vec<Step> {
    let mut steps = vec![];
    walk(tried, seed, |step, _, _| steps.push(step));
    steps
}

fn work(tried: Tried, job: &Job, shared: &Shared) -> Coverage {
    let mut coverage = Coverage::default();
    loop {
        let n = shared.next.fetch_add(1, SeqCst);
        let Some(seed) = job.sequence(n) else { break };
        if n > shared.first.load(SeqCst) || shared.calls.load(SeqCst) >= job.most_calls() {
            break;
        }
        let (calls, alike) = run_sequence(tried, seed, &mut coverage);
        shared.calls.fetch_add(calls, SeqCst);
        shared.each.lock().unwrap().push((n, calls));
        if !alike {
            shared.first.fetch_min(n, SeqCst);
        }
    }
    coverage
}

/// Runs a job. `progress` is told the calls and the time so far, every two seconds.
pub fn run(tried: Tried, job: &Job, workers: usize, progress: fn(u64, Duration)) -> Outcome {
    let shared = Shared {
        next: AtomicU64::new(0),
        first: AtomicU64::new(u64::MAX),
        calls: AtomicU64::new(0),
        each: Mutex::new(vec![]),
    };
    let coverages: Vec<Coverage> = thread::scope(|scope| {
        let handles: Vec<_> = (0..workers).map(|_| scope.spawn(|| work(tried, job, &shared))).collect();
        watch(&shared, &handles, progress);
        handles.into_iter().map(|handle| handle.join().unwrap()).collect()
    });
    let mut coverage = Coverage::default();
    coverages.iter().for_each(|part| coverage.add(part));
    let each = shared.each.into_inner().unwrap();
    let first = shared.first.into_inner();
    let up_to = each.iter().filter(|(n, _)| *n <= first).map(|(_, calls)| calls).sum();
    let found = job.sequence(first).filter(|_| first != u64::MAX).map(|sequence| Found { sequence, calls: up_to });
    Outcome { calls: shared.calls.into_inner(), sequences: each.len() as u64, coverage, found }
}

fn watch<T>(shared: &Shared, workers: &[ScopedJoinHandle<T>], progress: fn(u64, Duration)) {
    let (begun, mut told) = (Instant::now(), 0);
    while !workers.iter().all(ScopedJoinHandle::is_finished) {
        thread::sleep(Duration::from_millis(20));
        if begun.elapsed().as_secs() >= told + 2 {
            told = begun.elapsed().as_secs();
            progress(shared.calls.load(SeqCst), begun.elapsed());
        }
    }
}
