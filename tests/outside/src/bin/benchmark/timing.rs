//! Batches of calls, timed. The systems take turns batch by batch on the same memory, so that whatever else the machine does hits all alike. The place of table and stack
//! within a page decides up to a fifth of the time of a program that copies, so that several places are tried.
use outside::calls::System;
use outside::subjects::{nothing, Subject};
use outside::tables::{grouped, Figure};
use outside::workloads::{Job, Shape, Workload};
use std::hint::black_box;
use std::time::{Duration, Instant};

/// How long a batch should take: long beside a reading of the clock, short beside a time slice.
const BATCH: Duration = Duration::from_micros(50);
/// The most rounds in a batch.
const MOST: u32 = 1000;
/// How many places are tried.
const PLACES: usize = 8;

fn batch(system: System, job: &mut Job, rounds: u32) -> Duration {
    let start = Instant::now();
    for _ in 0..rounds {
        job.round(system);
    }
    start.elapsed()
}

/// How many rounds fill a batch.
fn rounds(system: System, job: &mut Job) -> u32 {
    let one = (0..5).map(|_| batch(system, job, 1)).min().unwrap_or(BATCH);
    let fit = BATCH.as_nanos() / one.as_nanos().max(1);
    (fit as u32).clamp(1, MOST)
}

struct Series {
    subject: Subject,
    rounds: u32,
    spent: Duration,
    samples: Vec<f64>,
}

impl Series {
    fn new(subject: &Subject, job: &mut Job) -> Series {
        Series { subject: *subject, rounds: rounds(subject.system, job), spent: Duration::ZERO, samples: Vec::new() }
    }

    fn sample(&mut self, job: &mut Job) {
        let took = batch(self.subject.system, job, self.rounds);
        self.spent += took;
        self.samples.push(took.as_nanos() as f64 / f64::from(self.rounds));
    }

    /// The nanoseconds of one round of a job: in its fastest batch, and in the middle one.
    fn figure(mut self) -> Figure {
        self.samples.sort_by(f64::total_cmp);
        let (least, median) = (self.samples[0], self.samples[self.samples.len() / 2]);
        Figure { letter: self.subject.letter, number: least, text: format!("{} ({})", grouped(least), grouped(median)) }
    }
}

/// Runs the work so many frames further down the stack.
#[inline(never)]
fn deeper(frames: usize, work: &mut dyn FnMut()) {
    let frame = black_box([0u8; 272]);
    match frames {
        0 => work(),
        _ => deeper(frames - 1, work),
    }
    black_box(frame);
}

/// Copies of a job, each at an address of its own within a page.
fn placed(job: &Job) -> Vec<(Vec<u8>, Job)> {
    (0..PLACES).map(|k| (vec![0; 304 * k], job.clone())).collect()
}

/// Each system gets an equal part of the time at each place, and at least one batch.
pub fn measure(subjects: &[Subject], mut job: Job, share: Duration) -> Vec<Figure> {
    let mut series: Vec<Series> = subjects.iter().map(|s| Series::new(s, &mut job)).collect();
    let part = share / (subjects.len() * PLACES) as u32;
    for (place, (_, job)) in placed(&job).iter_mut().enumerate() {
        let until = part * (place as u32 + 1);
        deeper(place, &mut || take_turns(&mut series, job, until));
    }
    series.into_iter().map(Series::figure).collect()
}

/// Batch by batch, until each system has spent its time.
fn take_turns(series: &mut [Series], job: &mut Job, until: Duration) {
    while series.iter().any(|s| s.spent < until) {
        for s in series.iter_mut().filter(|s| s.spent < until) {
            s.sample(job);
        }
    }
}

/// What the measuring itself takes.
pub fn empty() -> f64 {
    let mut job = Job::new(Workload::Early, Shape::Ascending, 0);
    let least = (0..100).map(|_| batch(black_box(nothing), &mut job, MOST)).min().unwrap_or_default();
    least.as_nanos() as f64 / f64::from(MOST)
}
