//! The part that runs under callgrind: for each cell a batch of a call that does nothing and one of each system, with a dump behind it.
use crate::callgrind::{ask, Request};
use outside::answers::all_alike;
use outside::calls::System;
use outside::subjects::{nothing, Cell, Subject, ALL};
use outside::workloads::Job;
use std::thread;

/// The rounds of a batch. The archive and the plain program take the same in each; the model allocates, which is not quite the same each time.
pub const ROUNDS: u32 = 10;

const STACK: usize = 1024 * 1024;

#[inline(never)]
fn batch(system: System, job: &mut Job) {
    job.round(system);
    ask(Request::Zero);
    for _ in 0..ROUNDS {
        job.round(system);
    }
    ask(Request::Dump);
}

/// The batches of a cell.
pub fn of_a_cell(subjects: &[Subject]) -> usize {
    1 + subjects.len()
}

fn batches(subjects: &[Subject], cells: &[Cell]) {
    let mut jobs: Vec<Job> = cells.iter().map(Cell::job).collect();
    ask(Request::Start);
    for job in &mut jobs {
        batch(nothing, job);
        subjects.iter().for_each(|s| batch(s.system, job));
    }
}

/// Runs them on a thread: there stack and memory lie in the same way whatever the environment is, and how long a memcpy takes depends on where the bytes lie.
pub fn run(subjects: Vec<Subject>, cells: Vec<Cell>) -> Result<(), String> {
    all_alike(&ALL, &cells)?;
    let thread = thread::Builder::new().stack_size(STACK).spawn(move || batches(&subjects, &cells)).map_err(|e| e.to_string())?;
    thread.join().map_err(|_| "the thread of the batches ended early".to_string())
}
