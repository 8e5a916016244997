//! What a call of the archive costs beside the model and beside a plain program, in one run and as markdown: times, growth with the number of mappings, stack and bytes
//! copied. It fails, before any time is taken, where the systems do not answer alike.
//!
//! `--quick` takes 10 s of time in place of 75. `--only NAME` measures the workloads whose name holds NAME. `--without-model` leaves (b) out. `--limit RATIO` fails where a/c
//! at 128 mappings is above RATIO.
//!
//! Build it with `RUSTFLAGS="-C llvm-args=-align-loops=64"`: the check of (c) spends its time in one small loop, which takes up to 60 % longer where it happens to lie across
//! a boundary of 32 bytes, and then the archive looks better than it is.
mod copies;
mod options;
mod report;
mod stack;
mod timing;

use options::Options;
use outside::answers::all_alike;
use outside::machine;
use outside::subjects::{cells, Cell, Subject, ARCHIVE, CHECKED, MODEL, STRAIGHT, TRUSTING};
use outside::tables::{growth, heading, Row};
use outside::workloads::Workload;
use std::process::ExitCode;

/// In the order in which their batches take turns.
fn subjects(options: &Options) -> Vec<Subject> {
    let all = [ARCHIVE, STRAIGHT, CHECKED, TRUSTING, MODEL];
    all.into_iter().filter(|s| options.model || s.letter != MODEL.letter).collect()
}

/// Measures every cell, and prints its row as soon as it is known.
fn times(options: &Options, subjects: &[Subject], cells: &[Cell]) -> Vec<Row> {
    let share = options.time / cells.len() as u32;
    let mut rows: Vec<Row> = Vec::new();
    for &cell in cells {
        if rows.last().is_none_or(|r| r.cell.shape != cell.shape) {
            heading(cell.shape, &[]);
        }
        let job = cell.job();
        let row = Row { cell, standing: job.standing(), figures: timing::measure(subjects, job, share) };
        row.print(&[]);
        rows.push(row);
    }
    rows
}

/// The ratio a/c on a full table is what the archive is held to.
fn within(limit: f64, rows: &[Row]) -> Result<(), String> {
    let ratios = rows.iter().filter(|r| r.is_full() && r.cell.has_limit()).filter_map(|r| Some((r, r.ratio('a', 'c')?)));
    let above: Vec<String> = ratios.filter(|(_, ratio)| *ratio > limit).map(|(r, ratio)| format!("{}: {ratio:.2}", r.cell.name())).collect();
    if above.is_empty() {
        Ok(())
    } else {
        Err(format!("a/c is above {limit}: {}", above.join("; ")))
    }
}

fn run() -> Result<(), String> {
    let options = Options::read(std::env::args().skip(1))?;
    let workloads: Vec<Workload> = Workload::ALL.into_iter().filter(|w| w.name().contains(&options.only)).collect();
    let (subjects, cells) = (subjects(&options), cells(&workloads));
    if cells.is_empty() {
        return Err(format!("no workload has {} in its name", options.only));
    }
    all_alike(&subjects, &cells)?;
    report::header(&machine::describe(), timing::empty());
    let rows = times(&options, &subjects, &cells);
    growth(&rows, "nanoseconds");
    report::stack(&workloads, &[ARCHIVE, STRAIGHT, CHECKED, TRUSTING])?;
    copies::report(&options.only)?;
    within(options.limit, &rows)
}

fn main() -> ExitCode {
    match run() {
        Ok(()) => ExitCode::SUCCESS,
        Err(why) => {
            eprintln!("benchmark: {why}");
            ExitCode::FAILURE
        }
    }
}
