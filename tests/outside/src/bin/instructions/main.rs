//! How many instructions a call of the archive takes beside the model and beside a plain program, counted by callgrind and printed as markdown. Two runs of the same programs
//! print the same, whatever else the machine does.
//!
//! `--kit PROGRAM` names this program linked with the kit's own archive, for two columns more. `--limit` fails where a/e or a/c is above what the archive is held to, `--limit RATIO`
//! where one is above RATIO in any row that has a limit. With `--batches LETTERS` the program does what is counted, and prints nothing: it runs itself so.
mod batches;
mod callgrind;
mod options;

use callgrind::Count;
use options::{Limits, Options, Ratios, ORDER_LIMITS};
use outside::machine;
use outside::subjects::{cells, Cell, Subject, ALL, ARCHIVE};
use outside::tables::{grouped, growth, heading, Figure, Row, ROWS};
use outside::workloads::{Shape, Workload, COUNTS};
use std::path::Path;
use std::process::ExitCode;

/// What one round takes, without the loop around it.
#[derive(Clone, Copy)]
struct Round {
    letter: char,
    all: f64,
    copying: f64,
}

impl Round {
    fn new(subject: &Subject, batch: Count, empty: Count) -> Round {
        let each = |n: u64| n as f64 / f64::from(batches::ROUNDS);
        Round { letter: subject.letter, all: each(batch.all - empty.all), copying: each(batch.copying) }
    }

    fn figure(&self) -> Figure {
        Figure { letter: self.letter, number: self.all, text: grouped(self.all) }
    }
}

/// Of each cell the rounds of the systems, counted in a program that has them.
fn counted(program: &Path, subjects: &[Subject], cells: &[Cell]) -> Result<Vec<Vec<Round>>, String> {
    let letters: String = subjects.iter().map(|s| s.letter).collect();
    let each = batches::of_a_cell(subjects);
    let counts = callgrind::counts(program, &["--batches", &letters], cells.len() * each)?;
    let rounds = |batches: &[Count]| subjects.iter().zip(&batches[1..]).map(|(s, batch)| Round::new(s, *batch, batches[0])).collect();
    Ok(counts.chunks(each).map(rounds).collect())
}

fn header(with_kit: bool) {
    println!(
        "{}; {}.\n\nInstructions, counted by callgrind over {} rounds, without the loop around them. A step of a `rep` counts as one. memcpy and memset are libc's and not a \
         kernel's, those for any x86-64: `copying` is what they take of (a). {ROWS}",
        machine::compilers(),
        machine::counters(),
        batches::ROUNDS
    );
    if with_kit {
        println!("\n(k) is the kit's own archive, of the same module, with a red zone and vector registers.");
    }
}

/// Prints the row of a cell: the figures of the systems, the share of the copies in (a), and the same call in the kit's archive.
fn row(cell: Cell, rounds: &[Round], kit: Option<Round>) -> Row {
    let row = Row { cell, standing: cell.job().standing(), figures: rounds.iter().map(Round::figure).collect() };
    let of_kit = kit.map(|k| [grouped(k.all), format!("{:.2}", rounds[0].all / k.all)]);
    let more: Vec<String> = [grouped(rounds[0].copying)].into_iter().chain(of_kit.into_iter().flatten()).collect();
    row.print(&more);
    row
}

fn table(cells: &[Cell], rounds: &[Vec<Round>], kit: Option<&[Vec<Round>]>) -> Vec<Row> {
    let more: &[&str] = if kit.is_some() { &["copying", "(k) kit's own", "a/k"] } else { &["copying"] };
    let mut rows: Vec<Row> = Vec::new();
    for (i, &cell) in cells.iter().enumerate() {
        if rows.last().is_none_or(|r| r.cell.shape != cell.shape) {
            heading(cell.shape, more);
        }
        rows.push(row(cell, &rounds[i], kit.map(|k| k[i][0])));
    }
    rows
}

/// The least and the most of some numbers.
fn span(numbers: impl Iterator<Item = f64> + Clone, digits: usize) -> String {
    let (least, most) = (numbers.clone().fold(f64::INFINITY, f64::min), numbers.fold(0.0, f64::max));
    format!("{least:.digits$} to {most:.digits$}")
}

/// The share of the copies, and a/c without them, which does not depend on libc.
fn without_copies(rounds: &[Vec<Round>]) {
    let own = |of: &[Round], letter| of.iter().find(|r| r.letter == letter).map(|r| r.all - r.copying);
    let shares = rounds.iter().map(|of| 100.0 * of[0].copying / of[0].all);
    let ratios = rounds.iter().filter_map(|of| Some(own(of, 'a')? / own(of, 'c')?));
    println!("\n`copying` is {} % of (a); without memcpy and memset in both, a/c is {}.", span(shares, 0), span(ratios, 2));
}

/// The row where the archive takes most against a system, at each number of mappings, of those that have a limit.
fn worst(rows: &[Row], letter: char) -> Vec<(&Row, f64)> {
    let limited = |count| rows.iter().filter(move |r| r.cell.count == count && r.cell.has_limit());
    let ratios = |count| limited(count).filter_map(|r| Some((r, r.ratio('a', letter)?)));
    COUNTS.into_iter().filter_map(|count| ratios(count).max_by(|a, b| a.1.total_cmp(&b.1))).collect()
}

/// Prints the worst rows, and fails where one is above its limit.
fn judge(rows: &[Row], letter: char, limits: Ratios) -> Result<(), String> {
    let worst = worst(rows, letter);
    let told: Vec<String> = worst.iter().map(|(row, ratio)| format!("{ratio:.2} ({})", row.cell.name())).collect();
    println!("\nThe highest a/{letter}: {}.", told.join("; "));
    match worst.iter().zip(limits).find(|((_, ratio), limit)| ratio > limit) {
        Some(((row, ratio), limit)) => Err(format!("{}: a/{letter} is {ratio:.3}, the limit {limit}", row.cell.name())),
        None => Ok(()),
    }
}

/// What the archive takes on a full table of another shape, as a multiple of the ascending one: the worst of all workloads.
fn against_order(rows: &[Row], shape: Shape) -> f64 {
    let full = |shape: Shape| rows.iter().filter(move |r| r.cell.shape == shape && r.is_full());
    let own = |row: &Row| row.figure('a').map(|f| f.number);
    let ratios = full(shape).filter_map(|r| Some(own(r)? / own(full(Shape::Ascending).find(|s| s.cell.workload == r.cell.workload)?)?));
    ratios.fold(0.0, f64::max)
}

/// Prints what the order of the records costs, and fails where it is more than it may be.
fn judge_order(rows: &[Row], limits: Limits) -> Result<(), String> {
    for (shape, limit) in ORDER_LIMITS {
        let ratio = against_order(rows, shape);
        println!("The highest of a full {} table against the ascending one, in (a): {ratio:.2}.", shape.name());
        if limits.plain[0].is_finite() && ratio > limit {
            return Err(format!("a full {} table takes {ratio:.3} times the ascending one, the limit is {limit}", shape.name()));
        }
    }
    Ok(())
}

fn run() -> Result<(), String> {
    let options = Options::read(std::env::args().skip(1))?;
    let cells = cells(&Workload::ALL);
    if let Some(letters) = &options.batches {
        return batches::run(ALL.into_iter().filter(|s| letters.contains(s.letter)).collect(), cells);
    }
    let own = std::env::current_exe().map_err(|e| e.to_string())?;
    let rounds = counted(&own, &ALL, &cells)?;
    let kit = options.kit.map(|program| counted(&program, &[ARCHIVE], &cells)).transpose()?;
    header(kit.is_some());
    let rows = table(&cells, &rounds, kit.as_deref());
    growth(&rows, "instructions");
    without_copies(&rounds);
    judge(&rows, 'e', options.limits.plain)?;
    judge(&rows, 'c', options.limits.tuned)?;
    judge_order(&rows, options.limits)
}

fn main() -> ExitCode {
    match run() {
        Ok(()) => ExitCode::SUCCESS,
        Err(why) => {
            eprintln!("instructions: {why}");
            ExitCode::FAILURE
        }
    }
}
