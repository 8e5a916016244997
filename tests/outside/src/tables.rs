//! The tables that `benchmark` and `instructions` print, as markdown.
use crate::subjects::{Cell, ALL};
use crate::workloads::{Shape, COUNTS};

/// What the rows are, for the text above the tables.
pub const ROWS: &str = "MAP or COPY with its UNMAP counts as one; such a pair needs a free record, so that at 128 mappings 127 stand in the table, and COPY at 0 has one, \
     its source. Reach at 0 answers -14. `refused late` is a fixed MAP of an address that is mapped (-17; at 0 of a reserved one, -22), `refused early` a MAP with an \
     unknown flag (-95).";

const RATIOS: [&str; 4] = ["a/e", "a/c", "a/b", "a/d"];
const FEW: usize = COUNTS[1];
const MANY: usize = COUNTS[COUNTS.len() - 1];

/// What was measured of one system: the number that ratios are made of, and what its column shows.
pub struct Figure {
    pub letter: char,
    pub number: f64,
    pub text: String,
}

/// What was measured of one cell.
pub struct Row {
    pub cell: Cell,
    /// The mappings that stand in the table.
    pub standing: usize,
    pub figures: Vec<Figure>,
}

impl Row {
    pub fn figure(&self, letter: char) -> Option<&Figure> {
        self.figures.iter().find(|f| f.letter == letter)
    }

    pub fn ratio(&self, over: char, under: char) -> Option<f64> {
        Some(self.figure(over)?.number / self.figure(under)?.number)
    }

    /// Whether the table is as full as any.
    pub fn is_full(&self) -> bool {
        self.cell.count == MANY
    }

    /// `more` are the columns at the end.
    pub fn print(&self, more: &[String]) {
        let figures = ALL.map(|s| or_dash(self.figure(s.letter).map(|f| f.text.clone())));
        let ratios = ['e', 'c', 'b', 'd'].map(|l| or_dash(self.ratio('a', l).map(|r| format!("{r:.2}"))));
        println!("| {} | {} | {} |", self.cell.workload.name(), self.cell.count, [&figures[..], &ratios, more].concat().join(" | "));
    }
}

/// A whole number with commas.
pub fn grouped(number: f64) -> String {
    let digits = format!("{number:.0}");
    let part = |(i, digit): (usize, char)| {
        let comma = i > 0 && (digits.len() - i) % 3 == 0;
        comma.then_some(',').into_iter().chain([digit])
    };
    digits.chars().enumerate().flat_map(part).collect()
}

fn or_dash(text: Option<String>) -> String {
    text.unwrap_or("-".to_string())
}

fn names() -> String {
    ALL.map(|s| format!("({}) {}", s.letter, s.name)).join(" | ")
}

/// The head of a table of rows; `more` are the names of the columns at the end.
pub fn heading(shape: Shape, more: &[&str]) {
    println!("\nTable {}: {}.\n", shape.name(), shape.description());
    println!("| Calls | Mappings | {} | {} |", names(), [&RATIOS[..], more].concat().join(" | "));
    println!("|---|{}", "---:|".repeat(1 + ALL.len() + RATIOS.len() + more.len()));
}

/// What one mapping more costs.
pub fn growth(rows: &[Row], unit: &str) {
    println!("\nGrowth from {FEW} to {MANY} mappings, {unit} per mapping:\n");
    println!("| Calls | Table | {} |", names());
    println!("|---|---|{}", "---:|".repeat(ALL.len()));
    for few in rows.iter().filter(|r| r.cell.count == FEW) {
        let Some(many) = rows.iter().find(|r| r.cell == Cell { count: MANY, ..few.cell }) else {
            continue;
        };
        let more = (many.standing - few.standing) as f64;
        let slope = |letter| Some(format!("{:.1}", (many.figure(letter)?.number - few.figure(letter)?.number) / more));
        println!("| {} | {} | {} |", few.cell.workload.name(), few.cell.shape.name(), ALL.map(|s| or_dash(slope(s.letter))).join(" | "));
    }
}
