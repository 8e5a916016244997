//! The systems that are measured beside each other, and the calls and tables that they are measured on.
use crate::calls::{Call, Lent, System};
use crate::workloads::{Job, Shape, Workload, COUNTS};
use crate::{boundary, model, plain};
use iommufd::raw::Number;

/// A system that is measured: its letter, its name and how it is called.
#[derive(Clone, Copy)]
pub struct Subject {
    pub letter: char,
    pub name: &'static str,
    pub system: System,
}

pub const ARCHIVE: Subject = Subject { letter: 'a', name: "archive", system: boundary::run };
pub const MODEL: Subject = Subject { letter: 'b', name: "model", system: model::run };
pub const CHECKED: Subject = Subject { letter: 'c', name: "plain, tuned", system: plain::checked };
pub const TRUSTING: Subject = Subject { letter: 'd', name: "plain, trusting", system: plain::trusting };
pub const STRAIGHT: Subject = Subject { letter: 'e', name: "plain", system: plain::straight };

/// In the order of the columns of a table.
pub const ALL: [Subject; 5] = [ARCHIVE, MODEL, STRAIGHT, CHECKED, TRUSTING];

/// A call that is handed on and does nothing: what the measuring itself takes.
pub fn nothing(_: &mut Lent, _: &mut Call) -> Number {
    Number::default()
}

/// What a row of a table is about.
#[derive(Clone, Copy, Debug, PartialEq, Eq)]
pub struct Cell {
    pub shape: Shape,
    pub workload: Workload,
    /// The mappings that are asked for.
    pub count: usize,
}

impl Cell {
    pub fn job(&self) -> Job {
        Job::new(self.workload, self.shape, self.count)
    }

    /// Whether the archive is held to a ratio here.
    pub fn has_limit(&self) -> bool {
        *self != CROWDED
    }

    pub fn name(&self) -> String {
        format!("{}, table {}, {} mappings", self.workload.name(), self.shape.name(), self.count)
    }
}

/// The row that is stated and has no limit: what many reserved ranges and a full table out of order cost the check.
const CROWDED: Cell = Cell { shape: Shape::Crowded, workload: Workload::Early, count: COUNTS[COUNTS.len() - 1] };

/// In the order of the tables.
pub fn cells(workloads: &[Workload]) -> Vec<Cell> {
    let rows = |shape| workloads.iter().flat_map(move |&workload| COUNTS.map(|count| Cell { shape, workload, count }));
    let crowded = workloads.contains(&CROWDED.workload).then_some(CROWDED);
    Shape::ALL.into_iter().flat_map(rows).chain(crowded).collect()
}
