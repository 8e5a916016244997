//! What is printed beside the rows.
use crate::stack;
use outside::subjects::{cells, Subject};
use outside::tables::{grouped, ROWS};
use outside::workloads::Workload;

pub fn header(machine: &str, empty: f64) {
    println!(
        "{machine}.\n\nNanoseconds: the least of many batches, in brackets the median. The batches of the systems take turns on the same memory, at several places of memory \
         and stack. A call that does nothing takes {empty:.1} ns, which all figures hold. {ROWS}"
    );
}

/// The most stack that a system takes for a workload, over all tables.
fn most_stack(subject: &Subject, workload: Workload) -> Result<usize, String> {
    let mut most = 0;
    for cell in cells(&[workload]) {
        most = most.max(stack::taken(subject.system, cell.job())?);
    }
    Ok(most)
}

pub fn stack(workloads: &[Workload], subjects: &[Subject]) -> Result<(), String> {
    println!("\nStack in bytes, the most over all tables:\n");
    println!("| Calls | {} |", subjects.iter().map(|s| format!("({}) {}", s.letter, s.name)).collect::<Vec<_>>().join(" | "));
    println!("|---|{}", "---:|".repeat(subjects.len()));
    for &workload in workloads {
        let most = subjects.iter().map(|s| most_stack(s, workload).map(|n| grouped(n as f64))).collect::<Result<Vec<_>, _>>()?;
        println!("| {} | {} |", workload.name(), most.join(" | "));
    }
    Ok(())
}
