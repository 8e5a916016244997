//! Whether the systems give the same answers, so that no wrong program is measured.
use crate::calls::{Call, Lent};
use crate::subjects::{Cell, Subject};
use crate::workloads::Job;
use iommufd::raw::Number;

/// After each call of a job: the result, the bytes and the table.
type Trace = Vec<(Number, Call, Lent)>;

fn trace(subject: &Subject, job: &Job) -> Trace {
    let mut lent = job.lent.clone();
    let step = |mut call: Call| {
        let told = (subject.system)(&mut lent, &mut call);
        (told, call, lent.clone())
    };
    job.calls.iter().cloned().map(step).collect()
}

/// Whether the calls can be repeated: they leave the table as it was, and with the bytes that they left they do the same again.
fn repeats(subject: &Subject, job: &Job, first: &Trace) -> bool {
    let calls = first.iter().map(|(_, call, _)| call.clone()).collect();
    let kept = first.last().is_none_or(|(_, _, lent)| *lent == job.lent);
    kept && trace(subject, &Job { lent: job.lent.clone(), calls }) == *first
}

fn alike(subjects: &[Subject], job: &Job) -> Result<(), String> {
    let first = trace(&subjects[0], job);
    for subject in subjects {
        if trace(subject, job) != first {
            return Err(format!("({}) and ({}) answer differently", subjects[0].letter, subject.letter));
        }
        if !repeats(subject, job, &first) {
            return Err(format!("({}) cannot repeat the calls", subject.letter));
        }
    }
    Ok(())
}

pub fn all_alike(subjects: &[Subject], cells: &[Cell]) -> Result<(), String> {
    for cell in cells {
        alike(subjects, &cell.job()).map_err(|why| format!("{}: {why}", cell.name()))?;
    }
    Ok(())
}

#[cfg(test)]
mod tests {
    use super::*;
    use crate::subjects::{nothing, CHECKED, TRUSTING};
    use crate::workloads::{Shape, Workload};

    #[test]
    fn a_wrong_system_is_found() {
        let job = Job::new(Workload::Fixed, Shape::Worn, 16);
        assert!(alike(&[CHECKED, TRUSTING], &job).is_ok());
        assert!(alike(&[CHECKED, Subject { letter: 'x', name: "nothing", system: nothing }], &job).is_err());
    }
}
