//! The plain program, which the archive is measured against, answers as the model does: result, bytes, area and table after every call.
use iommufd::raw::Number;
use outside::calls::{Call, Lent};
use outside::compare::Tried;
use outside::dice::Dice;
use outside::runs::{self, Job};
use outside::shrink::shrink;
use outside::{model, plain, show};

type Told = Result<Number, &'static str>;

/// Chosen and so many that every check of every call and every rule of a bad table is come to.
const JOB: Job = Job::Fixed { seeds: &[7, 8, 9], each: 400 };

fn checked(_: &mut Dice, lent: &mut Lent, call: &mut Call) -> Told {
    Ok(plain::checked(lent, call))
}

fn straight(_: &mut Dice, lent: &mut Lent, call: &mut Call) -> Told {
    Ok(plain::straight(lent, call))
}

/// The table is trusted only where it is good.
fn trusting(_: &mut Dice, lent: &mut Lent, call: &mut Call) -> Told {
    let system = if model::bad(lent).is_some() { model::run } else { plain::trusting };
    Ok(system(lent, call))
}

/// The first difference, with the fewest steps that come to it.
fn is_alike(tried: Tried) -> runs::Outcome {
    let outcome = runs::run(tried, &JOB, 2, |_, _| {});
    if let Some(found) = outcome.found {
        let (steps, difference) = shrink(tried, runs::steps(tried, found.sequence)).expect("the sequence differs again");
        let lines: Vec<String> = steps.iter().map(show::line).collect();
        panic!("{lines:#?}\n{difference:#?}");
    }
    outcome
}

#[test]
fn checked_is_alike() {
    let outcome = is_alike(checked);
    assert_eq!(outcome.coverage.faults(true), Vec::<String>::new(), "after {} calls", outcome.calls);
}

#[test]
fn straight_is_alike() {
    let outcome = is_alike(straight);
    assert_eq!(outcome.coverage.faults(true), Vec::<String>::new(), "after {} calls", outcome.calls);
}

#[test]
fn trusting_is_alike_on_good_tables() {
    is_alike(trusting);
}
