//! Document 01, and of document 02 the index that L9 keeps and the tool of L1, as a program to be read beside them: every call takes the lent table into plain data
//! (`table`), asks the paper's checks one after the other (`commands`, `host`, `explain`), and puts the table back where it was accepted. Written from the papers alone;
//! nothing here is fast or clever on purpose.
mod checks;
mod commands;
mod explain;
mod host;
mod table;
#[cfg(test)]
mod tests;

use crate::calls::{Call, Lent};
use checks::{Answer, Name};
use iommufd::raw::Number;
use table::Table;

pub use checks::{checks, Check};
pub use explain::kinds;
pub use table::{agreeing_index, bad, bad_rules};

/// The call on the table in place; bytes and area hold the reply afterwards.
pub fn run(lent: &mut Lent, call: &mut Call) -> Number {
    judge(lent, call).0
}

/// The call, and the check that decided its answer.
pub fn judge(lent: &mut Lent, call: &mut Call) -> (Number, Check) {
    match answer(lent, call) {
        Ok(done) => (Number { result: done.result, value: done.value }, done.check),
        Err(check) => (Number { result: -check.errno, value: 0 }, check),
    }
}

fn answer(lent: &mut Lent, call: &mut Call) -> Answer {
    match call {
        Call::Fresh { limit } => host::fresh(lent, *limit),
        Call::Command { request, bytes, area } => change(lent, commands::name(*request), |table| commands::run(table, *request, bytes, area)),
        Call::Preview { request, bytes, area } => look(lent, commands::name(*request), |table| commands::run(table, *request, bytes, area)),
        Call::Bind { bitmap, reserved } => change(lent, checks::BIND, |table| host::bind(table, *bitmap, reserved)),
        Call::Attach { device, space } => change(lent, checks::ATTACH, |table| host::attach(table, *device, *space)),
        Call::Detach { device } => change(lent, checks::DETACH, |table| host::detach(table, *device)),
        Call::Reach { device, address, length, write } => {
            look(lent, checks::REACH, |table| host::reach(table, *device, *address, *length, *write != 0))
        }
        Call::Charge => look(lent, checks::CHARGE, |table| host::charge(table)),
        Call::Next { space, address } => look(lent, checks::NEXT, |table| host::next(table, *space, *address)),
        Call::Explain { request, bytes, words } => look(lent, checks::EXPLAIN, |table| explain::explain(table, *request, bytes, words)),
    }
}

/// What is special about an explanation that was given on this table: some of `kinds`.
pub fn kinds_of(lent: &Lent, call: &Call) -> Vec<&'static str> {
    match (call, table::good(lent)) {
        (Call::Explain { request, bytes, words }, Ok(table)) => explain::kinds_of(&table, *request, bytes, words),
        _ => vec![],
    }
}

/// A call that only looks. 117 is before all other checks, of every call.
fn look(lent: &Lent, name: Name, act: impl FnOnce(&mut Table) -> Answer) -> Answer {
    let mut table = good(lent, name)?;
    act(&mut table)
}

/// A call that may change the table. A refusal returns before the table is written.
fn change(lent: &mut Lent, name: Name, act: impl FnOnce(&mut Table) -> Answer) -> Answer {
    let mut table = good(lent, name)?;
    let done = act(&mut table)?;
    // After any call not answered 117 the index lists exactly each space's mappings.
    table.index = table.agreeing();
    table.store(lent);
    Ok(done)
}

fn good(lent: &Lent, name: Name) -> Result<Table, Check> {
    table::good(lent).map_err(|_| name.check(117, "bad table"))
}
