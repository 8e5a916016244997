//! What a systems programmer would write instead of the archive: plain safe Rust on the same layout, in place and without allocation. It gives the papers'
//! answers for any table and any bytes where it checks the table before every call, and for good tables where it trusts the table. It goes by the archive's
//! own steps, so that two programs are compared and not two algorithms: what a call looks for it finds by a binary search of the index, and the index is
//! kept by moving its words up or down. The check is there twice: rule by rule, as one writes it first (`STRAIGHT`), and with fused passes, tuned for the
//! machine (`TUNED`).
//!
//! A command is decided on the table as it stands and only then applied, so that a refusal writes nothing and a preview is the decision alone.
mod check;
mod commands;
mod explain;
mod host;
mod place;
mod range;
mod straight;
mod table;
mod wire;

#[cfg(test)]
mod tests;

use crate::calls::{Call, Lent};
use check::Found;
use iommufd::raw::{Head, Mapping, Number, Object, Reserved};
use table::{listed, Index, Records, Table};

/// The records of a mapping table.
const RECORDS: usize = 128;
/// The words of its index.
const WORDS: usize = 128;
/// The highest charge limit, in pages.
const MAX_LIMIT: u64 = 1 << 36;
/// The longest mapping, in bytes.
const MAX_LENGTH: u64 = 1 << 40;
/// The largest page that a device may need at least.
const MAX_PAGE: u64 = 4096;

const SPACE: u32 = 1;
const LOOSE: u32 = 2;
const ATTACHED: u32 = 3;

/// Rights of a mapping.
const WRITE: u32 = 1;
const READ: u32 = 2;

/// A refusal: the number of document 01.
#[derive(Clone, Copy, Debug, PartialEq, Eq)]
struct Errno(i32);

const EPERM: Errno = Errno(1);
const ENOENT: Errno = Errno(2);
const E2BIG: Errno = Errno(7);
const ENOMEM: Errno = Errno(12);
const EFAULT: Errno = Errno(14);
const EBUSY: Errno = Errno(16);
const EEXIST: Errno = Errno(17);
const EINVAL: Errno = Errno(22);
const ENOTTY: Errno = Errno(25);
const ENOSPC: Errno = Errno(28);
const EOVERFLOW: Errno = Errno(75);
const EMSGSIZE: Errno = Errno(90);
const EOPNOTSUPP: Errno = Errno(95);
const EADDRINUSE: Errno = Errno(98);
const EUCLEAN: Errno = Errno(117);

type Answer<T> = Result<T, Errno>;

/// How the table is checked before a call.
const TRUSTED: u8 = 0;
const STRAIGHT: u8 = 1;
const TUNED: u8 = 2;

/// `Err` of a refusal where the condition holds: the checks of a call, one line each.
fn refuse(fires: bool, errno: Errno) -> Answer<()> {
    if fires {
        Err(errno)
    } else {
        Ok(())
    }
}

/// What a call decides on a table, behind the first check of every call.
#[inline(always)]
fn decide<const CHECK: u8, T>(head: &Head, mappings: &[Mapping], index: &[u64], decide: impl FnOnce(Table) -> Answer<T>) -> Answer<T> {
    let mappings: &Records = mappings.try_into().map_err(|_| EUCLEAN)?;
    let index: &Index = index.try_into().map_err(|_| EUCLEAN)?;
    if CHECK == TRUSTED {
        return decide(Table { head, mappings, listed: listed(index), found: None });
    }
    let mut found = Found::nothing();
    let is_good = if CHECK == STRAIGHT { straight::is_good } else { check::is_good };
    refuse(!is_good(head, mappings, index, &mut found), EUCLEAN)?;
    decide(Table { head, mappings, listed: &index[..found.used], found: Some(&found) })
}

fn result(answer: Answer<i32>) -> i32 {
    answer.unwrap_or_else(|Errno(n)| -n)
}

fn number(answer: Answer<u64>) -> Number {
    match answer {
        Ok(value) => Number { result: 0, value },
        Err(Errno(n)) => Number { result: -n, value: 0 },
    }
}

// ---- the entries, each as its C sister in include/iommufd.h

#[inline(never)]
pub fn fresh(head: &mut Head, mappings: &mut [Mapping], index: &mut [u64], limit: u64) -> i32 {
    if mappings.len() != RECORDS || index.len() != WORDS {
        return -EUCLEAN.0;
    }
    if limit > MAX_LIMIT {
        return -EINVAL.0;
    }
    head.limit = limit;
    head.objects.fill(Object::default());
    mappings.fill(Mapping::default());
    index.fill(0);
    0
}

#[inline(never)]
pub fn call<const CHECK: u8>(head: &mut Head, mappings: &mut [Mapping], index: &mut [u64], request: u32, command: &mut [u8], area: &mut [u8]) -> i32 {
    let decided = decide::<CHECK, _>(head, mappings, index, |t| commands::decide(t, request, command, area));
    result(decided.map(|change| {
        commands::apply(head, mappings, index, change, area);
        0
    }))
}

#[inline(never)]
pub fn preview<const CHECK: u8>(head: &Head, mappings: &[Mapping], index: &[u64], request: u32, command: &mut [u8], area: &mut [u8]) -> i32 {
    let decided = decide::<CHECK, _>(head, mappings, index, |t| commands::decide(t, request, command, area));
    result(decided.map(|_| 0))
}

#[inline(never)]
pub fn bind<const CHECK: u8>(head: &mut Head, mappings: &[Mapping], index: &[u64], bitmap: u64, reserved: &Reserved) -> i32 {
    let place = decide::<CHECK, _>(head, mappings, index, |t| host::bind(t, bitmap, reserved));
    result(place.map(|i| {
        head.objects[i] = host::device(bitmap, reserved);
        i as i32 + 1
    }))
}

#[inline(never)]
pub fn attach<const CHECK: u8>(head: &mut Head, mappings: &[Mapping], index: &[u64], device: u32, space: u32) -> i32 {
    let place = decide::<CHECK, _>(head, mappings, index, |t| host::attach(t, device, space));
    result(place.map(|i| {
        head.objects[i].kind = ATTACHED;
        head.objects[i].home = space;
        0
    }))
}

#[inline(never)]
pub fn detach<const CHECK: u8>(head: &mut Head, mappings: &[Mapping], index: &[u64], device: u32) -> i32 {
    let place = decide::<CHECK, _>(head, mappings, index, |t| host::detach(t, device));
    result(place.map(|i| {
        head.objects[i].kind = LOOSE;
        head.objects[i].home = 0;
        0
    }))
}

#[inline(never)]
pub fn reach<const CHECK: u8>(head: &Head, mappings: &[Mapping], index: &[u64], device: u32, address: u64, length: u64, write: u32) -> Number {
    number(decide::<CHECK, _>(head, mappings, index, |t| host::reach(t, device, address, length, write != 0)))
}

#[inline(never)]
pub fn charge<const CHECK: u8>(head: &Head, mappings: &[Mapping], index: &[u64]) -> Number {
    number(decide::<CHECK, _>(head, mappings, index, |t| Ok(t.charge())))
}

/// The value is the number of a record.
#[inline(never)]
pub fn next<const CHECK: u8>(head: &Head, mappings: &[Mapping], index: &[u64], space: u32, address: u64) -> Number {
    number(decide::<CHECK, _>(head, mappings, index, |t| host::next(t, space, address)))
}

/// Whether a table is bad, by the check that is not tuned.
pub fn is_bad(head: &Head, mappings: &[Mapping], index: &[u64]) -> bool {
    decide::<STRAIGHT, _>(head, mappings, index, |_| Ok(())).is_err()
}

// ---- as systems

/// Every call on a table that is checked first.
pub fn checked(lent: &mut Lent, call: &mut Call) -> Number {
    run::<TUNED>(lent, call)
}

/// The same with the check that is not tuned.
pub fn straight(lent: &mut Lent, call: &mut Call) -> Number {
    run::<STRAIGHT>(lent, call)
}

/// Every call on a table that is trusted. On a bad table it may answer anything, or panic.
pub fn trusting(lent: &mut Lent, call: &mut Call) -> Number {
    run::<TRUSTED>(lent, call)
}

fn run<const CHECK: u8>(lent: &mut Lent, asked: &mut Call) -> Number {
    let (head, mappings, index) = (&mut *lent.head, &mut lent.mappings[..], &mut lent.index[..]);
    let told = |result| Number { result, value: 0 };
    match asked {
        Call::Fresh { limit } => told(fresh(head, mappings, index, *limit)),
        Call::Command { request, bytes, area } => told(call::<CHECK>(head, mappings, index, *request, bytes, area)),
        Call::Preview { request, bytes, area } => told(preview::<CHECK>(head, mappings, index, *request, bytes, area)),
        Call::Bind { bitmap, reserved } => told(bind::<CHECK>(head, mappings, index, *bitmap, reserved)),
        Call::Attach { device, space } => told(attach::<CHECK>(head, mappings, index, *device, *space)),
        Call::Detach { device } => told(detach::<CHECK>(head, mappings, index, *device)),
        Call::Reach { device, address, length, write } => reach::<CHECK>(head, mappings, index, *device, *address, *length, *write),
        Call::Charge => charge::<CHECK>(head, mappings, index),
        Call::Next { space, address } => next::<CHECK>(head, mappings, index, *space, *address),
        // no plain program explains: what stands in for the archive's entry does it here too
        Call::Explain { request, bytes, words } => told(explain::explain(head, mappings, index, *request, bytes, words)),
    }
}
