//! The bytes that calls copy and fill, counted by this binary's own memcpy, memmove and memset. Small copies that a compiler writes out as moves are not seen. The binary
//! `benchmark` runs this one and makes a table of its lines; a time taken here would mean nothing.
//!
//! A line has, with tabs between: the workload, the number of mappings, and for (a) and then (c) the copies, the bytes copied and the bytes filled in one round.
use outside::calls::System;
use outside::workloads::{Job, Shape, Workload, COUNTS};
use outside::{boundary, plain};
use std::arch::asm;
use std::sync::atomic::{AtomicU64, Ordering::Relaxed};

static COPIES: AtomicU64 = AtomicU64::new(0);
static COPIED: AtomicU64 = AtomicU64::new(0);
static FILLED: AtomicU64 = AtomicU64::new(0);

fn count_copy(bytes: usize) {
    COPIES.fetch_add(1, Relaxed);
    COPIED.fetch_add(bytes as u64, Relaxed);
}

// Written as string instructions: of a loop the compiler would make a call of the very function that it stands in.

/// # Safety
/// As in C.
#[no_mangle]
pub unsafe extern "C" fn memcpy(to: *mut u8, from: *const u8, count: usize) -> *mut u8 {
    count_copy(count);
    asm!("rep movsb", inout("rdi") to => _, inout("rsi") from => _, inout("rcx") count => _, options(nostack, preserves_flags));
    to
}

/// # Safety
/// As in C.
#[no_mangle]
pub unsafe extern "C" fn memmove(to: *mut u8, from: *const u8, count: usize) -> *mut u8 {
    if (to as usize).wrapping_sub(from as usize) >= count {
        return memcpy(to, from, count);
    }
    count_copy(count);
    let (last_to, last_from) = (to.wrapping_add(count).wrapping_sub(1), from.wrapping_add(count).wrapping_sub(1));
    asm!("std", "rep movsb", "cld", inout("rdi") last_to => _, inout("rsi") last_from => _, inout("rcx") count => _, options(nostack));
    to
}

/// # Safety
/// As in C.
#[no_mangle]
pub unsafe extern "C" fn memset(to: *mut u8, byte: i32, count: usize) -> *mut u8 {
    FILLED.fetch_add(count as u64, Relaxed);
    asm!("rep stosb", inout("rdi") to => _, in("al") byte as u8, inout("rcx") count => _, options(nostack, preserves_flags));
    to
}

fn counters() -> [u64; 3] {
    [&COPIES, &COPIED, &FILLED].map(|n| n.load(Relaxed))
}

/// What one round of a job adds to the counters.
fn counted(system: System, job: &mut Job) -> [u64; 3] {
    let before = counters();
    job.round(system);
    let after = counters();
    std::array::from_fn(|i| after[i] - before[i])
}

fn main() {
    let systems: [System; 2] = [boundary::run, plain::checked];
    for workload in Workload::ALL {
        for count in COUNTS {
            let mut job = Job::new(workload, Shape::Ascending, count);
            let counts = systems.map(|system| counted(system, &mut job).map(|n| n.to_string()).join("\t"));
            println!("{}\t{count}\t{}", workload.name(), counts.join("\t"));
        }
    }
}
