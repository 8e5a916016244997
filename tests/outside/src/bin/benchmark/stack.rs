//! The stack that calls take: the memory below is painted, the calls are made, and the lowest place that changed is looked for.
use outside::calls::System;
use outside::workloads::Job;
use std::arch::asm;
use std::thread;

/// What is painted, and the stack of the thread that does it.
const PAINTED: usize = 256 * 1024;
const THREAD: usize = 1024 * 1024;
const PAINT: u8 = 0xA5;

/// The bytes below the caller's frame that one round of the job takes, with the frame of the function that hands a call on.
pub fn taken(system: System, mut job: Job) -> Result<usize, String> {
    let work = move || {
        job.round(system); // the first may bind symbols
        painted(system, &mut job)
    };
    let thread = thread::Builder::new().stack_size(THREAD).spawn(work).map_err(|e| e.to_string())?;
    thread.join().map_err(|_| "the thread of a stack measurement ended early".to_string())
}

#[inline(never)]
fn painted(system: System, job: &mut Job) -> usize {
    let top: usize;
    // SAFETY: the thread's stack is far larger than what is painted below the stack pointer, and nothing alive stands there: the block may push, so that the compiler
    // keeps nothing below the pointer.
    unsafe {
        asm!(
            "mov {top}, rsp",
            "lea rdi, [rsp - {size}]",
            "mov ecx, {size}",
            "rep stosb",
            top = out(reg) top,
            size = const PAINTED,
            in("al") PAINT,
            out("rdi") _,
            out("rcx") _,
        );
    }
    job.round(system);
    // SAFETY: the same memory of this thread's stack, which is only read.
    let is_painted = |at: usize| unsafe { (at as *const u8).read_volatile() } == PAINT;
    (top - PAINTED..top).find(|&at| !is_painted(at)).map_or(0, |lowest| top - lowest)
}
