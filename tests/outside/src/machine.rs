//! What figures depend on: the machine, the day, the programs that made or count the code.
use std::fs;
use std::process::Command;

/// The first line that a program prints, where there is such a program.
fn first_line(program: &str, word: &str) -> Option<String> {
    let output = Command::new(program).arg(word).output().ok()?;
    String::from_utf8(output.stdout).ok()?.lines().next().map(str::to_string)
}

fn processor() -> Option<String> {
    let text = fs::read_to_string("/proc/cpuinfo").ok()?;
    let of = |key: &str| text.lines().find(|l| l.starts_with(key)).and_then(|l| l.split_once(": ")).map(|(_, name)| name.to_string());
    Some(format!("{}, {} MHz", of("model name")?, of("cpu MHz")?))
}

fn joined(parts: &[Option<String>]) -> String {
    parts.iter().flatten().cloned().collect::<Vec<_>>().join("; ")
}

/// The compiler of the plain program and the model, and the kit that made the archive.
pub fn compilers() -> String {
    joined(&[first_line("rustc", "--version"), first_line("rt", "--version")])
}

/// What a time depends on.
pub fn describe() -> String {
    joined(&[processor(), first_line("date", "+%Y-%m-%d"), Some(compilers())])
}

/// What a count of instructions depends on beside the compilers: who counts, and the libc whose memcpy is counted.
pub fn counters() -> String {
    joined(&[first_line("valgrind", "--version"), first_line("ldd", "--version")])
}
