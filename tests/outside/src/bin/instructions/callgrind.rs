//! valgrind's callgrind from both sides: what a program asks of it while it runs under it, and what it has counted.
use std::arch::asm;
use std::path::{Path, PathBuf};
use std::process::Command;
use std::{env, fs, process};

/// What a program may ask, as valgrind numbers it.
#[derive(Clone, Copy)]
pub enum Request {
    /// What was counted goes into a file of its own.
    Dump = 0x4354_0000,
    Zero = 0x4354_0001,
    /// Counting begins. Before it the program runs faster.
    Start = 0x4354_0004,
}

/// Without valgrind this does nothing: rdi is turned round twice.
pub fn ask(request: Request) {
    let words = [request as usize, 0, 0, 0, 0, 0];
    // SAFETY: the registers keep what they held but for rdx, and valgrind reads the six words alone.
    unsafe {
        asm!(
            "rol rdi, 3",
            "rol rdi, 13",
            "rol rdi, 61",
            "rol rdi, 51",
            "xchg rbx, rbx",
            in("rax") &words,
            inout("rdx") 0usize => _,
            options(nostack),
        );
    }
}

/// The instructions between `Zero` and `Dump`, and those of them in memcpy, memmove and memset.
#[derive(Clone, Copy, Debug, Default, PartialEq, Eq)]
pub struct Count {
    pub all: u64,
    pub copying: u64,
}

/// Which memcpy libc takes depends on the processor, and callgrind counts each step of a `rep`: this is the one that every x86-64 has, without `rep`.
const SAME_LIBC: &str = "glibc.cpu.hwcaps=-AVX512VL,-AVX2,-AVX_Fast_Unaligned_Load,-ERMS";

/// A folder for the dumps, which goes with the value.
struct Folder(PathBuf);

impl Folder {
    fn new() -> Result<Folder, String> {
        let path = env::temp_dir().join(format!("instructions.{}", process::id()));
        fs::create_dir_all(&path).map_err(|e| format!("{}: {e}", path.display()))?;
        Ok(Folder(path))
    }
}

impl Drop for Folder {
    fn drop(&mut self) {
        let _ = fs::remove_dir_all(&self.0);
    }
}

/// Runs a program under callgrind: the counts of its dumps, which are so many. Nothing of the environment is handed on that could change them.
pub fn counts(program: &Path, words: &[&str], dumps: usize) -> Result<Vec<Count>, String> {
    let folder = Folder::new()?;
    let out = folder.0.join("out");
    let mut valgrind = Command::new("valgrind");
    valgrind.args(["--quiet", "--tool=callgrind", "--instr-atstart=no", "--skip-plt=no", "--compress-strings=no"]);
    valgrind.arg(format!("--callgrind-out-file={}", out.display())).arg(program).args(words);
    valgrind.env_clear().env("GLIBC_TUNABLES", SAME_LIBC).envs(env::var_os("PATH").map(|path| ("PATH", path)));
    let status = valgrind.status().map_err(|e| format!("valgrind does not run: {e}"))?;
    if !status.success() {
        return Err(format!("{} under valgrind: {status}", program.display()));
    }
    (1..=dumps).map(|n| read(&out.with_extension(n.to_string()))).collect()
}

fn read(path: &Path) -> Result<Count, String> {
    let text = fs::read_to_string(path).map_err(|e| format!("{}: {e}", path.display()))?;
    parse(&text).ok_or(format!("{} is no dump of callgrind", path.display()))
}

/// Under `fn=` stand lines of a function's own instructions, as a place and a number; the line after `calls=` is of the function that is called, and is told again there.
fn parse(text: &str) -> Option<Count> {
    let mut count = Count::default();
    let (mut copies, mut called, mut total) = (false, false, None);
    for line in text.lines() {
        if let Some(name) = line.strip_prefix("fn=") {
            copies = ["memcpy", "memmove", "memset"].iter().any(|f| name.contains(f));
        } else if let Some(n) = line.strip_prefix("totals: ") {
            total = Some(n.parse().ok()?);
        } else if line.starts_with("calls=") {
            called = true;
        } else if line.starts_with(|c: char| c.is_ascii_digit() || c == '+' || c == '-' || c == '*') && !std::mem::take(&mut called) {
            let own: u64 = line.split(' ').nth(1)?.parse().ok()?;
            count.all += own;
            count.copying += if copies { own } else { 0 };
        }
    }
    (total == Some(count.all)).then_some(count)
}

#[cfg(test)]
mod tests {
    use super::*;

    const DUMP: &str = "events: Ir\n\nfn=outside::run\n31 10\ncfn=__memcpy_sse2\ncalls=2 -7\n* 50\n\nfn=__memcpy_sse2\n+7 50\n\ntotals: 60\n";

    #[test]
    fn what_is_called_is_counted_once() {
        assert_eq!(parse(DUMP), Some(Count { all: 60, copying: 50 }));
    }

    #[test]
    fn a_dump_that_does_not_add_up_is_none() {
        assert_eq!(parse(&DUMP.replace("totals: 60", "totals: 61")), None);
        assert_eq!(parse(&DUMP.replace("totals: 60", "")), None);
    }
}
