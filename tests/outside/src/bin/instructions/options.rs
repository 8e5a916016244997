//! The command line.
use outside::workloads::{Shape, COUNTS};
use std::path::PathBuf;

/// The highest ratio at each number of mappings.
pub type Ratios = [f64; COUNTS.len()];

/// What the archive is held to, against the plain program and against the tuned one.
#[derive(Clone, Copy, Debug, PartialEq)]
pub struct Limits {
    pub plain: Ratios,
    pub tuned: Ratios,
}

impl Limits {
    /// No limit, or one for all.
    const fn at(ratio: f64) -> Limits {
        Limits { plain: [ratio; COUNTS.len()], tuned: [ratio; COUNTS.len()] }
    }
}

/// A hundredth or more above what it took when this was written, rounded up.
const LIMITS: Limits = Limits { plain: [0.8, 0.85, 0.95, 1.05], tuned: [1.35, 1.35, 1.4, 1.4] };

/// The most that a full table of another order, or with many reserved ranges, may take against the ascending one.
pub const ORDER_LIMITS: [(Shape, f64); 2] = [(Shape::Worn, 1.1), (Shape::Crowded, 2.5)];

#[derive(Debug, PartialEq)]
pub struct Options {
    /// This program linked with the kit's own archive.
    pub kit: Option<PathBuf>,
    pub limits: Limits,
    /// The letters of the systems whose batches are run.
    pub batches: Option<String>,
}

impl Options {
    pub fn read(words: impl Iterator<Item = String>) -> Result<Options, String> {
        let mut options = Options { kit: None, limits: Limits::at(f64::INFINITY), batches: None };
        let mut words = words.peekable();
        while let Some(word) = words.next() {
            let value = words.next_if(|w| !w.starts_with("--"));
            match (word.as_str(), value) {
                ("--kit", Some(program)) => options.kit = Some(program.into()),
                ("--limit", None) => options.limits = LIMITS,
                ("--limit", Some(ratio)) => options.limits = Limits::at(ratio.parse().map_err(|_| format!("{ratio} is no ratio"))?),
                ("--batches", Some(letters)) => options.batches = Some(letters),
                _ => return Err(format!("{word} is unknown, or needs a value; known are --kit PROGRAM, --limit and --limit RATIO")),
            }
        }
        Ok(options)
    }
}

#[cfg(test)]
mod tests {
    use super::*;

    fn read(text: &str) -> Result<Options, String> {
        Options::read(text.split_whitespace().map(str::to_string))
    }

    #[test]
    fn the_limit_is_the_stored_one_or_the_one_given() {
        assert_eq!(read("").unwrap().limits, Limits::at(f64::INFINITY));
        assert_eq!(read("--limit --kit k").unwrap(), Options { kit: Some("k".into()), limits: LIMITS, batches: None });
        assert_eq!(read("--limit 2.5").unwrap().limits, Limits::at(2.5));
        assert!(["--limit x", "--kit", "--kit --limit", "--other"].iter().all(|text| read(text).is_err()));
    }
}
