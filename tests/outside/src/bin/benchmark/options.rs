//! The command line.
use std::time::Duration;

/// How long all measured batches together take.
const FULL: Duration = Duration::from_secs(75);
const QUICK: Duration = Duration::from_secs(10);

pub struct Options {
    pub time: Duration,
    /// What the names of the workloads hold.
    pub only: String,
    /// Whether the model is measured too.
    pub model: bool,
    /// The highest ratio a/c at 128 mappings.
    pub limit: f64,
}

impl Options {
    pub fn read(mut words: impl Iterator<Item = String>) -> Result<Options, String> {
        let mut options = Options { time: FULL, only: String::new(), model: true, limit: f64::INFINITY };
        while let Some(word) = words.next() {
            let mut value = || words.next().ok_or(format!("{word} needs a value"));
            match word.as_str() {
                "--quick" => options.time = QUICK,
                "--only" => options.only = value()?,
                "--without-model" => options.model = false,
                "--limit" => options.limit = value()?.parse().map_err(|_| "--limit needs a number".to_string())?,
                _ => return Err(format!("{word} is unknown; known are --quick, --only NAME, --without-model and --limit RATIO")),
            }
        }
        Ok(options)
    }
}
