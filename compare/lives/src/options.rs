//! The words after the program's name.

pub struct Options {
    pub seed: u64,
    pub calls: u64,
    pub sample: Option<String>,
    pub replay: Option<String>,
}

pub const USAGE: &str =
    "usage: lives [--seed N] [--calls N] [--sample FILE], or: lives --replay FILE";

impl Options {
    pub fn read(mut words: impl Iterator<Item = String>) -> Option<Self> {
        let mut options = Self {
            seed: 1,
            calls: 200_000,
            sample: None,
            replay: None,
        };
        while let Some(word) = words.next() {
            let value = words.next()?;
            match word.as_str() {
                "--seed" => options.seed = value.parse().ok()?,
                "--calls" => options.calls = value.parse().ok()?,
                "--sample" => options.sample = Some(value),
                "--replay" => options.replay = Some(value),
                _ => return None,
            }
        }
        Some(options)
    }
}
