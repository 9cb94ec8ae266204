//! The command line, and which build this is.

use std::env;
use std::hint::black_box;
use std::panic::{catch_unwind, set_hook, take_hook};

pub struct Options {
    pub seed: u64,
    pub cases: u64,
    pub sample: Option<String>,
}

impl Options {
    pub fn read() -> Result<Self, String> {
        let mut options = Self {
            seed: 1,
            cases: 1_000_000,
            sample: None,
        };
        let mut words = env::args().skip(1);
        while let Some(name) = words.next() {
            let value = words.next().ok_or(format!("{name} wants a value"))?;
            match name.as_str() {
                "--seed" => options.seed = number(&value)?,
                "--cases" => options.cases = number(&value)?,
                "--sample" => options.sample = Some(value),
                _ => return Err(format!("no option {name}")),
            }
        }
        Ok(options)
    }
}

fn number(value: &str) -> Result<u64, String> {
    value.parse().map_err(|_| format!("{value} is no number"))
}

/// The original's panics are answers and stay silent; those of the harness are shown.
pub fn quieten() {
    let shown = take_hook();
    set_hook(Box::new(move |panic| {
        // A sum of times that passes its range panics inside the standard library.
        let files = ["docs/src/src/", "/library/core/src/time.rs"];
        let original = |file: &str| files.iter().any(|part| file.contains(part));
        if !panic.location().is_some_and(|at| original(at.file())) {
            shown(panic);
        }
    }));
}

/// One setting of the profile holds for the original and for this crate alike.
pub fn build() -> &'static str {
    let shown = take_hook();
    set_hook(Box::new(|_| {}));
    let checked = catch_unwind(|| black_box(u64::MAX) + black_box(1)).is_err();
    set_hook(shown);
    if checked {
        "with overflow checks"
    } else {
        "without overflow checks"
    }
}
