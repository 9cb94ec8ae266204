//! The command line.

use std::ops::RangeInclusive;

use crate::road::Habits;

pub const USAGE: &str = "\
usage: line [--pumps N] [--seconds N] [--rate N] [--loss P] [--repeat P] [--reorder P] [--seed N]

Starts the line server and simulated pumps on loopback, with a proxy between them that loses, repeats and reorders
datagrams in both directions, and shows what each pump sent, and what the server accepted and refused.

  --pumps N     how many pumps, 1 to 256 (4)
  --seconds N   how long they report, 1 to 3600 (10)
  --rate N      readings a second a pump, 1 to 1000 (20)
  --loss P      how many of a hundred datagrams are lost (10)
  --repeat P    how many of a hundred come once or twice more (10)
  --reorder P   how many of a hundred are held back, so that later ones overtake them (10)
  --seed N      where the proxy's draws start (1)
  --help        this text

The exit status is 0 if each reading counted once, 1 if not, 2 for bad options.";

/// A run keeps every reading and datagram in memory, for the audit.
const MOST_READINGS: u64 = 1_000_000;

#[derive(Debug, Clone, PartialEq, Eq)]
pub struct Options {
    pub pumps: u64,
    pub seconds: u64,
    pub rate: u64,
    pub habits: Habits,
    pub seed: u64,
}

#[derive(Debug, PartialEq, Eq)]
pub enum Command {
    Run(Options),
    Help,
}

impl Default for Options {
    fn default() -> Self {
        Self {
            pumps: 4,
            seconds: 10,
            rate: 20,
            habits: Habits {
                loss: 10,
                repeat: 10,
                reorder: 10,
            },
            seed: 1,
        }
    }
}

impl Options {
    pub fn read(mut words: impl Iterator<Item = String>) -> Result<Command, String> {
        let mut options = Self::default();
        while let Some(name) = words.next() {
            if name == "--help" || name == "-h" {
                return Ok(Command::Help);
            }
            options.set(&name, words.next())?;
        }
        options.check().map(|()| Command::Run(options))
    }

    fn set(&mut self, name: &str, value: Option<String>) -> Result<(), String> {
        let number = |range| number(name, value.as_deref(), range);
        let percent = || number(0..=100).map(|percent| percent as u8);
        match name {
            // Each pump takes three sockets, and a process usually has 1,024 at most.
            "--pumps" => self.pumps = number(1..=256)?,
            "--seconds" => self.seconds = number(1..=3600)?,
            "--rate" => self.rate = number(1..=1000)?,
            "--loss" => self.habits.loss = percent()?,
            "--repeat" => self.habits.repeat = percent()?,
            "--reorder" => self.habits.reorder = percent()?,
            "--seed" => self.seed = number(0..=u64::MAX)?,
            _ => return Err(format!("there is no option {name}")),
        }
        Ok(())
    }

    fn check(&self) -> Result<(), String> {
        let readings = self.pumps * self.seconds * self.rate;
        if readings > MOST_READINGS {
            return Err(format!(
                "that would be {readings} readings, and a run keeps at most {MOST_READINGS}"
            ));
        }
        Ok(())
    }
}

fn number(name: &str, value: Option<&str>, range: RangeInclusive<u64>) -> Result<u64, String> {
    let value = value.ok_or(format!("{name} wants a number"))?;
    match value.parse() {
        Ok(number) if range.contains(&number) => Ok(number),
        _ => Err(format!(
            "{name} wants a number from {} to {}, not {value}",
            range.start(),
            range.end()
        )),
    }
}

#[cfg(test)]
mod tests {
    use super::{Command, Options};

    fn read(line: &str) -> Result<Command, String> {
        Options::read(line.split_whitespace().map(String::from))
    }

    #[test]
    fn every_option_is_taken() {
        let line =
            "--pumps 2 --seconds 3 --rate 5 --loss 1 --repeat 0 --reorder 100 --seed 18446744073709551615";
        let Ok(Command::Run(options)) = read(line) else {
            panic!("refused");
        };
        assert_eq!((options.pumps, options.seconds, options.rate), (2, 3, 5));
        let habits = options.habits;
        assert_eq!((habits.loss, habits.repeat, habits.reorder), (1, 0, 100));
        assert_eq!(options.seed, u64::MAX);
        assert_eq!(read(""), Ok(Command::Run(Options::default())));
        assert_eq!(read("--pumps 2 --help"), Ok(Command::Help));
    }

    #[test]
    fn bad_ones_are_named() {
        let error = |line| read(line).expect_err(line);
        assert_eq!(error("--pump 2"), "there is no option --pump");
        assert_eq!(error("--pumps"), "--pumps wants a number");
        assert_eq!(
            error("--pumps 0"),
            "--pumps wants a number from 1 to 256, not 0"
        );
        assert_eq!(
            error("--loss 101"),
            "--loss wants a number from 0 to 100, not 101"
        );
        assert_eq!(
            error("--seed -1"),
            "--seed wants a number from 0 to 18446744073709551615, not -1"
        );
        assert!(error("--pumps 256 --seconds 3600 --rate 1000").contains("921600000 readings"));
    }
}
