//! renetcode's server and ours over random long lives, compared after every call.

mod addresses;
mod beside;
mod beyond;
mod call;
mod counts;
mod draw;
mod expect;
mod hear;
mod host;
mod labels;
mod misuse;
mod options;
mod ours;
mod poke;
mod queries;
mod replay;
mod rng;
mod sample;
mod select;
mod shadow;
mod shrink;
mod sys;
mod wanted;
mod words;

use std::fs;
use std::process::ExitCode;

use beside::Pair;
use call::Life;
use counts::Counts;
use draw::{Mood, World};
use options::{Options, USAGE};
use rng::Rng;
use sample::Sample;

/// Where the two differ: the life so far, and in what.
struct Difference {
    life: Life,
    what: String,
}

impl Difference {
    fn new(life: Life, what: String) -> Box<Self> {
        Box::new(Self { life, what })
    }
}

/// A life drawn as it goes.
fn live(mut world: World, calls: usize, counts: &mut Counts) -> Result<Life, Box<Difference>> {
    let mut sample = Sample::default();
    let mut life = Life {
        start: world.start.clone(),
        turns: Vec::new(),
    };
    let mut pair = match Pair::begin(&life.start, counts, &mut sample) {
        Ok(pair) => pair,
        Err(what) => return Err(Difference::new(life, what)),
    };
    for _ in 0..calls {
        let turn = world.turn(&pair.rust);
        life.turns.push(turn.clone());
        match pair.turn(&turn, counts, &mut sample) {
            Ok(outcome) => world.heard(&outcome),
            Err(what) => return Err(Difference::new(life, what)),
        }
    }
    match pair.end() {
        Ok(()) => Ok(life),
        Err(what) => Err(Difference::new(life, what)),
    }
}

/// Lives of all moods until there are so many calls.
fn all_lives(options: &Options, counts: &mut Counts) -> Result<(), Box<Difference>> {
    let mut rng = Rng::new(options.seed);
    let mut number = 0;
    while counts.calls < options.calls {
        number += 1;
        let (mood, calls) = match number % 100 {
            7 => (Mood::Crowded, 40),
            57 => (Mood::Wide, 300),
            i if i % 10 == 3 => (Mood::Small, 200),
            _ => (Mood::Ordinary, 400),
        };
        live(World::new(Rng::new(rng.next()), mood), calls, counts)?;
    }
    Ok(())
}

fn run(options: &Options, counts: &mut Counts) -> Result<bool, Box<Difference>> {
    all_lives(options, counts)?;
    counts.print();
    let missing = counts.missing();
    for branch in &missing {
        println!("never reached: {branch}");
    }
    let sampled = match &options.sample {
        Some(file) => write_sample(file, options.seed)?,
        None => true,
    };
    Ok(missing.is_empty() && sampled)
}

/// Whether the sample reaches every branch and ours alone is as it says.
fn write_sample(file: &str, seed: u64) -> Result<bool, Box<Difference>> {
    let (lines, missing) = select::sample(seed)?;
    for branch in &missing {
        println!("never reached by the sample: {branch}");
    }
    let text = lines.join("\n") + "\n";
    let written = fs::write(file, &text).map_err(|error| format!("{file}: {error}"));
    match written.and_then(|()| replay::replay(&text)) {
        Ok(lines) => {
            println!("the sample has {lines} lines, {} bytes", text.len());
            Ok(missing.is_empty())
        }
        Err(what) => {
            println!("{what}");
            Ok(false)
        }
    }
}

fn replayed(file: &str) -> ExitCode {
    let text = fs::read_to_string(file).map_err(|error| format!("{file}: {error}"));
    match text.and_then(|text| replay::replay(&text)) {
        Ok(lines) => {
            println!("lives: ours is as the sample says, {lines} lines");
            ExitCode::SUCCESS
        }
        Err(what) => {
            println!("{what}\nlives: NOT as the sample says");
            ExitCode::FAILURE
        }
    }
}

fn main() -> ExitCode {
    let Some(options) = Options::read(std::env::args().skip(1)) else {
        eprintln!("{USAGE}");
        return ExitCode::from(2);
    };
    if let Some(file) = &options.replay {
        return replayed(file);
    }
    oracle::calls::quiet();
    let mut counts = Counts::default();
    let seed = options.seed;
    match run(&options, &mut counts) {
        Ok(true) => {
            println!("lives: equal, {} calls, seed {seed}", counts.calls);
            ExitCode::SUCCESS
        }
        Ok(false) => {
            println!("lives: NOT whole, {} calls, seed {seed}", counts.calls);
            ExitCode::from(3)
        }
        Err(difference) => {
            let (life, what) = shrink::smallest_difference(difference.life, difference.what);
            println!("the smallest life in which the two differ:\n{life}{what}");
            println!("lives: NOT equal after {} calls, seed {seed}", counts.calls);
            ExitCode::FAILURE
        }
    }
}
