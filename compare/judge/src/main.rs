//! Puts the same inputs to renetcode 2.0.0, unchanged, and to our library, and compares all answers.

mod alone;
mod arrivals;
mod call;
mod case;
mod check;
mod datagrams;
mod domain;
mod exhaustive;
mod judge;
mod lines;
mod make;
mod options;
mod random;
mod rng;
mod sample;
mod servers;
mod shrink;
mod shrink_tokens;
mod table;
mod tables;
mod text;
mod wanted;
mod windows;
mod words;

use std::process::ExitCode;

use case::Case;
use check::{check, Beyond, Verdict};
use judge::{Found, Judge};
use options::Options;
use rng::Rng;
use sample::Sample;
use table::Table;

fn main() -> ExitCode {
    let options = match Options::read() {
        Ok(options) => options,
        Err(what) => {
            eprintln!("{what}\nusage: judge [--seed N] [--cases N] [--sample FILE]");
            return ExitCode::from(2);
        }
    };
    options::quieten();
    let build = options::build();
    println!("the Rust {build}; seed {}", options.seed);
    match compare(&options) {
        Ok(()) => {
            println!("equal in the domain, {build}");
            ExitCode::SUCCESS
        }
        Err(what) => {
            println!("{what}\nNOT EQUAL, or not all reached, {build}");
            ExitCode::FAILURE
        }
    }
}

fn compare(options: &Options) -> Result<(), String> {
    let mut judge = Judge::new(options.sample.as_ref().map(|_| Sample::default()));
    let tried = cases(&mut judge, options)?;
    let table = &judge.table;
    println!(
        "{} cases in the domain, {} outside it",
        table.inside, table.outside
    );
    println!("{tried}\n");
    table.print();
    println!();
    outside(table);
    let mut unreached = table.unreached();
    if let (Some(sample), Some(file)) = (&judge.sample, &options.sample) {
        println!("\n{}", sample.write(file)?);
        unreached.extend(sample.uncovered(table));
    }
    println!();
    match &unreached[..] {
        [] => Ok(()),
        missing => Err(format!("not reached:\n  {}", missing.join("\n  "))),
    }
}

/// Tries all of them, and says how many were drawn.
fn cases(judge: &mut Judge, options: &Options) -> Result<String, String> {
    let mut rng = Rng::new(options.seed);
    let mut run = || {
        exhaustive::run(judge, &mut rng)?;
        if let Some(sample) = &mut judge.sample {
            sample.next_part();
        }
        let runs = random::run(judge, &mut rng, options.cases)?;
        let tables = tables::run(judge, options.seed, options.cases)?;
        let servers = servers::run(judge, options.seed, options.cases)?;
        Ok((runs, tables, servers))
    };
    let (runs, tables, servers) = run().map_err(|found| difference(&found))?;
    let alone = alone::run(&mut rng)? + tables::alone::run(options.seed)?;
    Ok(format!(
        "{} of packets, windows and tokens were drawn, with {runs} runs of arrivals through one window\n\
         {} of tables and times were drawn, with {} histories of one table of token entries\n\
         {servers} of a whole server were drawn: set-up, update, limit, queries\n\
         {alone} runs of ours alone: answers without an ask or with another buffer, and more",
        options.cases, tables.cases, tables.histories
    ))
}

fn difference(found: &Found) -> String {
    let smallest = shrink::shrink((*found.0).clone(), |case| check(case).differs());
    let report = check(&smallest);
    let Verdict::Different(what) = &report.verdict else {
        return format!("a difference that does not repeat\n{}", found.0);
    };
    format!(
        "a difference, as first met:\n{}\n\nits smallest input:\n{smallest}\n\n\
         the Rust: {:?}\nours:     {:?}\n\
         what was expected in the domain is the Rust's, outside it document 01's:\n{what}\n",
        found.0, report.rust, report.ours
    )
}

/// What the Rust does where document 01 does not follow it, with the smallest input of each sort.
fn outside(table: &Table) {
    println!("outside the domain, or where document 01 wants a difference; what the Rust does:");
    let mut last = None;
    for (beyond, seen) in &table.beyond {
        if last != Some(beyond.class) {
            println!("{}", words::class_text(beyond.class));
            last = Some(beyond.class);
        }
        println!("  {:>9} times {}", seen.count, words::beyond_text(beyond));
        println!("            as with: {}", smallest(beyond, &seen.least));
    }
}

fn smallest(beyond: &Beyond, least: &Case) -> Case {
    let same = |case: &Case| {
        let report = check(case);
        !report.differs() && report.beyond.contains(beyond)
    };
    shrink::shrink(least.clone(), same)
}
