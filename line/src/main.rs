//! Runs the line for a bounded time and says whether each reading counted once.

use std::env;
use std::error::Error;
use std::io;
use std::process::ExitCode;
use std::thread::sleep;
use std::time::{Duration, Instant};

use line::audit::Report;
use line::options::{Command, Options, USAGE};
use line::plant::Plant;
use line::show::{verdict, Screen};

/// Longer than any run of losses that is likely, shorter than a person waits.
const TIMEOUT_SECONDS: u8 = 5;

/// What is held back is out long before; a run ends in any case.
const LONGEST_WAIT: Duration = Duration::from_secs(3);

const PAUSE: Duration = Duration::from_millis(1);

fn main() -> ExitCode {
    let options = match Options::read(env::args().skip(1)) {
        Ok(Command::Run(options)) => options,
        Ok(Command::Help) => {
            println!("{USAGE}");
            return ExitCode::SUCCESS;
        }
        Err(what) => {
            eprintln!("{what}\n\n{USAGE}");
            return ExitCode::from(2);
        }
    };
    match run(&options) {
        Ok(report) => {
            println!("{}", verdict(&report));
            ExitCode::from(u8::from(!report.is_good()))
        }
        Err(error) => {
            eprintln!("the line broke off: {error}");
            ExitCode::FAILURE
        }
    }
}

fn run(options: &Options) -> Result<Report, Box<dyn Error>> {
    let mut plant = Plant::new(options, TIMEOUT_SECONDS)?;
    let mut clock = Clock::new();
    println!("the line server is at {}", plant.server.address());
    clock.run(&mut plant, Duration::from_secs(options.seconds), |_| false)?;
    plant.silence();
    clock.run(&mut plant, LONGEST_WAIT, Plant::is_drained)?;
    plant.server.dismiss()?;
    clock.run(&mut plant, LONGEST_WAIT, Plant::is_settled)?;
    clock.screen.show(&plant)?;
    Ok(plant.audit())
}

/// Moves the plant on with the time that has passed, and shows it every second.
struct Clock {
    last: Instant,
    screen: Screen,
    shown: u64,
}

impl Clock {
    fn new() -> Self {
        Self {
            last: Instant::now(),
            screen: Screen::new(),
            shown: 0,
        }
    }

    fn run(
        &mut self,
        plant: &mut Plant,
        longest: Duration,
        done: impl Fn(&Plant) -> bool,
    ) -> io::Result<()> {
        let end = plant.now() + longest;
        while plant.now() < end && !done(plant) {
            let now = Instant::now();
            plant.step(now - self.last)?;
            self.last = now;
            if plant.now().as_secs() > self.shown {
                self.shown = plant.now().as_secs();
                self.screen.show(plant)?;
            }
            sleep(PAUSE);
        }
        Ok(())
    }
}
