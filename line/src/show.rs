//! What a person sees: a line a pump while it runs, and the verdict.

use std::collections::BTreeMap;
use std::fmt::Write as _;
use std::io::{self, IsTerminal, Write};

use oracle::DisconnectReason;

use crate::audit::Report;
use crate::plant::Plant;
use crate::pump::Pump;

/// A taller table is not redrawn but printed again, since a terminal may not show its top.
const TALLEST: usize = 22;

/// Of a long list of faults this many are printed.
const MOST_FAULTS: usize = 50;

/// Redraws the table in place on a terminal; elsewhere one follows the other.
pub struct Screen {
    redraws: bool,
    drawn: usize,
}

impl Screen {
    pub fn new() -> Self {
        Self {
            redraws: io::stdout().is_terminal(),
            drawn: 0,
        }
    }

    pub fn show(&mut self, plant: &Plant) -> io::Result<()> {
        let text = table(plant);
        let mut out = io::stdout().lock();
        if self.redraws && self.drawn > 0 {
            write!(out, "\x1b[{}A\x1b[J", self.drawn)?;
        }
        let lines = text.lines().count();
        self.drawn = if lines <= TALLEST { lines } else { 0 };
        write!(out, "{text}")?;
        out.flush()
    }
}

impl Default for Screen {
    fn default() -> Self {
        Self::new()
    }
}

fn table(plant: &Plant) -> String {
    let mut text = format!(
        "{:>6} s  state         sent  delivered  accepted  acknowledged  refused by number\n",
        plant.now().as_secs()
    );
    for (pump, link) in plant.pumps.iter().zip(&plant.links) {
        let account = plant.server.book.look(link.far_address());
        let _ = writeln!(
            text,
            "pump {:<3}  {:<10} {:>7} {:>10} {:>9} {:>13}  {}",
            pump.id(),
            state(pump),
            pump.record.readings.len(),
            link.delivered().len(),
            account.counted,
            pump.record.acknowledged.len(),
            numbers(&account.refused)
        );
    }
    let strangers = &plant.server.book.strangers().refused;
    if !strangers.is_empty() {
        let _ = writeln!(text, "unknown addresses: refused {}", numbers(strangers));
    }
    text
}

fn state(pump: &Pump) -> &'static str {
    use DisconnectReason::*;
    match pump.disconnect_reason() {
        None if pump.is_connected() => "connected",
        None => "connecting",
        Some(DisconnectedByServer) => "sent away",
        Some(DisconnectedByClient) => "gone",
        Some(ConnectionDenied) => "denied",
        Some(ConnectTokenExpired) => "expired",
        Some(ConnectionTimedOut | ConnectionResponseTimedOut | ConnectionRequestTimedOut) => {
            "timed out"
        }
    }
}

fn numbers(refused: &BTreeMap<u8, u64>) -> String {
    let each = refused
        .iter()
        .map(|(number, times)| format!("{number}: {times}"));
    each.collect::<Vec<_>>().join(", ")
}

/// The last line says whether each reading counted once.
pub fn verdict(report: &Report) -> String {
    let mut text = format!(
        "readings sent: {}, counted: {}\nlost on the way: {}\n",
        report.made, report.counted, report.lost
    );
    if report.late > 0 {
        let _ = writeln!(
            text,
            "256 or more behind, or after the end: {}",
            report.late
        );
    }
    for fault in report.faults.iter().take(MOST_FAULTS) {
        let _ = writeln!(text, "{fault}");
    }
    if report.faults.len() > MOST_FAULTS {
        let _ = writeln!(text, "and {} more", report.faults.len() - MOST_FAULTS);
    }
    text += match report {
        report if report.is_good() => "each reading counted once",
        report if report.faults.is_empty() => {
            "nothing was shown: no reading was counted, and none was due"
        }
        _ => "NOT each reading counted once",
    };
    text
}
