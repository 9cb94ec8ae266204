//! The rows as a table on the screen, and as a page with a picture.

mod machine;
mod markdown;
mod picture;

pub use machine::machine;

use std::path::Path;
use std::{fs, io};

use crate::rounds::Row;

/// Rows that belong together.
pub struct Section {
    title: &'static str,
    calls: &'static str,
    rows: Vec<Row>,
    /// Whether the picture has it too.
    drawn: bool,
}

impl Section {
    pub fn drawn(title: &'static str, calls: &'static str, rows: Vec<Row>) -> Self {
        Self {
            title,
            calls,
            rows,
            drawn: true,
        }
    }

    pub fn listed(title: &'static str, calls: &'static str, rows: Vec<Row>) -> Self {
        Self {
            drawn: false,
            ..Self::drawn(title, calls, rows)
        }
    }

    fn heading(&self) -> String {
        let rounds = self.rows.first().map_or(0, Row::rounds);
        format!("{} ({}; {rounds} rounds)", self.title, self.calls)
    }
}

pub fn print(machine: &str, sections: &[Section]) {
    println!("{machine}");
    println!(
        "nanoseconds a call, medians; the ratio is ours / Rust, with its middle half and its least and most"
    );
    for section in sections {
        println!();
        println!(
            "{:<66} {:>9} {:>9} {:>6} {:>14} {:>14}",
            section.heading(),
            "Rust",
            "ours",
            "ratio",
            "middle half",
            "least to most"
        );
        section.rows.iter().for_each(print_row);
    }
}

fn print_row(row: &Row) {
    let figures = row.figures();
    let [least, lower, median, upper, most] = figures.ratios;
    println!(
        "{:<66} {:>9.1} {:>9.1} {:>6.2} {:>6.2} to {:>4.2} {:>6.2} to {:>4.2}",
        row.name, figures.rust, figures.ours, median, lower, upper, least, most,
    );
}

/// Writes the page and the picture.
pub fn write(folder: &Path, machine: &str, sections: &[Section]) -> io::Result<()> {
    fs::write(
        folder.join("BENCHMARKS.md"),
        markdown::page(machine, sections),
    )?;
    fs::write(folder.join("benchmarks.svg"), picture::draw(sections))
}

#[cfg(test)]
mod tests {
    use super::*;
    use crate::rounds::compare_on;

    fn section(ours: f64) -> [Section; 1] {
        let row = compare_on("one call", 1, || (), |()| 200.0, |()| ours);
        [Section::drawn("Title", "calls", vec![row])]
    }

    #[test]
    fn a_row_is_on_the_page() {
        let page = markdown::page("cores: 2", &section(100.0));
        let wanted = "| one call | 200.0 | 100.0 | **0.50** | 0.50 to 0.50 | 0.50 to 0.50 |\n";
        assert!(page.ends_with(wanted));
    }

    /// A third of the scale, which ends at 3.0, is 440 / 3 pixels; the line at 1.0 stands there.
    #[test]
    fn a_bar_is_as_long_as_its_ratio() {
        let picture = picture::draw(&section(200.0));
        assert!(picture.contains("width=\"146.7\" height=\"14\""));
        assert!(picture.contains("<line x1=\"546.7\" y1=\"40\" x2=\"546.7\""));
    }

    #[test]
    fn a_long_bar_is_cut_and_marked() {
        let picture = picture::draw(&section(2000.0));
        assert!(picture.contains("width=\"440.0\" height=\"14\""));
        assert!(picture.contains(">10.00 →</text>"));
    }
}
