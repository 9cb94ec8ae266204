//! The ratios as bars, with a line at 1.0: plain SVG.

use super::Section;
use crate::rounds::Row;

const WIDTH: usize = 900;
const LEFT: f64 = 400.0;
const RIGHT: f64 = 60.0;
const TOP: usize = 40;
const LINE: usize = 20;
/// Bars that are longer are cut here, so that those around 1.0 can be told apart.
const MOST: f64 = 3.0;
const SCALE: f64 = (WIDTH as f64 - LEFT - RIGHT) / MOST;

/// What is drawn, the figures that go over all of it, and how far down the next line is.
struct Sheet {
    text: String,
    figures: String,
    down: usize,
}

/// Where a ratio is from the left.
fn place(ratio: f64) -> f64 {
    LEFT + ratio.min(MOST) * SCALE
}

pub fn draw(sections: &[Section]) -> String {
    let drawn = || sections.iter().filter(|section| section.drawn);
    let lines: usize = drawn().map(|section| section.rows.len() + 2).sum();
    let height = TOP + LINE * lines + LINE;
    let mut sheet = Sheet {
        text: head(height),
        figures: String::new(),
        down: TOP,
    };
    drawn().for_each(|section| sheet.section(section));
    sheet.one(height);
    sheet.text + &sheet.figures + "</svg>\n"
}

fn head(height: usize) -> String {
    format!(
        "<svg xmlns=\"http://www.w3.org/2000/svg\" width=\"{WIDTH}\" height=\"{height}\" \
         viewBox=\"0 0 {WIDTH} {height}\" font-family=\"sans-serif\" font-size=\"13\">\n\
         <rect width=\"{WIDTH}\" height=\"{height}\" fill=\"white\"/>\n\
         <text x=\"10\" y=\"20\" font-size=\"15\">Time per call, ours / Rust, with the middle half of the \
         rounds; left of the line ours is quicker</text>\n"
    )
}

impl Sheet {
    fn section(&mut self, section: &Section) {
        let base = self.down + 2 * LINE - 6;
        self.text += &format!(
            "<text x=\"10\" y=\"{base}\" font-weight=\"bold\">{}</text>\n",
            section.heading()
        );
        self.down += 2 * LINE;
        section.rows.iter().for_each(|row| self.bar(row));
    }

    /// The bar ends at the median; the thin line spans the middle half.
    fn bar(&mut self, row: &Row) {
        let [_, lower, median, upper, _] = row.figures().ratios;
        let (top, base) = (self.down + 3, self.down + 14);
        let middle = self.down + LINE / 2;
        let fill = if median <= 1.0 { "#4a8f5a" } else { "#c0702a" };
        let cut = if median > MOST { " →" } else { "" };
        self.text += &format!(
            "<text x=\"{}\" y=\"{base}\" text-anchor=\"end\">{}</text>\n",
            LEFT - 8.0,
            row.name
        );
        self.text += &format!(
            "<rect x=\"{LEFT}\" y=\"{top}\" width=\"{:.1}\" height=\"14\" fill=\"{fill}\"/>\n",
            place(median) - LEFT
        );
        self.text += &format!(
            "<line x1=\"{:.1}\" y1=\"{middle}\" x2=\"{:.1}\" y2=\"{middle}\" stroke=\"black\"/>\n",
            place(lower),
            place(upper)
        );
        self.figures += &format!(
            "<text x=\"{:.1}\" y=\"{base}\" stroke=\"white\" stroke-width=\"3\" \
             paint-order=\"stroke\">{median:.2}{cut}</text>\n",
            place(median.max(upper)) + 5.0
        );
        self.down += LINE;
    }

    fn one(&mut self, height: usize) {
        let (at, end) = (place(1.0), height - LINE);
        self.text += &format!(
            "<line x1=\"{at:.1}\" y1=\"{TOP}\" x2=\"{at:.1}\" y2=\"{end}\" stroke=\"black\" \
             stroke-dasharray=\"4 3\"/>\n"
        );
        self.text += &format!(
            "<text x=\"{at:.1}\" y=\"{}\" text-anchor=\"middle\">1.0</text>\n",
            end + 14
        );
    }
}
