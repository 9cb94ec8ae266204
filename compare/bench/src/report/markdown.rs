//! The page.

use super::Section;
use crate::rounds::Row;

const COLUMNS: &str = "| | Rust, ns | ours, ns | ratio | middle half | least to most |
|---|---|---|---|---|---|
";

const HEAD: &str = "# Benchmarks

Our proved server and renetcode 2.0.0, its files unchanged, in one process on the same input. This page and its picture are written by
the program itself, `compare/bench`:

| | |
|---|---|
| repeat, and look | `compare/bench/run`; `compare/run` ends with it |
| repeat, and write this page | `compare/bench/run --write docs` |

![ratios as bars](benchmarks.svg)

## What is measured

- **Sides.** The Rust is compiled from its own files as a crate of its own, in a release build (opt-level 3, no link-time optimisation).
  Ours is the static library that was proved, called through `bindings/rust`, the drop-in crate that a plant uses; rows marked C call
  `netcode.h` themselves.
- **Input.** Both servers are filled by real handshakes of renetcode's own client, with the same tokens, and get the same datagrams, made
  beforehand; the pumps are drawn at random over all that are connected. Every answer is checked while it is timed, on both sides alike: a
  reading that is not handed out whole and as its pump's, a request that gets no challenge or a keep-alive that does not come ends the run.
  In rows marked C our slots are not filled by handshakes but laid directly, with the same ids, addresses, keys and fresh windows.
- **Cipher.** The same function on both sides, doing the same work. `idle cipher` does nothing, so that all else shows. `libsodium` is one
  call of libsodium for a seal and one for an open; the comparison's stand-in, which verifies before it opens, is not used, since its second
  pass would fall on both sides and bring the ratios nearer to 1. `its own libsodium` is the drop-in's own `Sodium` against the same
  Rust.
- **Requests** are of new pumps, 64 a round into empty pending places, with all slots but one connected: token opened and read, token
  entry and pending place taken, challenge sealed and sealed again in its packet. What is pending expires between rounds.
- **Turns** are `update_client` for each connected id; the steps of the clock between them are not counted. Where all are due each pass
  is timed by itself, so that at 8 connected reading the timer, the same on both sides, shows in the nanoseconds.
- **Clock and queries, single parts** have the idle cipher; single parts go through the libraries of the comparison.
- **Ratio** is ours / Rust in the same round, under 1 where ours is quicker. Rounds alternate which side goes first, and the first one is
  not counted. The median, the middle half (quartiles) and the least and most over the rounds are given; on a machine that has something
  else to do the last two say more about that than about either side.

Where the two differ: what needs the cipher is two calls or more of ours. Payloads, and turns with nothing due, go a short way on the
record's words; every other call reads the record from the host's words, hands it down by value and lays it back, which costs the same
however many are connected: that is what shows where keep-alives are due and few are connected. To find a pump the Rust walks over whole
records, ours over columns of addresses and ids. What is pending is a hash map in the Rust and a table of 4,096 places in ours, which
requests and the clock walk.
";

pub fn page(machine: &str, sections: &[Section]) -> String {
    let tables: String = sections.iter().map(table).collect();
    format!("{HEAD}\n## Numbers\n\nNanoseconds are medians; {machine}.\n{tables}")
}

fn table(section: &Section) -> String {
    let lines: String = section.rows.iter().map(line).collect();
    format!("\n**{}**\n\n{COLUMNS}{lines}", section.heading())
}

fn line(row: &Row) -> String {
    let figures = row.figures();
    let [least, lower, median, upper, most] = figures.ratios;
    format!(
        "| {} | {:.1} | {:.1} | **{median:.2}** | {lower:.2} to {upper:.2} | {least:.2} to {most:.2} |\n",
        row.name, figures.rust, figures.ours
    )
}
