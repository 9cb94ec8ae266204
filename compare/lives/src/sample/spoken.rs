//! Which refusals the lines of a sample themselves say.

use std::collections::BTreeSet;

use crate::wanted::WANTED;

fn entry_point(letter: &str) -> Option<&'static str> {
    Some(match letter {
        "S" => "set_up",
        "U" => "update",
        "M" => "set_max_clients",
        "P" => "process_packet",
        "O" => "answer_open",
        "T" => "answer_token",
        "E" => "answer_seal",
        "G" => "generate_payload_packet",
        "C" => "update_client",
        "D" => "disconnect",
        "Q" => "queries",
        _ => return None,
    })
}

/// The number that a line says: of set-up the first value, of a query a value after a sign, else the second where the first is 0.
fn number<'a>(letter: &str, said: &'a str) -> Option<&'a str> {
    let mut values = said.split(' ');
    match letter {
        "S" => values.next(),
        "Q" => values.find_map(|value| value.strip_prefix('!')),
        _ => values.next().filter(|case| *case == "0").and(values.next()),
    }
}

fn refusal(line: &str) -> Option<String> {
    let (given, said) = line.split_once(" = ")?;
    let letter = given.split(' ').next()?;
    let number = number(letter, said)?;
    Some(format!("{}: refusal {number}", entry_point(letter)?))
}

/// The refusals of the list, by entry point, that no line says.
pub fn unspoken(lines: &[String]) -> Vec<&'static str> {
    let spoken: BTreeSet<String> = lines.iter().filter_map(|line| refusal(line)).collect();
    let of_entry_points = WANTED
        .iter()
        .filter(|branch| branch.contains(": refusal ") && !branch.contains(" of a "));
    of_entry_points
        .copied()
        .filter(|branch| !spoken.contains(*branch))
        .collect()
}
