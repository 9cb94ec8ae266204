//! The declarations beside the header's text: the same calls with the same parameters, the same sizes, the same refusals.

use super::*;
use crate::{Refusal, NETCODE_KEY_BYTES, NETCODE_MAX_PACKET_BYTES, NETCODE_MAX_PAYLOAD_BYTES};

const HEADER: &str = include_str!("../../../../../include/netcode.h");
const DECLARED: &str = include_str!("../library.rs");

/// A parameter's name, whether it is a pointer, and whether what it points to is lent to be read only.
type Parameter = (String, bool, bool);

/// The names and parameter lists of all calls in a text.
fn calls<'t>(text: &'t str, ends: &str) -> Vec<(&'t str, &'t str)> {
    text.match_indices("netcode_")
        .filter_map(|(at, _)| {
            let (name, rest) = text[at..].split_once('(')?;
            let (parameters, _) = rest.split_once(ends)?;
            let plain = name.chars().all(|c| c.is_ascii_lowercase() || c == '_');
            (plain && !parameters.contains("/*")).then_some((name, parameters))
        })
        .collect()
}

fn in_c(text: &str) -> Parameter {
    let text = text.trim();
    let (text, array) = match text.split_once('[') {
        Some((text, _)) => (text, true),
        None => (text, false),
    };
    let name = text.rsplit([' ', '*']).next().unwrap_or_default();
    let pointer = array || text.contains('*');
    (name.to_string(), pointer, text.starts_with("const "))
}

fn in_rust(text: &str) -> Option<Parameter> {
    let (name, kind) = text.trim().split_once(": ")?;
    let pointer = kind.starts_with('*');
    Some((name.to_string(), pointer, kind.starts_with("*const ")))
}

#[test]
fn the_same_calls() {
    let declared = calls(DECLARED, ")");
    let mut seen = 0;
    for (name, parameters) in calls(HEADER, ");") {
        let same = declared.iter().find(|(declared, _)| *declared == name);
        let Some((_, ours)) = same else {
            assert_eq!(name, "netcode_addresses_words", "the one that is not used");
            continue;
        };
        let ours: Vec<Parameter> = ours.split(',').filter_map(in_rust).collect();
        let theirs: Vec<Parameter> = parameters.split(',').map(in_c).collect();
        assert_eq!(ours, theirs, "{name}");
        seen += 1;
    }
    assert_eq!((seen, declared.len()), (22, 22));
}

fn defined(name: &str) -> usize {
    let line = HEADER.lines().find_map(|line| {
        let rest = line.strip_prefix("#define NETCODE_")?.strip_prefix(name)?;
        rest.strip_prefix(' ')
    });
    line.and_then(|number| number.parse().ok())
        .unwrap_or_else(|| panic!("{name} is not in the header"))
}

#[test]
fn the_same_sizes() {
    assert_eq!(defined("SERVER_WORDS"), SERVER_WORDS);
    assert_eq!(defined("ANSWER_WORDS"), ANSWER_WORDS);
    assert_eq!(defined("ASK_BYTES"), ASK_BYTES);
    assert_eq!(defined("REPLY_WORDS"), REPLY_WORDS);
    assert_eq!(defined("HELD_BYTES"), HELD_BYTES);
    assert_eq!(defined("KEY_BYTES"), NETCODE_KEY_BYTES);
    assert_eq!(defined("MAX_PACKET_BYTES"), NETCODE_MAX_PACKET_BYTES);
    assert_eq!(defined("MAX_PAYLOAD_BYTES"), NETCODE_MAX_PAYLOAD_BYTES);
}

/// `PacketTooSmall` as PACKET_TOO_SMALL.
fn in_capitals(refusal: Refusal) -> String {
    let mut name = String::new();
    for letter in format!("{refusal:?}").chars() {
        if letter.is_uppercase() && !name.is_empty() {
            name.push('_');
        }
        name.push(letter.to_ascii_uppercase());
    }
    name
}

#[test]
fn the_same_refusals() {
    for refusal in Refusal::ALL {
        let line = format!("NETCODE_{} = {}", in_capitals(refusal), refusal.number());
        let found = HEADER
            .lines()
            .any(|l| l.trim().trim_end_matches(',') == line);
        assert!(found, "{line}");
    }
}
