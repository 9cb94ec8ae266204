//! The program as a person starts it.

use std::process::{Command, Output};

fn line(words: &[&str]) -> Output {
    let program = env!("CARGO_BIN_EXE_line");
    let output = Command::new(program).args(words).output();
    output.expect("the program starts")
}

#[test]
fn ends_with_the_verdict() {
    let output = line(&[
        "--pumps",
        "2",
        "--seconds",
        "1",
        "--rate",
        "100",
        "--loss",
        "5",
    ]);
    let text = String::from_utf8_lossy(&output.stdout);
    assert_eq!(
        text.lines().last(),
        Some("each reading counted once"),
        "{text}"
    );
    assert!(text.contains("pump 2    sent away"), "{text}");
    assert_eq!(output.status.code(), Some(0));
}

#[test]
fn shows_nothing_where_nothing_comes_through() {
    let output = line(&["--pumps", "1", "--seconds", "1", "--loss", "100"]);
    let text = String::from_utf8_lossy(&output.stdout);
    assert!(text.contains("nothing was shown"), "{text}");
    assert_eq!(output.status.code(), Some(1));
}

#[test]
fn bad_options_are_refused() {
    let output = line(&["--pumps", "none"]);
    let text = String::from_utf8_lossy(&output.stderr);
    assert!(
        text.starts_with("--pumps wants a number from 1 to 256, not none"),
        "{text}"
    );
    assert_eq!(output.status.code(), Some(2));
    assert_eq!(line(&["--help"]).status.code(), Some(0));
}
