//! Time per call, ours against the Rust's, in one process, as ratios: whole servers with a cipher that does
//! nothing and with libsodium's, then single parts with the cipher that does nothing.
//!
//! The Rust is compiled from its own files, ours is linked as the static library that was proved; its calls
//! can't be inlined. Both sides get the same input, round by round, and every answer is checked.

mod leaves;
mod report;
mod rounds;
mod server;

use std::path::PathBuf;
use std::process::ExitCode;

use report::Section;

const USAGE: &str = "usage: bench [--write FOLDER]

Prints a table; with --write it is also written to FOLDER/BENCHMARKS.md, with a picture in
FOLDER/benchmarks.svg.";

/// The folder to write to, if one is given.
fn folder() -> Result<Option<PathBuf>, String> {
    let mut words = std::env::args_os().skip(1);
    match (words.next(), words.next(), words.next()) {
        (None, _, _) => Ok(None),
        (Some(flag), Some(folder), None) if flag == "--write" => {
            let folder = PathBuf::from(folder);
            match folder.is_dir() {
                true => Ok(Some(folder)),
                false => Err(format!("{} is no folder", folder.display())),
            }
        }
        _ => Err(USAGE.to_string()),
    }
}

fn sections() -> Vec<Section> {
    vec![
        Section::drawn(
            "Payload received",
            "process_packet, 9 bytes",
            server::received(),
        ),
        Section::drawn(
            "Payload sent",
            "generate_payload_packet, 9 bytes",
            server::sent(),
        ),
        Section::drawn(
            "Connection request",
            "process_packet, to the challenge",
            server::requests(),
        ),
        Section::drawn(
            "A turn each",
            "update_client over all, per client",
            server::turns(),
        ),
        Section::listed(
            "Clock and queries",
            "idle cipher, drop-in",
            server::queries(),
        ),
        Section::listed(
            "Single parts",
            "idle cipher, the libraries of the comparison",
            leaves::rows(),
        ),
    ]
}

fn run() -> Result<(), String> {
    let folder = folder()?;
    let machine = report::machine();
    let sections = sections();
    report::print(&machine, &sections);
    match folder {
        Some(folder) => report::write(&folder, &machine, &sections)
            .map_err(|error| format!("{}: {error}", folder.display())),
        None => Ok(()),
    }
}

fn main() -> ExitCode {
    match run() {
        Ok(()) => ExitCode::SUCCESS,
        Err(text) => {
            eprintln!("{text}");
            ExitCode::FAILURE
        }
    }
}
