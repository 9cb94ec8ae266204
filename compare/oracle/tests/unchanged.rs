use std::collections::BTreeSet;
use std::fs;
use std::path::{Path, PathBuf};
use std::process::Command;

fn root() -> PathBuf {
    Path::new(env!("CARGO_MANIFEST_DIR")).join("../..")
}

fn text(path: &str) -> String {
    fs::read_to_string(root().join(path)).unwrap()
}

#[test]
fn unchanged() {
    let sums = text("compare/oracle/SHA256SUMS");
    let listed: BTreeSet<String> = sums.lines().map(|line| line[66..].to_string()).collect();
    let present: BTreeSet<String> = fs::read_dir(root().join("docs/src/src"))
        .unwrap()
        .map(|entry| {
            format!(
                "docs/src/src/{}",
                entry.unwrap().file_name().into_string().unwrap()
            )
        })
        .collect();
    assert_eq!(listed.len(), 9);
    assert_eq!(sums.lines().count(), 9);
    assert_eq!(listed, present);

    let check = Command::new("sha256sum")
        .args(["-c", "--strict", "--quiet", "compare/oracle/SHA256SUMS"])
        .current_dir(root())
        .output()
        .unwrap();
    assert!(
        check.status.success(),
        "{}",
        String::from_utf8_lossy(&check.stdout)
    );
}

/// What the hand-written root must repeat: all but blank lines, comments and `mod x;`.
fn counts(line: &str) -> bool {
    let module = line.starts_with("mod ") && line.ends_with(';');
    !line.trim().is_empty() && !line.starts_with("//!") && !line.starts_with("///") && !module
}

#[test]
fn the_root_is_repeated_word_for_word() {
    let original = text("docs/src/src/lib.rs");
    let ours = text("compare/oracle/src/lib.rs");
    let ours: BTreeSet<&str> = ours.lines().collect();
    let needed: Vec<&str> = original.lines().filter(|line| counts(line)).collect();
    assert_eq!(needed.len(), 22);
    for line in needed {
        assert!(ours.contains(line), "missing: {line}");
    }
}

#[test]
fn every_module_of_the_original_is_compiled_from_its_own_file() {
    let ours = text("compare/oracle/src/lib.rs");
    let original = text("docs/src/src/lib.rs");
    let modules: Vec<&str> = original
        .lines()
        .filter_map(|line| line.strip_prefix("mod ")?.strip_suffix(';'))
        .collect();
    assert_eq!(modules.len(), 8);
    for module in modules {
        assert!(
            ours.contains(&format!("\"../../../docs/src/src/{module}.rs\"")),
            "missing: {module}"
        );
    }
}
