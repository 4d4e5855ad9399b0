//! The stored output of the programs, `crates/NAME/stdout`, is byte for byte
//! what the independent implementation makes of their inputs.

use std::path::Path;
use std::process::Command;

fn compare(program: &str, binary: &str) {
    let root = Path::new(env!("CARGO_MANIFEST_DIR")).join("../..");
    let stored = root.join("crates").join(program).join("stdout");
    let stored = std::fs::read(&stored).unwrap_or_else(|e| panic!("{}: {e}", stored.display()));
    let output = Command::new(binary).output().expect("the binary runs");
    assert!(output.status.success(), "{program}: {}", output.status);
    if stored == output.stdout {
        return;
    }
    let (is, right) = (lines(&stored), lines(&output.stdout));
    let at = (0..is.len()).find(|&k| is.get(k) != right.get(k));
    let at = at.unwrap_or(is.len());
    let line = |lines: &[String]| lines.get(at).cloned().unwrap_or("nothing".into());
    panic!(
        "crates/{program}/stdout, line {}\n stored:   {}\n expected: {}",
        at + 1,
        line(&is),
        line(&right)
    );
}

/// The lines, each with its line feed.
fn lines(bytes: &[u8]) -> Vec<String> {
    let line = |line: &[u8]| format!("{:?}", String::from_utf8_lossy(line));
    bytes.split_inclusive(|&b| b == b'\n').map(line).collect()
}

#[test]
fn check_clock() {
    compare("check_clock", env!("CARGO_BIN_EXE_check_clock"));
}

#[test]
fn check_blocks() {
    compare("check_blocks", env!("CARGO_BIN_EXE_check_blocks"));
}

#[test]
fn check_records() {
    compare("check_records", env!("CARGO_BIN_EXE_check_records"));
}

#[test]
fn check_rules() {
    compare("check_rules", env!("CARGO_BIN_EXE_check_rules"));
}

#[test]
fn check_network() {
    compare("check_network", env!("CARGO_BIN_EXE_check_network"));
}

#[test]
fn check_reader() {
    compare("check_reader", env!("CARGO_BIN_EXE_check_reader"));
}
