//! The figures of three runs, by library and model, and their sums by the tool.

use cueledger_tests::library::{Exports, Library};
use cueledger_tests::store::Model;
use cueledger_tests::traffic::golden::{cksum, text, Run, FILE, STATES};
use std::io::Write;
use std::process::{Command, Stdio};

#[test]
fn figures() {
    assert_eq!(text(&Model), FILE, "model");
    assert_eq!(text(&Exports), FILE, "exports");
    assert_eq!(text(&Library), FILE, "wrapper");
}

/// What the tool prints: the sum, and the number of bytes.
fn by_the_tool(bytes: &[u8]) -> String {
    let mut tool = Command::new("cksum").stdin(Stdio::piped()).stdout(Stdio::piped()).spawn().unwrap();
    tool.stdin.take().unwrap().write_all(bytes).unwrap();
    String::from_utf8(tool.wait_with_output().unwrap().stdout).unwrap()
}

#[test]
fn sums_are_the_tools() {
    for state in STATES {
        let Run { image, table, log, .. } = Run::new(&Exports, state);
        for bytes in [image, table, log] {
            assert_eq!(by_the_tool(&bytes), format!("{} {}\n", cksum(&bytes), bytes.len()));
        }
    }
}
