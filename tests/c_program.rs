//! The C program over the header.

use crate::harness::Harness;
use std::process::Command;

fn passes() {
    let path = std::env::var("SMOKE").unwrap_or_else(|_| "target/tests/smoke".to_string());
    let output = Command::new(path).output().expect("the C program starts");
    let text = String::from_utf8_lossy(&output.stdout);
    assert!(output.status.success() && text == "0 failures\n", "{text}");
}

pub fn run(h: &mut Harness) {
    h.test("the calls from C", passes);
}
