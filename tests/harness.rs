//! Runs tests one after the other, says how each went, and counts them.

use std::panic::{AssertUnwindSafe, catch_unwind};
use std::sync::Mutex;
use std::time::Instant;

#[derive(Default)]
pub struct Harness {
    pub passed: u32,
    pub failed: u32,
}

impl Harness {
    pub fn test(&mut self, name: &str, test: impl FnOnce()) {
        let began = Instant::now();
        let ok = catch_unwind(AssertUnwindSafe(test)).is_ok();
        let seconds = began.elapsed().as_secs_f64();
        println!("{} {name} ({seconds:.1} s)", if ok { "ok    " } else { "FAILED" });
        if ok {
            self.passed += 1;
        } else {
            self.failed += 1;
        }
    }
}

/// Says how far a long test is, every few seconds.
pub fn progress(round: usize, rounds: usize) {
    static SAID: Mutex<Option<Instant>> = Mutex::new(None);
    let mut said = SAID.lock().unwrap();
    if round == 0 || said.is_none() {
        *said = Some(Instant::now());
    } else if said.is_some_and(|then| then.elapsed().as_secs() >= 3) {
        println!("       .. {round} of {rounds}");
        *said = Some(Instant::now());
    }
}
