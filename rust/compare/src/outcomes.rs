//! How many checks of given cases passed.

use std::fmt::Debug;
use std::process::ExitCode;

#[derive(Default)]
pub struct Outcomes {
    passed: usize,
    failed: usize,
}

impl Outcomes {
    /// Counts a check, and prints its fault if it has one.
    pub fn note(&mut self, what: &str, fault: Option<String>) {
        match fault {
            None => self.passed += 1,
            Some(fault) => {
                self.failed += 1;
                println!("{what}: {fault}");
            }
        }
    }

    /// Prints the counts. Without a check nothing has passed.
    pub fn exit(&self, name: &str) -> ExitCode {
        println!("{name}: {} checks passed, {} failed", self.passed, self.failed);
        if self.failed == 0 && self.passed > 0 {
            ExitCode::SUCCESS
        } else {
            ExitCode::FAILURE
        }
    }
}

/// How what was given differs from what was expected.
pub fn differ<T: PartialEq + Debug>(what: &str, given: T, expected: T) -> Option<String> {
    (given != expected).then(|| format!("{what} {given:?}, expected {expected:?}"))
}
