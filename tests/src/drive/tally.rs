//! Counting comparisons.

/// Passed and failed comparisons of one subcommand, with progress now and then.
pub struct Tally {
    name: &'static str,
    passed: u64,
    failed: u64,
    every: u64,
}

impl Tally {
    pub fn new(name: &'static str, every: u64) -> Tally {
        Tally { name, passed: 0, failed: 0, every }
    }

    pub fn pass(&mut self) {
        self.passed += 1;
        if self.passed.is_multiple_of(self.every) {
            println!("{}: {} so far", self.name, self.passed);
        }
    }

    pub fn fail(&mut self, what: &str) {
        self.failed += 1;
        println!("{}: FAILED\n{what}", self.name);
    }

    /// Counts a check that holds or fails with these words.
    pub fn check(&mut self, holds: bool, what: &str) {
        if holds {
            self.pass();
        } else {
            self.fail(what);
        }
    }

    pub fn failed(&self) -> bool {
        self.failed > 0
    }

    /// The closing line; true if all passed, and there was something to pass.
    pub fn close(self) -> bool {
        println!("{}: {} passed, {} failed", self.name, self.passed, self.failed);
        self.failed == 0 && self.passed > 0
    }
}
