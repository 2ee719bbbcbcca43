//! What was checked and what failed.

#[derive(Default)]
pub struct Report {
    pub passed: usize,
    /// A plain line for each failure.
    pub failures: Vec<String>,
}

impl Report {
    pub fn check(&mut self, holds: bool, failure: impl FnOnce() -> String) {
        if holds {
            self.passed += 1;
        } else {
            self.failures.push(failure());
        }
    }

    pub fn add(&mut self, other: Report) {
        self.passed += other.passed;
        self.failures.extend(other.failures);
    }
}
