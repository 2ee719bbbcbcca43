//! What the checks of one file found.

use compare::report::Group;

#[derive(Debug, Default)]
pub struct Findings {
    comparisons: u64,
    faults: Vec<String>,
}

impl Findings {
    pub fn check(&mut self, holds: bool, message: impl FnOnce() -> String) {
        self.comparisons += 1;
        if !holds {
            self.faults.push(message());
        }
    }

    pub fn faults(&self) -> &[String] {
        &self.faults
    }

    /// Counts the file and its comparisons in the group, each fault with the file and its name.
    pub fn report(self, group: &mut Group, name: &str, bytes: &[u8]) {
        group.input();
        for _ in self.faults.len() as u64..self.comparisons {
            group.check(true, bytes, String::new);
        }
        for fault in self.faults {
            group.check(false, bytes, || format!("{name}: {fault}"));
        }
    }
}
