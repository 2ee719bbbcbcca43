//! How often each refusal was given.

use crate::report::Group;

const NUMBERS: usize = 15;

/// Counts by refusal number, the accepted under 0.
#[derive(Default)]
pub struct Tally {
    counts: [u64; NUMBERS],
}

impl Tally {
    pub fn add(&mut self, refusal: u64) {
        self.counts[(refusal as usize).min(NUMBERS - 1)] += 1;
    }

    /// Ends the group's line with the counts, and sees that these numbers were given so often.
    pub fn report(&self, group: &mut Group, numbers: &[u64], least: u64) {
        for &number in numbers {
            let count = self.counts[number as usize];
            group.check(count >= least, &[], || {
                format!("refusal {number} was given only {count} times")
            });
        }
        let refused: Vec<String> = (1..NUMBERS)
            .filter(|&number| self.counts[number] > 0)
            .map(|number| format!("{} by {number}", self.counts[number]))
            .collect();
        let refused = refused.join(", ");
        group.remark(format!("{} accepted, refused {refused}", self.counts[0]));
    }
}
