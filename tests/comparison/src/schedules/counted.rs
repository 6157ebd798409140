//! How many calls an operation takes, waiting ones set aside (document 02, change 8): by the sizes a find at most 7 + 3 × R + V, an insert 21 + 3 × R and a delete
//! 19 + 3 × R, R being the least number with N × 2^R ≥ P.

use super::Schedules;
use crate::part::Outcome;
use bead_port::memory::{FIND, INSERT};

pub(super) const LONGEST: &str = "operations of as many calls as the sizes allow";

/// The most calls of an operation in a file of these sizes.
fn most_calls([originals, _, primaries, overflow, _]: [u32; 5], operation: u32) -> u32 {
    let mut rehashes = 0;
    while originals << rehashes < primaries {
        rehashes += 1;
    }
    match operation {
        FIND => 7 + 3 * rehashes + overflow,
        INSERT => 21 + 3 * rehashes,
        _ => 19 + 3 * rehashes,
    }
}

impl Schedules {
    /// Counts a step that was performed; the one that makes up the most is done, not moved.
    pub(super) fn count(&mut self, party: u32, moved: bool) -> Outcome<()> {
        let operation = self.book.entry(party).map_or(FIND, |entry| entry.operation);
        let most = most_calls(self.sizes, operation);
        let taken = &mut self.taken[party as usize];
        *taken += 1;
        if *taken + u32::from(moved) > most {
            return Err(format!(
                "operation {operation} of party {party} takes more than {most} calls"
            ));
        }
        if *taken == most {
            self.met.add(LONGEST);
        }
        Ok(())
    }
}

#[cfg(test)]
mod tests {
    use super::*;
    use bead_port::memory::DELETE;

    #[test]
    fn the_most_calls_go_by_the_sizes() {
        let of = |sizes| [FIND, INSERT, DELETE].map(|operation| most_calls(sizes, operation));
        assert_eq!(of([1, 1, 256, 3, 2]), [34, 45, 43]);
        assert_eq!(of([1, 1, 129, 3, 2]), [34, 45, 43]);
        assert_eq!(of([5, 2, 12, 3, 2]), [16, 27, 25]);
        assert_eq!(of([5, 2, 5, 3, 2]), [10, 21, 19]);
    }
}
