//! One schedule that random ones seldom meet: a find stands before its last step while another party deletes its key and inserts it with another setting. The find must
//! answer the setting that it noted.

use super::{Schedules, MOST_CALLS_TO_REST};
use crate::callee::Call;
use crate::habits::Choice;
use crate::part::Outcome;
use crate::random::Random;
use bead_port::memory::{DELETE, FIND, INSERT};

/// The find's last step.
const LAST_STEP: u32 = 9;

impl Schedules {
    /// The schedule on a file just formatted, where there are two parties for it.
    pub(super) fn replace_setting(&mut self, key: u32, random: &mut Random) -> Outcome<()> {
        if self.sizes[4] < 2 {
            return Ok(());
        }
        let choice = |operation, setting| Choice {
            operation,
            key,
            setting,
        };
        self.perform_whole(1, choice(INSERT, random.word()))?;
        self.perform(choice(FIND, 0).begin(0))?;
        self.step_while(0, |schedules| schedules.image.party(0).step != LAST_STEP)?;
        self.perform_whole(1, choice(DELETE, 0))?;
        self.perform_whole(1, choice(INSERT, random.word()))?;
        self.step_while(0, |schedules| schedules.book.entry(0).is_some())
    }

    /// An operation from its begin to its end, nobody else called.
    fn perform_whole(&mut self, party: u32, choice: Choice) -> Outcome<()> {
        self.perform(choice.begin(party))?;
        self.step_while(party, |schedules| schedules.book.entry(party).is_some())
    }

    /// Steps of a party for as long as a thing holds.
    fn step_while(&mut self, party: u32, holds: impl Fn(&Schedules) -> bool) -> Outcome<()> {
        for _ in 0..MOST_CALLS_TO_REST {
            if !holds(self) {
                return Ok(());
            }
            self.perform(Call::Step(party))?;
        }
        Err(format!("party {party} does not come to an end"))
    }
}
