//! Withdraws on a copy of the memory: an operation is begun there, some steps of its party alone follow, and a withdraw leaves all as it was before the begin. "In memory the
//! index alone has changed, with no other party's call in between, all is what it was before begin."

use super::{is_decided, Schedules};
use crate::callee::Call;
use crate::habits::Choice;
use crate::part::Outcome;
use crate::random::Random;
use bead_port::memory::LINK;

/// More steps than an operation alone makes before its decisive one.
const MOST_STEPS: u32 = 12;

pub(super) const RESTORED: &str = "withdraws that restored all memory";
pub(super) const RESTORED_PAGES: &str = "of these with two pages or more given back";

impl Schedules {
    /// A trial for a party that is idle.
    pub(super) fn test_restored(
        &mut self,
        party: u32,
        choice: Choice,
        random: &mut Random,
    ) -> Outcome<()> {
        self.trial.copy_from(&self.image);
        self.try_call(choice.begin(party));
        for _ in 0..random.between(0, MOST_STEPS) {
            self.try_call(Call::Step(party));
        }
        let record = self.trial.party(party);
        let built = record.step == 11 && self.has_built_two(party);
        let reply = self.try_call(Call::Withdraw(party));
        if record.operation == 0 || is_decided(record.operation, record.step) {
            return Ok(());
        }
        if reply != [0; 5] || self.trial != self.image {
            return Err(format!(
                "{choice:?} of party {party}, withdrawn at step {}: {reply:?}, memory is {}",
                record.step,
                if self.trial == self.image {
                    "restored"
                } else {
                    "another"
                }
            ));
        }
        self.met.add(RESTORED);
        if built {
            self.met.add(RESTORED_PAGES);
        }
        Ok(())
    }

    /// A call on the copy.
    fn try_call(&mut self, call: Call) -> [u32; 5] {
        self.trials += 1;
        self.library.call(&mut self.trial, call)
    }

    /// Whether the party's scratch page leads to two pages or more.
    fn has_built_two(&self, party: u32) -> bool {
        let root = self.trial.root_record();
        let scratch = root.scratch(party) as u32;
        let first = self.trial.page(scratch)[LINK];
        first != 0 && self.trial.page(first - 1)[LINK] != 0
    }
}
