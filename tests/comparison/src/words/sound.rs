//! Schedules of several parties on a file that only the calls change, and trials on altered copies of it.

use super::comparison::Comparison;
use super::forced;
use crate::callee::Call;
use crate::habits::Habits;
use crate::image::Image;
use crate::part::Outcome;
use crate::random::Random;
use crate::sizes;

/// How one session goes.
pub(super) struct Plan {
    sizes: [u32; 5],
    habits: Habits,
    /// How many of the parties are called.
    active: u32,
    /// Trials on altered copies: one in so many calls, 0 for none.
    trials: u32,
}

impl Plan {
    pub fn new(sizes: [u32; 5], habits: Habits, trials: u32, random: &mut Random) -> Plan {
        let parties = sizes[4];
        let active = random.pick(&[parties, parties, parties.min(2), 1]);
        Plan {
            sizes,
            habits,
            active,
            trials,
        }
    }

    pub fn call(&mut self, image: &Image, random: &mut Random) -> Call {
        let party = random.below(self.active);
        if image.party(party).operation != 0 {
            let withdraws = random.one_in(40);
            return [Call::Step(party), Call::Withdraw(party)][usize::from(withdraws)];
        }
        self.habits.choose(random).begin(party)
    }

    /// A call that a careful caller would not make, and a look whether the file could be taken up.
    fn odd_call(&self, random: &mut Random) -> Call {
        let [n, b, p, v, q] = self.sizes;
        let party = random.between(0, q + 1);
        match random.below(7) {
            0 => Call::Begin(
                party,
                random.between(0, 4),
                self.habits.key(random),
                random.word(),
            ),
            1 => Call::Format([n, b, p, v, q + 1]),
            2 => Call::Format([p + 1, b, p, v, q]),
            3 => Call::Step(random.word()),
            4 => Call::Withdraw(party),
            5 => Call::TakeUp,
            _ => Call::Step(party),
        }
    }
}

/// One session: format, then calls, the file growing and shrinking by turns.
pub fn session(comparison: &mut Comparison, random: &mut Random, trials: u32) -> Outcome<()> {
    let sizes = sizes::allowed(random);
    let habits = Habits::new(sizes, random.pick(&[5, 20, 60]), random);
    let mut plan = Plan::new(sizes, habits, trials, random);
    let calls = random.between(200, 3000);
    run(comparison, &mut plan, calls, random)
}

/// A long session on a file of the largest sizes, which may grow to all its chains.
pub fn large_session(comparison: &mut Comparison, turn: u64, random: &mut Random) -> Outcome<()> {
    let sizes = sizes::largest(turn);
    let habits = Habits::new(sizes, 1500, random).dense();
    let mut plan = Plan::new(sizes, habits, 200, random);
    run(comparison, &mut plan, 50_000, random)
}

/// A format and so many calls.
pub(super) fn run(
    comparison: &mut Comparison,
    plan: &mut Plan,
    calls: u32,
    random: &mut Random,
) -> Outcome<()> {
    comparison.lend(&Image::for_sizes(plan.sizes));
    comparison.call(Call::Format(plan.sizes))?;
    for _ in 0..calls {
        if random.one_in(50) {
            comparison.call(plan.odd_call(random))?;
        }
        if plan.trials > 0 && random.one_in(plan.trials) {
            forced::trial(comparison, random)?;
        }
        let call = plan.call(comparison.memory(), random);
        comparison.call(call)?;
    }
    Ok(())
}
