//! A script of forms made at random: operations of every kind by every party, steps, withdraws and take-ups in any
//! order, each party's begin where it is idle.

use crate::file::File;
use crate::forms::Form;
use bead_port::memory::{DELETE, FIND, INSERT};
use std::io::{self, Write};

/// What a script is made from: how many lines, the seed, the sizes of the file, how many keys there are, of how many
/// turns of a busy party one is a withdraw, and of how many lines one is a take-up, 0 for none.
pub struct Plan {
    pub lines: u32,
    pub seed: u32,
    pub sizes: [u32; 5],
    pub keys: u32,
    pub withdraws: u32,
    pub take_ups: u32,
}

impl Plan {
    /// From eight to ten numbers: LINES SEED N b P V Q KEYS [WITHDRAWS [TAKE-UPS]].
    pub fn read(numbers: &[u32]) -> Option<Plan> {
        let mut all = [0; 10];
        if !(8..=all.len()).contains(&numbers.len()) {
            return None;
        }
        all[..numbers.len()].copy_from_slice(numbers);
        let [lines, seed, n, b, p, v, q, keys, withdraws, take_ups] = all;
        let sizes = [n, b, p, v, q];
        Some(Plan {
            lines,
            seed,
            sizes,
            keys,
            withdraws,
            take_ups,
        })
    }
}

/// Random numbers from a seed (xorshift), the same on every machine.
struct Random(u64);

impl Random {
    fn below(&mut self, limit: u32) -> u32 {
        self.0 ^= self.0 << 13;
        self.0 ^= self.0 >> 7;
        self.0 ^= self.0 << 17;
        (((self.0 >> 32) * u64::from(limit)) >> 32) as u32
    }
}

/// Prints the script. Inserts and deletes are as many; they come in spells of mostly one kind, so that the file grows and shrinks.
/// An insert's setting is its line's number, so that a setting found names the insert.
pub fn print(plan: &Plan, out: &mut impl Write) -> io::Result<()> {
    let mut random = Random(0x9e37_79b9_7f4a_7c15 ^ u64::from(plan.seed));
    let mut file = File::default();
    let [n, b, p, v, q] = plan.sizes;
    writeln!(out, "(format {n} {b} {p} {v} {q})")?;
    file.answer(Form::Format(plan.sizes), &mut io::sink())?;
    let mut grows = true;
    for line in 2..=plan.lines {
        if random.below(16 * plan.keys) == 0 {
            grows = !grows;
        }
        let party = random.below(q);
        let form = if plan.take_ups > 0 && random.below(plan.take_ups) == 0 {
            Form::TakeUp
        } else if file.is_idle(party) {
            let (mostly, seldom) = if grows {
                (INSERT, DELETE)
            } else {
                (DELETE, INSERT)
            };
            let operation = match random.below(8) {
                0..=2 => FIND,
                3 => seldom,
                _ => mostly,
            };
            Form::Begin(party, operation, random.below(plan.keys), line)
        } else if plan.withdraws > 0 && random.below(plan.withdraws) == 0 {
            Form::Withdraw(party)
        } else {
            Form::Step(party)
        };
        writeln!(out, "{form}")?;
        file.answer(form, &mut io::sink())?;
    }
    Ok(())
}
