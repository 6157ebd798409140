//! What the compared calls have met: steps performed, waits, answers, refusals, each cause of refusal 6 where it can
//! arise, and each condition of take-up that failed alone.

use super::situations::Situations;
use crate::callee::{Call, Reply, REQUESTING};
use crate::part::Row;
use bead_port::damage::{Cause, CAUSES};
use bead_port::take_up::{Condition, CONDITIONS};

const STEPS: usize = 31;

/// The ends an operation can come to: an answer and a restructuring, with the words for them.
const ANSWERS: [(&str, usize); 6] = [
    ("inserted", 1),
    ("present", 2),
    ("deleted", 3),
    ("absent", 4),
    ("no page", 5),
    ("found", 6),
];
const RESTRUCTURINGS: [(&str, usize); 5] = [
    ("none", 0),
    ("split", 1),
    ("split skipped", 2),
    ("merged", 3),
    ("merge skipped", 4),
];

pub struct Coverage {
    performed: [u64; STEPS],
    waited: [u64; STEPS],
    /// Of these the ones that Table I would have granted: the party stood behind an earlier request.
    behind: [u64; STEPS],
    ended: [u64; STEPS],
    answers: [u64; 7],
    restructurings: [u64; 5],
    /// Withdraws accepted, by the step number that the record held.
    withdrawn: [u64; STEPS],
    /// Refusals of each of `CALLS`, by number; the last place is 255.
    refusals: [[u64; 10]; 5],
    causes: Vec<[u64; STEPS]>,
    /// The causes of a withdraw refused 6, likewise.
    withdraw_causes: Vec<[u64; STEPS]>,
    /// Take-ups refused 8 for one condition alone.
    alone: Vec<u64>,
    /// Altered files that were taken up and gone on from.
    gone_on: u64,
    pub situations: Situations,
}

impl Coverage {
    pub fn new() -> Coverage {
        Coverage {
            performed: [0; STEPS],
            waited: [0; STEPS],
            behind: [0; STEPS],
            ended: [0; STEPS],
            answers: [0; 7],
            restructurings: [0; 5],
            withdrawn: [0; STEPS],
            refusals: [[0; 10]; 5],
            causes: vec![[0; STEPS]; CAUSES.len()],
            withdraw_causes: vec![[0; STEPS]; CAUSES.len()],
            alone: vec![0; CONDITIONS.len()],
            gone_on: 0,
            situations: Situations::new(),
        }
    }

    /// Counts one call: the step number that the record held, the reply, and the cause where it was refused 6.
    pub fn count(&mut self, call: Call, step: u32, reply: Reply, cause: Option<Cause>) {
        let step = (step as usize).min(STEPS - 1);
        match (call, reply) {
            (Call::Format(_), [code, ..]) => self.refusals[0][place(code)] += 1,
            (Call::Begin(..), [code, ..]) => self.refusals[1][place(code)] += 1,
            (Call::Step(_), [0, outcome, answer, restructuring, _]) => {
                self.refusals[2][0] += 1;
                self.count_outcome(step, outcome, answer as usize, restructuring as usize);
            }
            (Call::Step(_), [code, ..]) => self.refusals[2][place(code)] += 1,
            (Call::Withdraw(_), [code, ..]) => {
                self.refusals[3][place(code)] += 1;
                self.withdrawn[step] += u64::from(code == 0);
            }
            (Call::TakeUp, [code, ..]) => self.refusals[4][place(code)] += 1,
        }
        let causes = match call {
            Call::Withdraw(_) => &mut self.withdraw_causes,
            _ => &mut self.causes,
        };
        if let Some(cause) = cause {
            causes[cause as usize][step] += 1;
        }
    }

    /// Counts a step that waits behind an earlier request and for no lock held.
    pub fn count_behind(&mut self, step: u32) {
        self.behind[(step as usize).min(STEPS - 1)] += 1;
    }

    /// Counts a take-up refused 8 by the conditions that fail.
    pub fn count_unsaved(&mut self, failing: &[Condition]) {
        if let [condition] = failing {
            self.alone[*condition as usize] += 1;
        }
    }

    /// Counts an altered file that is taken up and gone on from.
    pub fn count_gone_on(&mut self) {
        self.gone_on += 1;
    }

    fn count_outcome(&mut self, step: usize, outcome: u32, answer: usize, restructuring: usize) {
        self.performed[step] += u64::from(outcome != 0);
        match outcome {
            0 => self.waited[step] += 1,
            1 => {}
            _ => {
                self.ended[step] += 1;
                self.answers[answer] += 1;
                self.restructurings[restructuring] += 1;
            }
        }
    }

    /// The totals, with how many kinds of each must be met.
    pub fn told(&self) -> String {
        let sum = |counts: &[u64]| counts.iter().sum::<u64>();
        format!(
            "{} steps performed ({}), {} waits ({}), {} of them behind another alone, {} refused 6 ({} causes); \
             {} taken up, {} refused 8, for one condition alone: {}",
            sum(&self.performed),
            STEPS - 1,
            sum(&self.waited),
            REQUESTING.len(),
            sum(&self.behind),
            self.refusals[2][6],
            CAUSES.len(),
            self.refusals[4][0],
            self.refusals[4][8],
            self.told_alone()
        )
    }

    /// How often each condition of take-up failed alone.
    fn told_alone(&self) -> String {
        let told = CONDITIONS
            .iter()
            .map(|(condition, _)| format!("{condition:?} {}", self.alone[*condition as usize]));
        told.collect::<Vec<_>>().join(", ")
    }

    /// Files taken up at rest, altered ones gone on from, and each condition failed alone.
    fn take_up_rows(&self) -> Vec<Row> {
        let alone = CONDITIONS.iter().map(|(condition, words)| {
            let count = self.alone[*condition as usize];
            (format!("take-up refused 8 alone: not {words}"), count)
        });
        let taken = ("taken up".to_string(), self.refusals[4][0]);
        let gone_on = (
            "altered, taken up and gone on from".to_string(),
            self.gone_on,
        );
        [taken, gone_on].into_iter().chain(alone).collect()
    }

    /// Every row that must have been met.
    pub fn rows(&self) -> Vec<Row> {
        let steps = (1..STEPS).map(|step| (format!("step {step} performed"), self.performed[step]));
        let waits = REQUESTING.map(|step| (format!("step {step} waiting"), self.waited[step]));
        let behind = REQUESTING.map(|step| (format!("step {step} behind"), self.behind[step]));
        let ends = ENDING.map(|step| (format!("step {step} done"), self.ended[step]));
        let answers =
            ANSWERS.map(|(words, place)| (format!("answer {words}"), self.answers[place]));
        let made = RESTRUCTURINGS
            .map(|(words, place)| (format!("restructuring {words}"), self.restructurings[place]));
        let refusals = REFUSALS.map(|(call, number)| {
            let words = format!("{} refused {number}", CALLS[call]);
            (words, self.refusals[call][place(number)])
        });
        let causes = CAUSES
            .iter()
            .flat_map(|(cause, words)| self.cause_rows(*cause, words));
        let ends = ends.into_iter().chain(answers).chain(made);
        let waits = waits.into_iter().chain(behind);
        let all = steps.chain(waits).chain(ends).chain(refusals).chain(causes);
        all.chain(self.withdraw_rows())
            .chain(self.take_up_rows())
            .chain(self.situations.rows())
            .collect()
    }

    /// A withdraw at each step before the decisive one, and each cause that it tests.
    fn withdraw_rows(&self) -> Vec<Row> {
        let withdrawn =
            WITHDRAWN.map(|step| (format!("withdrawn at {step}"), self.withdrawn[step]));
        let causes = CAUSES.iter().flat_map(|(cause, words)| {
            let counts = &self.withdraw_causes[*cause as usize];
            let row = move |step: &usize| {
                (
                    format!("withdraw refused 6 at {step}: {words}"),
                    counts[*step],
                )
            };
            withdraw_steps_of(*cause).iter().map(row)
        });
        withdrawn.into_iter().chain(causes).collect()
    }

    /// A cause in all, then at each step where it must have been met.
    fn cause_rows(&self, cause: Cause, words: &str) -> Vec<Row> {
        let counts = &self.causes[cause as usize];
        let total = (format!("refused 6: {words}"), counts.iter().sum());
        let steps = steps_of(cause).iter();
        let at_steps = steps.map(|&step| (format!("  at step {step}"), counts[step]));
        std::iter::once(total).chain(at_steps).collect()
    }
}

const CALLS: [&str; 5] = ["format", "begin", "step", "withdraw", "take-up"];

/// The steps before which an operation can be withdrawn.
const WITHDRAWN: [usize; 10] = [1, 2, 3, 4, 5, 6, 7, 8, 10, 11];

/// The steps that can end an operation.
const ENDING: [usize; 9] = [9, 12, 14, 16, 17, 22, 24, 26, 30];

/// The refusals that each call can give, the call by its place in `CALLS`.
const REFUSALS: [(usize, u32); 21] = [
    (0, 1),
    (0, 2),
    (1, 1),
    (1, 2),
    (1, 3),
    (1, 4),
    (1, 255),
    (2, 1),
    (2, 2),
    (2, 3),
    (2, 5),
    (2, 6),
    (3, 1),
    (3, 2),
    (3, 3),
    (3, 5),
    (3, 6),
    (3, 7),
    (4, 1),
    (4, 2),
    (4, 8),
];

fn place(code: u32) -> usize {
    code.min(9) as usize
}

/// The steps at which a cause must have been met; none are named where every step tests it.
fn steps_of(cause: Cause) -> &'static [usize] {
    match cause {
        Cause::CountAbovePage | Cause::LocalLevelAbove9 | Cause::LinkAstray => {
            &[6, 9, 10, 11, 14, 17, 18, 26, 28, 29]
        }
        Cause::ChainTooLong => &[10, 14, 17, 26, 29],
        Cause::FreeListEnds | Cause::FreeListTwice | Cause::FreeListAstray => &[10, 17],
        Cause::RootLockNotHeld => &[5, 16, 17, 22, 24, 26, 30],
        Cause::ChainLockNotHeld => &[9, 12, 14, 17, 19, 26, 30],
        Cause::OtherLockNotHeld => &[8, 26, 30],
        Cause::AddressNotBelow => &[3, 6],
        Cause::OldLinkZero => &[13, 14],
        Cause::OldLinkAstray => &[13, 14, 29],
        Cause::KeysNotAscending => &[10, 17, 26],
        Cause::FreeCountOverfull => &[14, 29],
        _ => &[],
    }
}

/// The steps at which a withdraw must have met a cause.
fn withdraw_steps_of(cause: Cause) -> &'static [usize] {
    match cause {
        Cause::CountAbovePage
        | Cause::LocalLevelAbove9
        | Cause::LinkAstray
        | Cause::ChainTooLong
        | Cause::FreeCountOverfull => &[11],
        Cause::RootLockNotHeld => &[2, 3, 4, 5],
        Cause::ChainLockNotHeld => &[5, 6, 8, 10, 11],
        Cause::OtherLockNotHeld => &[7, 8],
        _ => &[],
    }
}
