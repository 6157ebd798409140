//! What operations run singly have met: every answer, every restructuring with the reason for a skipped one, levels up and down, and the sizes at their limits.

use crate::part::{Row, Tally};
use bead_port::memory::INSERT;
use sequential::{AddressSpace, Answer, HashFile, Outcome, Restructuring};

/// What must be met.
const NAMES: [&str; 19] = [
    "found",
    "absent",
    "inserted",
    "present",
    "deleted",
    "no page for an insert",
    "no page for a delete",
    "split",
    "split skipped at P chains",
    "split skipped for pages",
    "merged",
    "merge skipped at N chains",
    "merge skipped for records",
    "level raised",
    "level lowered",
    "level 8 with all 256 chains",
    "files with N = 256",
    "files with P = 256",
    "files with V = 752",
];

pub struct Met {
    operations: u64,
    tally: Tally,
    /// Files by b.
    capacities: [u64; 6],
}

impl Met {
    pub fn new() -> Met {
        Met {
            operations: 0,
            tally: Tally::new(NAMES.map(String::from)),
            capacities: [0; 6],
        }
    }

    pub fn count_sizes(&mut self, [n, b, p, v, _]: [u32; 5]) {
        self.capacities[b as usize - 1] += 1;
        self.add_met(&[
            (n == 256, "files with N = 256"),
            (p == 256, "files with P = 256"),
            (v == 752, "files with V = 752"),
        ]);
    }

    /// Counts an operation: the model after it, its level and next before, and what was reported.
    pub fn count(
        &mut self,
        model: &HashFile,
        before: AddressSpace,
        operation: u32,
        reported: Outcome,
    ) {
        self.operations += 1;
        self.tally.add(answer_name(reported.answer, operation));
        let at_most = before.chains() == model.sizes().most_chains;
        let at_least = before.chains() == before.originals;
        self.tally.add(match reported.restructuring {
            Restructuring::None => "",
            Restructuring::Split => "split",
            Restructuring::SplitSkipped if at_most => "split skipped at P chains",
            Restructuring::SplitSkipped => "split skipped for pages",
            Restructuring::Merged => "merged",
            Restructuring::MergeSkipped if at_least => "merge skipped at N chains",
            Restructuring::MergeSkipped => "merge skipped for records",
        });
        let after = model.space().level;
        self.add_met(&[
            (after > before.level, "level raised"),
            (after < before.level, "level lowered"),
            (
                after == 8 && before.level == 7,
                "level 8 with all 256 chains",
            ),
        ]);
    }

    fn add_met(&mut self, things: &[(bool, &str)]) {
        things
            .iter()
            .filter(|(met, _)| *met)
            .for_each(|(_, name)| self.tally.add(name));
    }

    /// Every thing that must be met, each b among them.
    pub fn rows(&self) -> Vec<Row> {
        let capacities = (1..)
            .zip(self.capacities)
            .map(|(b, files)| (format!("files with b = {b}"), files));
        self.tally.rows().into_iter().chain(capacities).collect()
    }

    pub fn told(&self) -> String {
        format!(
            "{} operations as the model, b from 1 to 6: {}",
            self.operations,
            self.tally.told()
        )
    }
}

fn answer_name(answer: Answer, operation: u32) -> &'static str {
    match answer {
        Answer::NoPage if operation == INSERT => "no page for an insert",
        Answer::NoPage => "no page for a delete",
        Answer::Found(_) => "found",
        Answer::Absent => "absent",
        Answer::Inserted => "inserted",
        Answer::Present => "present",
        Answer::Deleted => "deleted",
    }
}
