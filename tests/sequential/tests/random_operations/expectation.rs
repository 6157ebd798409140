//! What an operation must report, from the number of chains and the map alone.

use std::collections::BTreeMap;

use sequential::{mixed, Answer, Operation, Outcome, PlainMap, Restructuring, Sizes};

use crate::placement::{free_pages, home, overflow_pages, placed};

/// The report due, and why something is refused or skipped ("" where nothing is).
pub type Expected = (Outcome, &'static str);

/// What the operation must report on a file of `chains` chains that holds the records of the map.
pub fn expected(sizes: Sizes, chains: u32, map: &PlainMap, operation: Operation) -> Expected {
    let mut changed = map.clone();
    let answer = changed.perform(operation);
    let (key, shortage) = match operation {
        Operation::Insert(key, _) if answer == Answer::Inserted => (key, "insert"),
        Operation::Delete(key) if answer == Answer::Deleted => (key, "delete"),
        _ => return (answer.into(), ""),
    };
    let home = home(sizes, chains, mixed(key));
    let old = placed(sizes, chains, map.settings());
    let new = placed(sizes, chains, changed.settings());
    let [old_pages, new_pages] = [&old, &new].map(|all| overflow_pages(sizes, &all[home]));
    if new_pages > free_pages(sizes, &old) {
        return (Answer::NoPage.into(), shortage);
    }
    let (restructuring, reason) = match answer {
        Answer::Inserted if new_pages > old_pages => split(sizes, chains, changed.settings()),
        Answer::Deleted if new[home].is_empty() => merge(sizes, chains, changed.settings()),
        _ => (Restructuring::None, ""),
    };
    let outcome = Outcome {
        answer,
        restructuring,
    };
    (outcome, reason)
}

/// What becomes of a split that is owed. The new chain's number, read as a mixed key, tells which chain
/// it comes from.
fn split(
    sizes: Sizes,
    chains: u32,
    settings: &BTreeMap<u32, u32>,
) -> (Restructuring, &'static str) {
    if chains == sizes.most_chains {
        return (Restructuring::SplitSkipped, "chains");
    }
    let halves = placed(sizes, chains + 1, settings);
    let needed: usize = [home(sizes, chains, chains), chains as usize]
        .map(|half| overflow_pages(sizes, &halves[half]))
        .iter()
        .sum();
    if needed > free_pages(sizes, &placed(sizes, chains, settings)) {
        return (Restructuring::SplitSkipped, "pages");
    }
    (Restructuring::Split, "")
}

/// What becomes of a merge that is owed.
fn merge(
    sizes: Sizes,
    chains: u32,
    settings: &BTreeMap<u32, u32>,
) -> (Restructuring, &'static str) {
    if chains == sizes.originals {
        return (Restructuring::MergeSkipped, "chains");
    }
    let target = home(sizes, chains - 1, chains - 1);
    let joined = &placed(sizes, chains - 1, settings)[target];
    if joined.len() > sizes.records_a_page as usize {
        return (Restructuring::MergeSkipped, "records");
    }
    (Restructuring::Merged, "")
}
