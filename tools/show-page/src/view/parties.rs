//! The parties: what each has under way, its step, its locks, for whom it waits, and behind whom.

use crate::cells::{Cell, Row};
use crate::memory::{linked, Memory, Request};
use crate::step_words::StepWords;
use crate::view::locks;
use bead_index::PartyRecord;

/// A row for each party.
pub fn rows(memory: &Memory, requests: &[Request], words: &StepWords) -> Vec<Row> {
    (0..)
        .zip(memory.parties.iter().zip(requests))
        .map(|(party, (record, request))| {
            let mut cells = vec![Cell::new("operation", [operation(record)])];
            if record.operation != 0 {
                cells.push(Cell::new("step", [record.step]));
                cells.extend(lock_cells(memory, party, request));
                cells.extend(record_cells(memory, record));
                cells.push(Cell::new("next", [words.of(record.step)]));
            }
            Row::new(party, format!("party {party}"), cells)
        })
        .collect()
}

/// The operation and its key; an insert with its setting, as records are shown.
pub fn operation(record: &PartyRecord) -> String {
    let (key, setting) = (record.key, record.setting);
    match record.operation {
        0 => "idle".to_string(),
        1 => format!("find {key}"),
        2 => format!("insert {key}={setting}"),
        _ => format!("delete {key}"),
    }
}

/// The locks held and wanted, who keeps the wanted one from being granted, and behind whom the party stands.
fn lock_cells(memory: &Memory, party: u32, request: &Request) -> Vec<Cell> {
    let holders = request.wait.iter().flat_map(|wait| &wait.holders);
    let behind = request.wait.iter().flat_map(|wait| &wait.behind);
    vec![
        Cell::unless_empty("holds", locks::held_by(memory, party)),
        Cell::unless_empty("wants", request.wanted.map(locks::claim)),
        Cell::unless_empty("waits for", holders.map(|holder| format!("→{holder}"))),
        Cell::unless_empty("behind", behind),
    ]
}

/// What the record has noted, from the step on that sets it.
fn record_cells(memory: &Memory, record: &PartyRecord) -> Vec<Cell> {
    let noted = |name: &str, is_noted: bool, number: u32| {
        Cell::unless_empty(name, is_noted.then_some(number))
    };
    let old_pages = memory.pages_from(linked(record.old));
    let owed = ["", "split", "merge", "split made"].get(record.owed as usize);
    let answer = ["", "inserted", "present", "deleted", "absent", "no page"];
    let answer = answer.get(record.answer as usize);
    let said = |word: Option<&&'static str>| word.copied().filter(|word| !word.is_empty());
    vec![
        noted("lev", record.step > 2, record.lev),
        noted("chain", record.step > 3, record.chain),
        noted("other chain", has_other(record.step), record.other),
        Cell::unless_empty("old pages", old_pages.iter().map(|page| page.number)),
        Cell::unless_empty("owed", said(owed)),
        Cell::unless_empty("answer so far", said(answer)),
    ]
}

/// Whether a step knows another chain: the one to be left, a split's new chain, or a merge's partner.
fn has_other(step: u32) -> bool {
    matches!(step, 7 | 8 | 17..=22 | 25..=30)
}
