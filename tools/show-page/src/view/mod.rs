//! What is shown of the file at a line. A new thing to show is a cell in one of these files, or a section here.

mod chains;
mod free_list;
mod locks;
mod parties;
mod root;
mod scratch;
mod waiting;

pub use locks::held_by;
pub use parties::operation;
pub use scratch::new_pages;

use crate::cells::{Row, Section, View};
use crate::memory::{Memory, Request};
use crate::step_words::StepWords;

/// The sections, as they stand now.
pub fn of(memory: &Memory, requests: &[Request], words: &StepWords) -> View {
    let section = |title, rows: Vec<Row>| Section { title, rows };
    vec![
        section("File", root::rows(memory)),
        section("Parties", parties::rows(memory, requests, words)),
        section("Locks", locks::rows(memory, requests)),
        section("Who waits", waiting::rows(memory, requests)),
        section("Chains", chains::rows(memory)),
        section("Free list", free_list::rows(memory)),
        section("Scratch pages", scratch::rows(memory)),
    ]
}
