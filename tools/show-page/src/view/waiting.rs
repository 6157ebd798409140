//! Who waits, first come first, and for which lock.

use crate::cells::{Cell, Row};
use crate::memory::{Memory, Request};
use crate::view::locks;

/// One row; none before a format.
pub fn rows(memory: &Memory, requests: &[Request]) -> Vec<Row> {
    if memory.root.originals == 0 {
        return Vec::new();
    }
    let wanted = |party: u32| requests.get(party as usize)?.wanted.map(locks::claim);
    let mut cells: Vec<Cell> = memory
        .waiting()
        .map(|party| Cell::new(format!("party {party}"), wanted(party)))
        .collect();
    if cells.is_empty() {
        cells.push(Cell::new("none", ["nobody waits"]));
    }
    vec![Row::new(0, "who waits", cells)]
}
