//! The chains, with their local levels, pages and records.

use crate::cells::{Cell, Row};
use crate::memory::{Memory, Page};

/// A row for each chain: those that level and next count, and those that a split or merge still works on.
pub fn rows(memory: &Memory) -> Vec<Row> {
    let count = memory.chain_count();
    (0..memory.root.primaries)
        .filter(|&chain| chain < count || is_worked_on(memory, chain))
        .map(|chain| {
            let pages = memory.pages_from(Some(chain));
            let mut cells: Vec<Cell> = pages.iter().take(1).map(|page| level(*page)).collect();
            cells.extend(pages.iter().map(|page| records(page.number, *page)));
            if chain >= count {
                cells.push(Cell::new("state", ["not counted by level and next"]));
            }
            Row::new(chain, format!("chain {chain}"), cells)
        })
        .collect()
}

/// Whether a chain beyond the last one is locked or written.
fn is_worked_on(memory: &Memory, chain: u32) -> bool {
    let is_locked = memory
        .locks
        .get(chain as usize + 1)
        .map_or(false, |&word| word != 0);
    is_locked || memory.page(chain).map_or(false, |page| !page.is_zero())
}

fn level(page: Page<'_>) -> Cell {
    Cell::new("level", [page.level()])
}

/// A page and its records, each its key and its setting: `7=5`.
pub fn records(name: impl std::fmt::Display, page: Page<'_>) -> Cell {
    let name = format!("page {name}");
    let records = page
        .records()
        .map(|(key, setting)| format!("{key}={setting}"));
    let cell = Cell::new(&name, records);
    if cell.items.is_empty() {
        Cell::new(name, ["empty"])
    } else {
        cell
    }
}
