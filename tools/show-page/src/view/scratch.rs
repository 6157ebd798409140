//! The scratch pages that are in use, and the new pages that stand behind them until they are written into the file.

use crate::cells::{Cell, Row};
use crate::memory::{Memory, Page};
use crate::view::chains;

/// A row for each party whose scratch page has something in it.
pub fn rows(memory: &Memory) -> Vec<Row> {
    (0..memory.root.parties)
        .filter_map(|party| {
            let page = memory.page(memory.scratch_page(party))?;
            if page.is_zero() {
                return None;
            }
            let mut cells = vec![
                Cell::new("level", [page.level()]),
                chains::records(page.number, page),
            ];
            let new = new_pages(memory, party);
            cells.extend(new.iter().map(|page| chains::records(page.number, *page)));
            if new.is_empty() {
                cells.extend(page.next().map(|next| Cell::new("link to page", [next])));
            }
            Some(Row::new(party, format!("scratch of party {party}"), cells))
        })
        .collect()
}

/// The new pages that a party's scratch page leads to, in chain order.
pub fn new_pages(memory: &Memory, party: u32) -> Vec<Page<'_>> {
    let step = memory.parties.get(party as usize).map_or(0, |it| it.step);
    let scratch = memory.page(memory.scratch_page(party));
    let first = scratch.and_then(Page::next);
    memory.pages_from(first.filter(|_| leads_to_new_pages(step)))
}

/// Whether the next step writes the scratch page as a primary page that has pages behind it: a merge's never has.
fn leads_to_new_pages(step: u32) -> bool {
    matches!(step, 11 | 18)
}
