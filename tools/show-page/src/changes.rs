//! What changed from one line to the next.

use crate::cells::{Cell, Row, View};
use std::fmt;

/// The cell that is not listed among the changes: it follows from the step.
const FOLLOWS: &str = "next";

/// A cell that came, went, or has other items.
#[derive(Clone, Debug, PartialEq, Eq)]
pub struct Change {
    pub row: String,
    pub cell: String,
    pub before: String,
    pub after: String,
}

impl fmt::Display for Change {
    fn fmt(&self, out: &mut fmt::Formatter<'_>) -> fmt::Result {
        let Change {
            row,
            cell,
            before,
            after,
        } = self;
        write!(out, "{row}, {cell}: {before} → {after}")
    }
}

/// A row before and after, the one or the other where it came or went; those that did not change are left out.
pub type Pair<'a> = (Option<&'a Row>, Option<&'a Row>);

/// The rows of a section that differ, by their places.
pub fn changed_rows<'a>(before: &'a [Row], after: &'a [Row]) -> Vec<Pair<'a>> {
    let (mut before, mut after) = (before.iter().peekable(), after.iter().peekable());
    let mut pairs = Vec::new();
    loop {
        let pair = match (before.peek(), after.peek()) {
            (None, None) => return pairs,
            (Some(old), Some(new)) if old.place == new.place => (before.next(), after.next()),
            (Some(old), Some(new)) if new.place < old.place => (None, after.next()),
            (Some(_), _) => (before.next(), None),
            (None, Some(_)) => (None, after.next()),
        };
        if pair.0 != pair.1 {
            pairs.push(pair);
        }
    }
}

/// Every change, in the order of the sections.
pub fn changes(before: &View, after: &View) -> Vec<Change> {
    before
        .iter()
        .zip(after)
        .flat_map(|(before, after)| changed_rows(&before.rows, &after.rows))
        .flat_map(|(before, after)| row_changes(before, after))
        .collect()
}

/// The changes of one row: cells that came or are different, then those that went.
fn row_changes(before: Option<&Row>, after: Option<&Row>) -> Vec<Change> {
    let title = after.or(before).map_or("", |row| &row.title);
    let of = |row: Option<&Row>, name: &str| row.and_then(|row| row.cell(name)).cloned();
    let names = |row: Option<&Row>| {
        let cells = row.map_or(&[][..], |row| &row.cells);
        cells
            .iter()
            .map(|cell| cell.name.clone())
            .collect::<Vec<_>>()
    };
    let gone = names(before)
        .into_iter()
        .filter(|name| of(after, name).is_none());
    names(after)
        .into_iter()
        .chain(gone)
        .filter(|name| !name.is_empty() && name != FOLLOWS)
        .filter(|name| of(before, name) != of(after, name))
        .map(|name| Change {
            row: title.to_string(),
            before: value(of(before, &name)),
            after: value(of(after, &name)),
            cell: name,
        })
        .collect()
}

/// A cell's items as text; a cell may be there without any, or not be there.
fn value(cell: Option<Cell>) -> String {
    match cell {
        None => "–".to_string(),
        Some(cell) if cell.items.is_empty() => "listed".to_string(),
        Some(cell) => cell.value(),
    }
}

#[cfg(test)]
mod tests {
    use super::*;
    use crate::cells::Section;

    fn view(rows: Vec<Row>) -> View {
        vec![Section {
            title: "Chains",
            rows,
        }]
    }

    #[test]
    fn cells_come_go_and_change() {
        let before = view(vec![
            Row::new(0, "chain 0", vec![Cell::new("page 0", [1, 2])]),
            Row::new(
                2,
                "chain 2",
                vec![Cell::new("next", ["a"]), Cell::new::<u32>("page 9", [])],
            ),
        ]);
        let after = view(vec![
            Row::new(0, "chain 0", vec![Cell::new("page 0", [1, 2])]),
            Row::new(1, "chain 1", vec![Cell::new("page 1", [3])]),
            Row::new(2, "chain 2", vec![Cell::new("page 8", ["x y", "z"])]),
        ]);
        let said: Vec<String> = changes(&before, &after)
            .iter()
            .map(Change::to_string)
            .collect();
        assert_eq!(
            said,
            [
                "chain 1, page 1: – → 3",
                "chain 2, page 8: – → x y, z",
                "chain 2, page 9: listed → –"
            ]
        );
        assert_eq!(changes(&after, &after), []);
    }
}
