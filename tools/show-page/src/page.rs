//! The page: one file with its style, its script, and its data. The data has every line's texts, and for every line
//! only the cells that differ from the line before; the page puts them together again (page/state.js).

use crate::cells::{Cell, Row, View};
use crate::changes::{changed_rows, Pair};
use crate::json::{list, string};
use crate::run;
use crate::script::Script;
use std::collections::HashMap;

/// The page without its parts.
const FRAME: &str = include_str!("../page/page.html");

/// The parts, and the places in the page where they stand.
const PARTS: [(&str, &str); 6] = [
    ("/* page.css */", include_str!("../page/page.css")),
    ("/* state.js */", include_str!("../page/state.js")),
    ("/* draw.js */", include_str!("../page/draw.js")),
    ("/* arrows.js */", include_str!("../page/arrows.js")),
    ("/* strip.js */", include_str!("../page/strip.js")),
    ("/* moves.js */", include_str!("../page/moves.js")),
];

/// The page of a script.
pub fn of(script: &Script) -> String {
    let page = PARTS.iter().fold(FRAME.to_string(), |page, (place, part)| {
        page.replace(place, part)
    });
    page.replace("{{data}}", &data(script))
}

/// The data: the script's name, the sections' titles, every cell once, every line's texts, and every line's splices.
fn data(script: &Script) -> String {
    let mut before = run::start();
    let titles = list(before.iter().map(|section| string(section.title)));
    let mut cells = CellTable::default();
    let (mut lines, mut splices) = (Vec::new(), Vec::new());
    for turn in run::turns(script) {
        lines.push(list(
            [&turn.form, &turn.reply, turn.kind, &turn.meaning].map(string),
        ));
        splices.push(list(view_splices(&before, &turn.view, &mut cells)));
        before = turn.view;
    }
    format!(
        "{{\"script\":{},\n\"titles\":{titles},\n\"cells\":{},\n\"lines\":{},\n\"splices\":{}}}",
        string(&script.name),
        list(cells.written),
        list(lines),
        list(splices)
    )
}

/// Every different cell once, and the number of each.
#[derive(Default)]
struct CellTable {
    numbers: HashMap<Cell, usize>,
    written: Vec<String>,
}

impl CellTable {
    fn number(&mut self, cell: &Cell) -> usize {
        if let Some(&number) = self.numbers.get(cell) {
            return number;
        }
        let texts = std::iter::once(&cell.name).chain(&cell.items);
        self.written.push(list(texts.map(|text| string(text))));
        self.numbers.insert(cell.clone(), self.written.len() - 1);
        self.written.len() - 1
    }

    /// A row's title as a cell, then its cells; nothing where the row is not there.
    fn row(&mut self, row: Option<&Row>) -> Vec<usize> {
        row.map_or(Vec::new(), |row| {
            let mut numbers = vec![self.number(&Cell::new::<u32>(&row.title, []))];
            numbers.extend(row.cells.iter().map(|cell| self.number(cell)));
            numbers
        })
    }
}

/// What turns one line's rows into the next one's.
fn view_splices(before: &View, after: &View, cells: &mut CellTable) -> Vec<String> {
    let mut splices = Vec::new();
    for (number, (before, after)) in before.iter().zip(after).enumerate() {
        for pair in changed_rows(&before.rows, &after.rows) {
            splices.push(row_splice(number, pair, cells));
        }
    }
    splices
}

/// A row's change: section, place, how many cells stay at the start, how many go after those, and what comes there.
fn row_splice(section: usize, (before, after): Pair<'_>, cells: &mut CellTable) -> String {
    let place = before.or(after).map_or(0, |row| row.place) as usize;
    let (old, new) = (cells.row(before), cells.row(after));
    let start = alike(old.iter(), new.iter());
    let end = alike(old[start..].iter().rev(), new[start..].iter().rev());
    let mut numbers = vec![section, place, start, old.len() - start - end];
    numbers.extend(&new[start..new.len() - end]);
    list(numbers.iter().map(ToString::to_string))
}

/// How many numbers two rows begin with alike.
fn alike<'a>(old: impl Iterator<Item = &'a usize>, new: impl Iterator<Item = &'a usize>) -> usize {
    old.zip(new).take_while(|(old, new)| old == new).count()
}
