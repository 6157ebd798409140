//! One line of a script as text, in aligned columns. A star stands before what the line changed.

use crate::cells::{Cell, Row, Section, View};
use crate::changes::{changed_rows, changes};
use crate::run::{self, Turn};
use crate::script::Script;
use std::fmt::Write;

/// The text for a line, counted from 1.
pub fn of(script: &Script, number: usize) -> Result<String, String> {
    let (mut before, mut count, mut shown) = (run::start(), 0, None);
    for turn in run::turns(script) {
        count += 1;
        if count == number {
            shown = Some(body(&before, &turn));
        }
        before = turn.view;
    }
    match shown {
        Some(body) => Ok(format!("{}, line {number} of {count}\n{body}", script.name)),
        None => Err(format!(
            "there is no line {number}: {} has {count}",
            script.name
        )),
    }
}

fn body(before: &View, turn: &Turn) -> String {
    let mut out = String::new();
    for (name, text) in [
        ("form", &turn.form),
        ("reply", &turn.reply),
        ("meaning", &turn.meaning),
    ] {
        let _ = writeln!(out, "  {}", format!("{name:8} {text}").trim_end());
    }
    let is_new = turn.kind == "formatted";
    for (before, after) in before.iter().zip(&turn.view) {
        write_section(&mut out, before, after, is_new);
    }
    out.push_str("\nWhat changed\n");
    let changes = changes(before, &turn.view);
    let lines: Vec<String> = match changes[..] {
        _ if is_new => vec!["everything: a new file".to_string()],
        [] => vec!["nothing".to_string()],
        _ => changes.iter().map(ToString::to_string).collect(),
    };
    for line in lines {
        let _ = writeln!(out, "  {line}");
    }
    out
}

fn write_section(out: &mut String, before: &Section, after: &Section, is_new: bool) {
    let _ = writeln!(out, "\n{}", after.title);
    if after.rows.is_empty() {
        out.push_str("  none\n");
    }
    let changed: Vec<u32> = changed_rows(&before.rows, &after.rows)
        .into_iter()
        .filter_map(|(_, row)| row.map(|row| row.place))
        .collect();
    let widths = widths(&after.rows);
    for row in &after.rows {
        let is_marked = !is_new && changed.contains(&row.place);
        let mut line = if is_marked { "* " } else { "  " }.to_string();
        for (text, &width) in texts(row).iter().zip(&widths) {
            if width > 0 {
                let _ = write!(line, "{text:width$}  ");
            }
        }
        let _ = writeln!(out, "{}", line.trim_end());
    }
}

/// The title and the cells of a row as text.
fn texts(row: &Row) -> Vec<String> {
    let mut texts = vec![row.title.clone()];
    texts.extend(row.cells.iter().map(cell_text));
    texts
}

fn cell_text(cell: &Cell) -> String {
    if cell.items.is_empty() {
        cell.name.clone()
    } else {
        format!("{}: {}", cell.name, cell.value())
    }
}

/// The width of each column: that of its widest text.
fn widths(rows: &[Row]) -> Vec<usize> {
    let mut widths = Vec::new();
    for row in rows {
        for (column, text) in texts(row).iter().enumerate() {
            if column == widths.len() {
                widths.push(0);
            }
            widths[column] = widths[column].max(text.chars().count());
        }
    }
    widths
}
