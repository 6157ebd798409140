//! The root record: the sizes, and where the file has grown to.

use crate::cells::{Cell, Row};
use crate::memory::Memory;

/// Two rows; none before a format.
pub fn rows(memory: &Memory) -> Vec<Row> {
    let root = &memory.root;
    if root.originals == 0 {
        return Vec::new();
    }
    let cells = |named: &[(&str, u32)]| {
        let cell = |&(name, number): &(&str, u32)| Cell::new(name, [number]);
        named.iter().map(cell).collect()
    };
    let sizes = cells(&[
        ("N", root.originals),
        ("b", root.capacity),
        ("P", root.primaries),
        ("V", root.overflow),
        ("Q", root.parties),
    ]);
    let grown = cells(&[
        ("level", root.level),
        ("next", root.next),
        ("chains", memory.chain_count()),
        ("free pages", root.free),
    ]);
    vec![Row::new(0, "sizes", sizes), Row::new(1, "root", grown)]
}
