//! The free list, in its order: the first page is the one taken next.

use crate::cells::{Cell, Row};
use crate::memory::{linked, Memory};

/// The fewest pages in ascending order that are shown as one run.
const SHORTEST_RUN: u32 = 9;

/// One row; none before a format.
pub fn rows(memory: &Memory) -> Vec<Row> {
    if memory.root.originals == 0 {
        return Vec::new();
    }
    let pages = memory.pages_from(linked(memory.root.head));
    let numbers: Vec<u32> = pages.iter().map(|page| page.number).collect();
    let cells = match numbers[..] {
        [] => vec![Cell::new("none", ["no page is free"])],
        _ => runs(&numbers).into_iter().flat_map(cells_of_run).collect(),
    };
    vec![Row::new(0, "free list", cells)]
}

/// The runs of a list, each its first number and its length.
fn runs(numbers: &[u32]) -> Vec<(u32, u32)> {
    let mut runs: Vec<(u32, u32)> = Vec::new();
    for &number in numbers {
        match runs.last_mut() {
            Some((first, length)) if *first + *length == number => *length += 1,
            _ => runs.push((number, 1)),
        }
    }
    runs
}

fn cells_of_run((first, length): (u32, u32)) -> Vec<Cell> {
    let named = |name: String| Cell::new::<u32>(name, []);
    if length >= SHORTEST_RUN {
        vec![named(format!("pages {first} to {}", first + length - 1))]
    } else {
        (first..first + length)
            .map(|page| named(format!("page {page}")))
            .collect()
    }
}

#[cfg(test)]
mod tests {
    use super::*;

    #[test]
    fn long_runs_are_one_cell() {
        assert_eq!(runs(&[3, 4, 2, 9, 10, 11]), [(3, 2), (2, 1), (9, 3)]);
        assert_eq!(cells_of_run((5, 2)).len(), 2);
        assert_eq!(cells_of_run((5, 20))[0].name, "pages 5 to 24");
    }
}
