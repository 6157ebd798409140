//! What is shown, before it is text or a page: sections of rows, rows of cells. The text and the page show the same
//! names and items, in the same order.

/// A name and what stands under it, such as `page 9` and its records. A cell without a name only keeps a column's place.
#[derive(Clone, Debug, Default, PartialEq, Eq, Hash)]
pub struct Cell {
    pub name: String,
    pub items: Vec<String>,
}

impl Cell {
    /// A cell that is there whatever stands in it.
    pub fn new<I: ToString>(name: impl ToString, items: impl IntoIterator<Item = I>) -> Self {
        Cell {
            name: name.to_string(),
            items: items.into_iter().map(|item| item.to_string()).collect(),
        }
    }

    /// A cell that only keeps its place where there are no items.
    pub fn unless_empty<I: ToString>(name: &str, items: impl IntoIterator<Item = I>) -> Self {
        let cell = Cell::new(name, items);
        if cell.items.is_empty() {
            Cell::default()
        } else {
            cell
        }
    }

    /// The items as text: with commas where one of them is of several words.
    pub fn value(&self) -> String {
        let wordy = self.items.iter().any(|item| item.contains(' '));
        self.items.join(if wordy { ", " } else { " " })
    }
}

/// One thing that is shown: a party, a lock, a chain.
#[derive(Clone, Debug, PartialEq, Eq)]
pub struct Row {
    /// Its place in the section: rows ascend by it, and a row has the same one at every line.
    pub place: u32,
    pub title: String,
    pub cells: Vec<Cell>,
}

impl Row {
    pub fn new(place: u32, title: impl ToString, cells: Vec<Cell>) -> Self {
        Row {
            place,
            title: title.to_string(),
            cells,
        }
    }

    /// The cell of a name.
    pub fn cell(&self, name: &str) -> Option<&Cell> {
        self.cells.iter().find(|cell| cell.name == name)
    }
}

/// Rows under a heading.
#[derive(Clone, Debug, PartialEq, Eq)]
pub struct Section {
    pub title: &'static str,
    pub rows: Vec<Row>,
}

/// All that is shown of the file at a line: always the same sections.
pub type View = Vec<Section>;
