//! The book (document 01, "The set book"; document 02, changes 1 and 2): a map of keys to settings, and for each operation under way what it must answer.

use crate::part::Outcome;
use bead_port::memory::{FIND, INSERT};
use bead_port::reply::{ABSENT, DELETED, FOUND, INSERTED, NO_PAGE, PRESENT};
use std::collections::BTreeMap;

/// An operation under way; a blank note is none.
#[derive(Clone, Copy)]
pub struct Entry {
    pub operation: u32,
    pub key: u32,
    setting: u32,
    note: Option<Note>,
}

/// An answer, and the setting where it is found, else 0.
#[derive(Clone, Copy, Debug, PartialEq, Eq)]
struct Note {
    answer: u32,
    setting: u32,
}

impl Note {
    /// An answer that carries no setting.
    fn plain(answer: u32) -> Option<Note> {
        Some(Note { answer, setting: 0 })
    }

    /// What a find notes of the setting that the map has for its key.
    fn of_find(there: Option<u32>) -> Option<Note> {
        there.map_or(Note::plain(ABSENT), |setting| {
            Some(Note {
                answer: FOUND,
                setting,
            })
        })
    }
}

/// "The book keeps a set of keys, at first empty, and for each operation under way its party, operation, key and note": the keys with their settings.
pub struct Book {
    settings: BTreeMap<u32, u32>,
    entries: Vec<Option<Entry>>,
}

impl Book {
    pub fn new(parties: u32) -> Book {
        Book {
            settings: BTreeMap::new(),
            entries: vec![None; parties as usize],
        }
    }

    pub fn settings(&self) -> &BTreeMap<u32, u32> {
        &self.settings
    }

    /// A party's operation under way; none for a party that is idle or not there.
    pub fn entry(&self, party: u32) -> Option<Entry> {
        self.entries.get(party as usize).copied().flatten()
    }

    /// The parties with an operation under way.
    pub fn under_way(&self) -> Vec<u32> {
        (0..self.entries.len() as u32)
            .filter(|party| self.entry(*party).is_some())
            .collect()
    }

    /// "Begin answered ok: enter it, note blank."
    pub fn begun(&mut self, party: u32, operation: u32, key: u32, setting: u32) {
        self.entries[party as usize] = Some(Entry {
            operation,
            key,
            setting,
            note: None,
        });
    }

    /// A step of this number was performed: 6 of a find, 10 and 11 note something, 11 changes the map: an insert of a present key keeps its setting.
    pub fn performed(&mut self, party: u32, step: u32) {
        if let Some(entry) = &mut self.entries[party as usize] {
            let there = self.settings.get(&entry.key).copied();
            match (step, entry.operation, there.is_some()) {
                (6, FIND, _) => entry.note = Note::of_find(there),
                (10, INSERT, true) => entry.note = Note::plain(PRESENT),
                (10, INSERT, false) => entry.note = Note::plain(NO_PAGE),
                (10, _, true) => entry.note = Note::plain(NO_PAGE),
                (10, _, false) => entry.note = Note::plain(ABSENT),
                (11, INSERT, there) => {
                    entry.note = Note::plain(if there { PRESENT } else { INSERTED });
                    self.settings.entry(entry.key).or_insert(entry.setting);
                }
                (11, _, there) => {
                    entry.note = Note::plain(if there { DELETED } else { ABSENT });
                    self.settings.remove(&entry.key);
                }
                _ => {}
            }
        }
    }

    /// "Its entry goes from the book with the withdraw."
    pub fn withdrawn(&mut self, party: u32) {
        self.entries[party as usize] = None;
    }

    /// "Done: the answer must be the note; the entry goes." Answers the entry.
    pub fn ended(&mut self, party: u32, answer: u32, setting: u32) -> Outcome<Entry> {
        let entry = self.entries[party as usize]
            .take()
            .ok_or("done without an operation under way")?;
        if entry.note == Some(Note { answer, setting }) {
            return Ok(entry);
        }
        Err(format!(
            "answer {answer}, setting {setting}, of operation {} on key {}, the book's note {:?}",
            entry.operation, entry.key, entry.note
        ))
    }
}

#[cfg(test)]
mod tests {
    use super::*;
    use bead_port::memory::DELETE;

    /// Party 1 inserts key 7 with a setting.
    fn insert(book: &mut Book, setting: u32, answer: u32) {
        book.begun(1, INSERT, 7, setting);
        book.performed(1, 10);
        book.performed(1, 11);
        assert!(book.ended(1, answer, 0).is_ok());
    }

    #[test]
    fn the_last_6_of_a_find_decides() {
        let mut book = Book::new(2);
        book.begun(0, FIND, 7, 0);
        book.performed(0, 6);
        insert(&mut book, 5, INSERTED);
        book.performed(0, 6);
        assert!(book.ended(0, FOUND, 5).is_ok());
    }

    #[test]
    fn a_present_key_keeps_its_setting() {
        let mut book = Book::new(2);
        insert(&mut book, 5, INSERTED);
        insert(&mut book, 6, PRESENT);
        for (setting, right) in [(5, true), (6, false), (0, false)] {
            book.begun(0, FIND, 7, 0);
            book.performed(0, 6);
            assert_eq!(book.ended(0, FOUND, setting).is_ok(), right);
        }
    }

    #[test]
    fn a_withdrawn_operation_is_none() {
        let mut book = Book::new(2);
        insert(&mut book, 5, INSERTED);
        book.begun(0, DELETE, 7, 0);
        book.performed(0, 10);
        book.withdrawn(0);
        assert!(book.entry(0).is_none() && book.settings().contains_key(&7));
    }

    #[test]
    fn a_wrong_answer_is_not_the_note() {
        let mut book = Book::new(1);
        book.begun(0, DELETE, 7, 0);
        book.performed(0, 10);
        assert!(book.ended(0, NO_PAGE, 0).is_err());
        book.begun(0, FIND, 7, 0);
        assert!(book.ended(0, ABSENT, 0).is_err());
        assert!(book.ended(0, ABSENT, 0).is_err());
        book.begun(0, FIND, 7, 0);
        book.performed(0, 6);
        assert!(book.ended(0, ABSENT, 5).is_err());
    }
}
