//! The locks that are held or wanted.

use crate::cells::{Cell, Row};
use crate::memory::{Memory, Request};
use bead_index::{Lock, Mode};

/// Who holds a lock. In a lock word bits 0 to 15 are the readers, bits 16 to 20 the selective holder plus one, bits 21
/// to 25 the exclusive holder plus one.
struct Holders {
    word: u32,
}

impl Holders {
    fn readers(&self) -> Vec<u32> {
        (0..16)
            .filter(|party| self.word >> party & 1 == 1)
            .collect()
    }

    fn selective(&self) -> Option<u32> {
        (self.word >> 16 & 31).checked_sub(1)
    }

    fn exclusive(&self) -> Option<u32> {
        (self.word >> 21 & 31).checked_sub(1)
    }

    fn modes_of(&self, party: u32) -> Vec<Mode> {
        let mut modes = Vec::new();
        modes.extend(self.readers().contains(&party).then_some(Mode::Read));
        modes.extend((self.selective() == Some(party)).then_some(Mode::Selective));
        modes.extend((self.exclusive() == Some(party)).then_some(Mode::Exclusive));
        modes
    }
}

/// The lock of a lock word's number: the root's is word 0, that of chain c word c + 1.
fn lock(number: u32) -> Lock {
    number.checked_sub(1).map_or(Lock::Root, Lock::Chain)
}

/// A lock in short.
fn name(lock: Lock) -> String {
    match lock {
        Lock::Root => "root".to_string(),
        chain => chain.to_string(),
    }
}

/// A lock and a mode in short.
pub fn claim((lock, mode): (Lock, Mode)) -> String {
    format!("{} {mode}", name(lock))
}

/// The locks that a party holds.
pub fn held_by(memory: &Memory, party: u32) -> Vec<String> {
    (0..)
        .zip(&memory.locks)
        .filter(|(_, &word)| word != 0)
        .flat_map(|(number, &word)| {
            let modes = Holders { word }.modes_of(party);
            modes
                .into_iter()
                .map(move |mode| claim((lock(number), mode)))
        })
        .collect()
}

/// A row for each lock that is held or wanted.
pub fn rows(memory: &Memory, requests: &[Request]) -> Vec<Row> {
    (0..)
        .zip(&memory.locks)
        .filter_map(|(number, &word)| {
            let wanted = wanted_by(lock(number), requests);
            if word == 0 && wanted.is_empty() {
                return None;
            }
            let holders = Holders { word };
            let cells = vec![
                Cell::unless_empty("read", holders.readers()),
                Cell::unless_empty("selective", holders.selective()),
                Cell::unless_empty("exclusive", holders.exclusive()),
                Cell::unless_empty("wanted", wanted),
            ];
            Some(Row::new(
                number,
                format!("{} lock", name(lock(number))),
                cells,
            ))
        })
        .collect()
}

/// Who wants a lock, and how.
fn wanted_by(lock: Lock, requests: &[Request]) -> Vec<String> {
    (0..)
        .zip(requests)
        .filter_map(|(party, request): (u32, _)| match request.wanted {
            Some((wanted, mode)) if wanted == lock => Some(format!("{mode} by {party}")),
            _ => None,
        })
        .collect()
}

#[cfg(test)]
mod tests {
    use super::*;

    #[test]
    fn a_lock_word_says_who_holds_it() {
        let holders = Holders {
            word: 0b101 | 4 << 16,
        };
        assert_eq!(holders.readers(), [0, 2]);
        assert_eq!((holders.selective(), holders.exclusive()), (Some(3), None));
        assert_eq!(holders.modes_of(3), [Mode::Selective]);
        assert_eq!(Holders { word: 1 << 21 }.exclusive(), Some(0));
        assert_eq!(claim((lock(0), Mode::Read)), "root read");
        assert_eq!(claim((lock(3), Mode::Exclusive)), "chain 2 exclusive");
    }
}
