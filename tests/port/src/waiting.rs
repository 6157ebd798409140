//! The row of who waits (document 02, change 7): party numbers plus one in the order in which they came to wait, 0 behind
//! the last. Whether it is sound, where a party stands in it, and what a call makes of it.

use crate::damage::{refuse_if, Cause, Damage};
use crate::locks::Mode;
use crate::memory::{Party, Root, DELETE, FIND, INSERT};

/// A lock requested: its word and the mode. The chain of another's damaged record may be any number.
#[derive(Clone, Copy, Debug, PartialEq, Eq)]
pub struct Request {
    pub word: u64,
    pub mode: Mode,
}

impl Request {
    /// Whether both are for the same word, in modes that Table I keeps apart.
    #[inline]
    pub fn conflicts_with(self, other: Request) -> bool {
        self.word == other.word && !self.mode.beside(other.mode)
    }
}

/// Where a party stands: whether it is in the row, and whether an earlier request there conflicts with its own.
#[derive(Clone, Copy, Debug, Default, PartialEq, Eq)]
pub struct Place {
    pub waits: bool,
    pub behind: bool,
}

/// What a party's next step requests, or none: at 16 and 24 by the root as it stands.
#[inline]
pub fn requested(root: &Root, party: &Party) -> Option<Request> {
    let own = if party.operation == FIND {
        Mode::Read
    } else {
        Mode::Selective
    };
    let on_root = |mode| Some(Request { word: 0, mode });
    let on_chain = |chain: u32, mode| {
        let word = u64::from(chain) + 1;
        Some(Request { word, mode })
    };
    match (party.operation, party.step) {
        (FIND..=DELETE, 1) => on_root(Mode::Read),
        (FIND..=DELETE, 4 | 7) => on_chain(party.chain, own),
        (INSERT | DELETE, 13) => on_chain(party.chain, Mode::Exclusive),
        (INSERT, 15) => on_root(Mode::Selective),
        (INSERT, 16) if root.chains() != root.most_chains => on_chain(root.next, Mode::Selective),
        (DELETE, 23) => on_root(Mode::Exclusive),
        (DELETE, 24) if root.chains() != root.first_chains => {
            on_chain(root.merge_target(), Mode::Exclusive)
        }
        (DELETE, 25) => on_chain(party.other, Mode::Exclusive),
        _ => None,
    }
}

/// Where a party stands; "a word above Q, a repeat, a gap or a party whose next step requests no lock is damage". The
/// root record is sound.
#[inline]
pub fn place_of<D: Damage>(
    root: &Root,
    parties: &[Party],
    row: &[u32],
    number: u32,
) -> Result<Place, D> {
    if row.iter().fold(0, |any, word| any | word) == 0 {
        return Ok(Place::default());
    }
    look_through(root, parties, row, number)
}

/// The same, entry for entry.
#[inline(never)]
fn look_through<D: Damage>(
    root: &Root,
    parties: &[Party],
    row: &[u32],
    number: u32,
) -> Result<Place, D> {
    let wanted = requested(root, &parties[number as usize]);
    let count = row.iter().take_while(|word| **word != 0).count();
    let mut place = Place::default();
    for (at, &word) in row[..count].iter().enumerate() {
        refuse_if(word > root.parties, Cause::RowWordAbove)?;
        refuse_if(row[..at].contains(&word), Cause::RowTwice)?;
        let theirs = requested(root, &parties[word as usize - 1]);
        refuse_if(theirs.is_none(), Cause::RowNoRequest)?;
        place.waits |= word == number + 1;
        let conflict =
            matches!((wanted, theirs), (Some(own), Some(theirs)) if own.conflicts_with(theirs));
        place.behind |= !place.waits && conflict;
    }
    refuse_if(row[count..].iter().any(|word| *word != 0), Cause::RowGap)?;
    Ok(place)
}

/// "The first waiting call": the party goes behind the others. A sound row that it is not in has room.
#[inline]
pub fn join(row: &mut [u32], number: u32) {
    let first = row.iter_mut().find(|word| **word == 0);
    *first.expect("at most Q - 1 others wait") = number + 1;
}

/// "A grant or withdraw removes the party": those behind it move up.
#[inline]
pub fn leave(row: &mut [u32], number: u32) {
    if let Some(at) = row.iter().position(|word| *word == number + 1) {
        row[at..].rotate_left(1);
        *row.last_mut().expect("Q words") = 0;
    }
}
