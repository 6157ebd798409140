//! The memory of a file: its records, its five parts, and who owns them.

use crate::error::Refusal;
use crate::sizes::Sizes;
use crate::sys::{records, records_mut};

/// The root record of a file.
#[repr(C)]
#[derive(Clone, Copy, Debug, Default, PartialEq, Eq)]
pub struct RootRecord {
    /// The original chains (N).
    pub originals: u32,
    /// The most records on a page (b).
    pub capacity: u32,
    /// The primary pages, one a chain (P).
    pub primaries: u32,
    /// The overflow pages (V).
    pub overflow: u32,
    /// The parties (Q).
    pub parties: u32,
    /// How often the file has doubled.
    pub level: u32,
    /// The chain that splits next.
    pub next: u32,
    /// The number of the first free page plus one, 0 for none.
    pub head: u32,
    /// How many overflow pages are free.
    pub free: u32,
}

/// A party's record.
#[repr(C)]
#[derive(Clone, Copy, Debug, Default, PartialEq, Eq)]
pub struct PartyRecord {
    /// The operation: 0 idle, 1 find, 2 insert, 3 delete.
    pub operation: u32,
    /// The operation's key.
    pub key: u32,
    /// The number of the next step, 1 to 30.
    pub step: u32,
    /// The level that the party goes by.
    pub lev: u32,
    /// The chain that it holds or wants.
    pub chain: u32,
    /// The chain to be left at step 8, a split's new chain or a merge's partner.
    pub other: u32,
    /// The first page to be given back plus one, 0 for none.
    pub old: u32,
    /// The restructuring owed: 0 none, 1 split, 2 merge, 3 split made.
    pub owed: u32,
    /// The answer so far: 0 none, 1 inserted, 2 present, 3 deleted, 4 absent, 5 no page.
    pub answer: u32,
    /// An insert's setting, else 0.
    pub setting: u32,
}

impl RootRecord {
    /// The words that a record takes.
    pub const WORDS: usize = 9;

    /// The sizes in the record.
    pub const fn sizes(&self) -> Sizes {
        Sizes::new()
            .original_chains(self.originals)
            .records_a_page(self.capacity)
            .most_chains(self.primaries)
            .overflow_pages(self.overflow)
            .parties(self.parties)
    }
}

impl PartyRecord {
    /// The words that a record takes.
    pub const WORDS: usize = 10;
}

/// The five parts of a file's memory, lent for writing.
///
/// ```
/// use bead_index::{FileRef, Lent, PartyRecord, RootRecord, Sizes};
///
/// let sizes = Sizes::new().most_chains(4).overflow_pages(3).parties(1);
/// let mut root = RootRecord::default();
/// let mut parties = [PartyRecord::default(); 1];
/// let mut locks = [0; 5];
/// let mut pages = [0; 128];
/// let mut waiting = [0; 1];
/// let lent = Lent {
///     root: &mut root,
///     parties: &mut parties,
///     locks: &mut locks,
///     pages: &mut pages,
///     waiting: &mut waiting,
/// };
/// let mut file = FileRef::format_parts(lent, sizes)?;
/// assert_eq!(file.insert(7, 40), Ok(true));
/// # Ok::<(), bead_index::Refusal>(())
/// ```
#[derive(Debug)]
pub struct Lent<'a> {
    /// The root record.
    pub root: &'a mut RootRecord,
    /// The parties' records.
    pub parties: &'a mut [PartyRecord],
    /// The lock words.
    pub locks: &'a mut [u32],
    /// The page words.
    pub pages: &'a mut [u32],
    /// Who waits: party numbers plus one, first come first, 0 behind the last.
    pub waiting: &'a mut [u32],
}

impl<'a> Lent<'a> {
    /// The parts of a row of words, for these sizes.
    pub(crate) fn of_words(words: &'a mut [u32], sizes: &Sizes) -> Result<Self, Refusal> {
        sizes.check()?;
        if words.len() != sizes.words() {
            return Err(Refusal::Length);
        }
        let (root, rest) = words.split_at_mut(RootRecord::WORDS);
        let (parties, rest) = rest.split_at_mut(PartyRecord::WORDS * sizes.party_records());
        let (locks, rest) = rest.split_at_mut(sizes.lock_words());
        let (pages, waiting) = rest.split_at_mut(sizes.page_words());
        Ok(Lent {
            root: &mut records_mut(root)[0],
            parties: records_mut(parties),
            locks,
            pages,
            waiting,
        })
    }

    /// Whether the lengths are those that the sizes in the root record ask for.
    pub(crate) fn check(&self) -> Result<(), Refusal> {
        let sizes = self.root.sizes();
        sizes.check()?;
        let lengths = [
            self.parties.len(),
            self.locks.len(),
            self.pages.len(),
            self.waiting.len(),
        ];
        if lengths
            == [
                sizes.party_records(),
                sizes.lock_words(),
                sizes.page_words(),
                sizes.waiting_words(),
            ]
        {
            Ok(())
        } else {
            Err(Refusal::Length)
        }
    }
}

/// The five parts of a file's memory, lent for reading.
#[derive(Clone, Copy)]
pub struct Parts<'a> {
    pub root: &'a RootRecord,
    pub parties: &'a [PartyRecord],
    pub locks: &'a [u32],
    pub pages: &'a [u32],
    pub waiting: &'a [u32],
}

/// Memory that the file owns, as one row of words.
#[derive(Clone, Debug)]
pub struct Owned {
    words: Vec<u32>,
}

impl Owned {
    /// The words, where their root record's sizes are within their limits and ask for as many.
    pub(crate) fn of_words(mut words: Vec<u32>) -> Result<Self, Refusal> {
        let sizes = sizes_of(&words)?;
        Lent::of_words(&mut words, &sizes)?;
        Ok(Owned { words })
    }

    pub(crate) fn words(&self) -> &[u32] {
        &self.words
    }

    pub(crate) fn into_words(self) -> Vec<u32> {
        self.words
    }
}

/// The sizes in the root record that a row of words begins with.
pub(crate) fn sizes_of(words: &[u32]) -> Result<Sizes, Refusal> {
    let root: &RootRecord = records(words).first().ok_or(Refusal::Length)?;
    Ok(root.sizes())
}

/// What a file is taken up from: a vector, which the file then owns, or words that the caller lends.
pub trait Words {
    /// What the file keeps them in.
    type Memory: Memory;

    /// The words as a file's memory, of the length that their root record asks for.
    ///
    /// # Errors
    /// [`Refusal::Size`] and [`Refusal::Length`].
    fn into_memory(self) -> Result<Self::Memory, Refusal>;
}

impl Words for Vec<u32> {
    type Memory = Owned;

    fn into_memory(self) -> Result<Owned, Refusal> {
        Owned::of_words(self)
    }
}

impl<'a> Words for &'a mut [u32] {
    type Memory = Lent<'a>;

    fn into_memory(self) -> Result<Lent<'a>, Refusal> {
        let sizes = sizes_of(self)?;
        Lent::of_words(self, &sizes)
    }
}

impl<'a> Words for &'a mut Vec<u32> {
    type Memory = Lent<'a>;

    fn into_memory(self) -> Result<Lent<'a>, Refusal> {
        self.as_mut_slice().into_memory()
    }
}

/// What a [`File`](crate::File) keeps its words in: [`Owned`] or [`Lent`].
pub trait Memory: Room {}

impl<R: Room> Memory for R {}

/// How the parts of a memory are reached. Its lengths are always those that its root record asks for.
pub trait Room {
    fn parts(&self) -> Parts<'_>;
    fn lent(&mut self) -> Lent<'_>;
}

impl Room for Lent<'_> {
    fn parts(&self) -> Parts<'_> {
        Parts {
            root: self.root,
            parties: self.parties,
            locks: self.locks,
            pages: self.pages,
            waiting: self.waiting,
        }
    }

    fn lent(&mut self) -> Lent<'_> {
        Lent {
            root: self.root,
            parties: self.parties,
            locks: self.locks,
            pages: self.pages,
            waiting: self.waiting,
        }
    }
}

impl Room for Owned {
    fn parts(&self) -> Parts<'_> {
        let (root, rest) = self.words.split_at(RootRecord::WORDS);
        let root: &RootRecord = &records(root)[0];
        let sizes = root.sizes();
        let (parties, rest) = rest.split_at(PartyRecord::WORDS * sizes.party_records());
        let (locks, rest) = rest.split_at(sizes.lock_words());
        let (pages, waiting) = rest.split_at(sizes.page_words());
        Parts {
            root,
            parties: records(parties),
            locks,
            pages,
            waiting,
        }
    }

    fn lent(&mut self) -> Lent<'_> {
        let sizes = self.parts().root.sizes();
        Lent::of_words(&mut self.words, &sizes).expect("no call alters a size")
    }
}

#[cfg(test)]
mod tests {
    use super::*;

    /// A row of words in which each word is its own number, but for the sizes.
    fn numbered(sizes: &Sizes) -> Vec<u32> {
        let mut words: Vec<u32> = (0..).take(sizes.words()).collect();
        words[..5].copy_from_slice(&[
            sizes.original_chains,
            sizes.records_a_page,
            sizes.most_chains,
            sizes.overflow_pages,
            sizes.parties,
        ]);
        words
    }

    #[test]
    fn the_parts_of_a_row_stand_in_their_order() {
        let sizes = Sizes::new().most_chains(3).overflow_pages(2).parties(2);
        let mut owned = Owned::of_words(numbered(&sizes)).unwrap();
        let parts = owned.parts();
        assert_eq!((parts.root.level, parts.root.free), (5, 8));
        assert_eq!(
            (
                parts.parties.len(),
                parts.parties[0].operation,
                parts.parties[1].setting
            ),
            (2, 9, 28)
        );
        assert_eq!(
            (parts.locks, parts.pages.len(), parts.pages[0]),
            (&[29, 30, 31, 32][..], 112, 33)
        );
        assert_eq!(parts.waiting, [145, 146]);
        let lent = owned.lent();
        lent.waiting[1] = 7;
        assert_eq!(owned.words().last(), Some(&7));
    }

    #[test]
    fn a_row_of_another_length_is_refused() {
        let sizes = Sizes::new().most_chains(3).overflow_pages(2).parties(2);
        let words = numbered(&sizes);
        let refused = |words: &[u32]| Owned::of_words(words.to_vec()).unwrap_err();
        assert_eq!(refused(&words[1..]), Refusal::Size);
        assert_eq!(refused(&words[..words.len() - 1]), Refusal::Length);
        assert_eq!(refused(&words[..8]), Refusal::Length);
        assert_eq!(refused(&[words.as_slice(), &[0]].concat()), Refusal::Length);
    }
}
