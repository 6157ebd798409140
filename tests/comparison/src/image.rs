//! The lent memory as words, with guard words before and after each part so that a write outside it shows.

use bead_port::memory::{Party, Root, LINK, PARTY_WORDS, ROOT_WORDS};
use std::ops::{Deref, DerefMut};

const GUARD_WORDS: usize = 16;
const GUARD: u32 = 0xfeed_face;

/// One lent part: the words between its guards.
#[derive(Clone, Debug, PartialEq, Eq)]
pub struct Part {
    words: Vec<u32>,
}

impl Part {
    pub fn new(lent: &[u32]) -> Part {
        let guard = [GUARD; GUARD_WORDS];
        Part {
            words: [&guard, lent, &guard].concat(),
        }
    }

    /// The first place where the two differ, counted from the first lent word, with both values.
    pub fn first_difference(&self, other: &Part) -> Option<(isize, u32, u32)> {
        let place = self
            .words
            .iter()
            .zip(&other.words)
            .position(|(ours, theirs)| ours != theirs)?;
        Some((
            place as isize - GUARD_WORDS as isize,
            self.words[place],
            other.words[place],
        ))
    }

    pub fn copy_from(&mut self, other: &Part) {
        self.words.clone_from(&other.words);
    }
}

impl Deref for Part {
    type Target = [u32];

    fn deref(&self) -> &[u32] {
        &self.words[GUARD_WORDS..self.words.len() - GUARD_WORDS]
    }
}

impl DerefMut for Part {
    fn deref_mut(&mut self) -> &mut [u32] {
        let end = self.words.len() - GUARD_WORDS;
        &mut self.words[GUARD_WORDS..end]
    }
}

/// The names of the five parts, in the order of `Image::parts`.
pub const PART_NAMES: [&str; 5] = ["root", "parties", "locks", "pages", "row"];

/// The whole lent memory.
#[derive(Clone, Debug, PartialEq, Eq)]
pub struct Image {
    pub root: Part,
    pub parties: Part,
    pub locks: Part,
    pub pages: Part,
    /// Who waits.
    pub row: Part,
}

impl Image {
    /// Memory of zeros with so many party records, lock words, page words and words of who waits.
    pub fn zero(parties: usize, locks: usize, page_words: usize, row: usize) -> Image {
        let zeros = |length| Part::new(&vec![0; length]);
        Image {
            root: zeros(ROOT_WORDS),
            parties: zeros(PARTY_WORDS * parties),
            locks: zeros(locks),
            pages: zeros(page_words),
            row: zeros(row),
        }
    }

    /// Memory of zeros of the lengths that allowed sizes ask for.
    pub fn for_sizes(sizes: [u32; 5]) -> Image {
        let [_, _, p, v, q] = sizes.map(|size| size as usize);
        Image::zero(q, p + 1, 16 * (p + v + q), q)
    }

    pub fn parts(&self) -> [&Part; 5] {
        [
            &self.root,
            &self.parties,
            &self.locks,
            &self.pages,
            &self.row,
        ]
    }

    pub fn parts_mut(&mut self) -> [&mut Part; 5] {
        [
            &mut self.root,
            &mut self.parties,
            &mut self.locks,
            &mut self.pages,
            &mut self.row,
        ]
    }

    pub fn party_count(&self) -> usize {
        self.parties.len() / PARTY_WORDS
    }

    pub fn root_record(&self) -> Root {
        Root::from_words(self.root[..].try_into().expect("the words of a record"))
    }

    pub fn set_root(&mut self, root: Root) {
        self.root.copy_from_slice(&root.words());
    }

    pub fn party(&self, number: u32) -> Party {
        let words = &self.parties[PARTY_WORDS * number as usize..][..PARTY_WORDS];
        Party::from_words(words.try_into().expect("the words of a record"))
    }

    pub fn party_records(&self) -> Vec<Party> {
        (0..self.party_count() as u32)
            .map(|number| self.party(number))
            .collect()
    }

    pub fn set_party(&mut self, number: u32, party: Party) {
        self.parties[PARTY_WORDS * number as usize..][..PARTY_WORDS]
            .copy_from_slice(&party.words());
    }

    pub fn page(&self, number: u32) -> &[u32; 16] {
        let words = &self.pages[16 * number as usize..][..16];
        words.try_into().expect("sixteen words")
    }

    pub fn page_mut(&mut self, number: u32) -> &mut [u32; 16] {
        let words = &mut self.pages[16 * number as usize..][..16];
        words.try_into().expect("sixteen words")
    }

    /// The page so many links on from a page, or the last before the links lead to no overflow page.
    pub fn follow(&self, page: u32, links: u32) -> u32 {
        let root = self.root_record();
        let mut page = page;
        for _ in 0..links {
            let link = self.page(page)[LINK];
            page = if root.links_overflow(link) {
                link - 1
            } else {
                page
            };
        }
        page
    }

    pub fn copy_from(&mut self, other: &Image) {
        self.root.copy_from(&other.root);
        self.parties.copy_from(&other.parties);
        self.locks.copy_from(&other.locks);
        self.pages.copy_from(&other.pages);
        self.row.copy_from(&other.row);
    }
}
