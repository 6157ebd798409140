//! The chains of a file as they stand in its pages: the records at rest, and what `Debug` shows.

use crate::error::{Error, Refusal};
use crate::memory::Parts;
use crate::sizes::PAGE_WORDS;
use std::fmt;
use std::iter::{Flatten, FusedIterator};
use std::slice::ChunksExact;
use std::vec;

/// The highest level of a file: 256 chains from one.
pub(crate) const MOST_LEVEL: u32 = 8;

/// The place of a page's first record, and the words that a record takes: its key, then its setting.
const FIRST_RECORD: usize = 3;
const RECORD_WORDS: usize = 2;

/// One page of a chain.
#[derive(Clone, Copy)]
pub(crate) struct Page<'a> {
    pub words: &'a [u32],
}

impl<'a> Page<'a> {
    pub fn level(self) -> u32 {
        self.words[0]
    }

    pub fn count(self) -> u32 {
        self.words[1]
    }

    /// The number of the next page plus one, 0 for none.
    pub fn link(self) -> u32 {
        self.words[2]
    }

    /// The records, each as two words, where the count is sound.
    pub fn records(self) -> ChunksExact<'a, u32> {
        self.words[FIRST_RECORD..self.end()].chunks_exact(RECORD_WORDS)
    }

    /// The words behind the records, where the count is sound.
    pub fn behind(self) -> &'a [u32] {
        &self.words[self.end()..]
    }

    /// The place behind the last record.
    fn end(self) -> usize {
        FIRST_RECORD + RECORD_WORDS * self.count() as usize
    }
}

impl<'a> Parts<'a> {
    /// How many chains there are, where the root record is sound.
    pub(crate) fn chain_count(self) -> Result<u32, Refusal> {
        let root = self.root;
        if root.level > MOST_LEVEL || root.next >= root.originals << root.level {
            return Err(Refusal::Damage);
        }
        let count = (root.originals << root.level) + root.next;
        if count > root.primaries {
            return Err(Refusal::Damage);
        }
        Ok(count)
    }

    /// A party that has an operation under way.
    pub(crate) fn busy_party(self) -> Option<u32> {
        (0..)
            .zip(self.parties)
            .find(|(_, record)| record.operation != 0)
            .map(|(party, _)| party)
    }

    /// The records of a file at rest.
    pub(crate) fn records(self) -> Result<Records<'a>, Error> {
        if let Some(party) = self.busy_party() {
            return Err(Error::UnderWay { party });
        }
        let mut pages = Vec::new();
        for chain in 0..self.chain_count()? {
            pages.extend(self.chain(chain)?.into_iter().map(Page::records));
        }
        let left = pages.iter().map(ExactSizeIterator::len).sum();
        Ok(Records {
            records: pages.into_iter().flatten(),
            left,
        })
    }

    /// Whether no party has an operation under way.
    pub(crate) fn is_at_rest(self) -> bool {
        self.busy_party().is_none()
    }

    /// The page of a number below the number of pages.
    pub(crate) fn page(self, number: u32) -> Page<'a> {
        let start = PAGE_WORDS * number as usize;
        Page {
            words: &self.pages[start..start + PAGE_WORDS],
        }
    }

    /// The pages of a chain, the primary page first.
    fn chain(self, chain: u32) -> Result<Vec<Page<'a>>, Refusal> {
        let sizes = self.root.sizes();
        let overflow = sizes.most_chains..sizes.most_chains + sizes.overflow_pages;
        let mut pages = Vec::new();
        let mut number = chain;
        loop {
            let page = self.page(number);
            if page.count() > sizes.records_a_page || pages.len() > overflow.len() {
                return Err(Refusal::Damage);
            }
            pages.push(page);
            if page.link() == 0 {
                return Ok(pages);
            }
            number = page.link() - 1;
            if !overflow.contains(&number) {
                return Err(Refusal::Damage);
            }
        }
    }

    /// Shows the file: its root record, its chains, and the operations under way.
    pub(crate) fn show(self, out: &mut fmt::Formatter<'_>) -> fmt::Result {
        let root = self.root;
        let (n, b, p, v, q) = (
            root.originals,
            root.capacity,
            root.primaries,
            root.overflow,
            root.parties,
        );
        let count = self.chain_count().unwrap_or(p);
        let chains: Vec<_> = (0..count)
            .map(|chain| ChainShown { parts: self, chain })
            .collect();
        let under_way = |party| Some(format!("{party}: {}", self.under_way(party)?));
        out.debug_struct("File")
            .field("sizes", &format_args!("N {n} b {b} P {p} V {v} Q {q}"))
            .field("level", &root.level)
            .field("next", &root.next)
            .field("free", &root.free)
            .field("chains", &chains)
            .field(
                "under_way",
                &(0..q).filter_map(under_way).collect::<Vec<_>>(),
            )
            .finish()
    }
}

/// A chain as `Debug` shows it: its number, its local level and its records, with a bar between pages.
struct ChainShown<'a> {
    parts: Parts<'a>,
    chain: u32,
}

impl fmt::Debug for ChainShown<'_> {
    fn fmt(&self, out: &mut fmt::Formatter<'_>) -> fmt::Result {
        write!(out, "{}", self.chain)?;
        let pages = match self.parts.chain(self.chain) {
            Ok(pages) => pages,
            Err(_) => return out.write_str(" damaged"),
        };
        write!(out, " (level {}):", pages[0].level())?;
        if pages.iter().all(|page| page.count() == 0) {
            return out.write_str(" empty");
        }
        for (number, page) in pages.into_iter().enumerate() {
            if number > 0 {
                out.write_str(" |")?;
            }
            for record in page.records() {
                write!(out, " {}={}", record[0], record[1])?;
            }
        }
        Ok(())
    }
}

/// The keys of a file at rest with their settings, chain by chain, keys ascending in each. Made by
/// [`File::records`](crate::File::records).
#[derive(Clone, Debug)]
pub struct Records<'a> {
    records: Flatten<vec::IntoIter<ChunksExact<'a, u32>>>,
    left: usize,
}

impl Iterator for Records<'_> {
    /// A key and its setting.
    type Item = (u32, u32);

    fn next(&mut self) -> Option<(u32, u32)> {
        let record = self.records.next()?;
        self.left -= 1;
        Some((record[0], record[1]))
    }

    fn size_hint(&self) -> (usize, Option<usize>) {
        (self.left, Some(self.left))
    }
}

impl ExactSizeIterator for Records<'_> {}

impl FusedIterator for Records<'_> {}
