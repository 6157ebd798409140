//! Why words are no file at rest: the conditions of take-up, tested one after the other in plain Rust, so that the
//! first that fails can be named with its place. The library tests the same and says yes or no.

use crate::chains::{Page, MOST_LEVEL};
use crate::file::File;
use crate::memory::{Memory, Parts, PartyRecord};
use crate::mixing::mixed;
use crate::wait::Lock;
use std::fmt;

/// The first thing that keeps words from being a file at rest. Made by [`File::flaw`].
#[derive(Clone, Copy, Debug, PartialEq, Eq, Hash)]
#[non_exhaustive]
pub enum Flaw {
    /// The record of this party is not zero: its operation is under way.
    Party(u32),
    /// The lock word of the root or of a chain is not zero.
    Lock(Lock),
    /// This word of those who wait is not zero.
    Waiting(u32),
    /// The scratch page of this party is not zero.
    Scratch(u32),
    /// A number of the root record is outside its limits.
    Root(RootFlaw),
    /// A page of a chain is not as the library fills it.
    Chain {
        /// The chain.
        chain: u32,
        /// The page, its primary page or an overflow page.
        page: u32,
        /// What is wrong there.
        flaw: PageFlaw,
    },
    /// The primary page of a chain that there is not is not zero.
    Beyond(u32),
    /// The free list ends before the count of free pages, or goes on behind it.
    FreeCount,
    /// The free list leads to no overflow page.
    FreeLink,
    /// A free page is not zero but for its link.
    FreePage(u32),
    /// An overflow page is in two lists, or twice in one.
    Twice(u32),
    /// An overflow page is in no chain and not free.
    Lost(u32),
}

/// What is wrong in a root record.
#[derive(Clone, Copy, Debug, PartialEq, Eq, Hash)]
pub enum RootFlaw {
    /// The level is above 8.
    Level,
    /// The chain to split next is none of those that the level counts.
    Next,
    /// There are more chains than there may be.
    Chains,
    /// More pages are free than there are.
    Free,
}

/// What is wrong on a page of a chain.
#[derive(Clone, Copy, Debug, PartialEq, Eq, Hash)]
pub enum PageFlaw {
    /// The local level is another than the root record says; on an overflow page it is not 0.
    Level,
    /// It has more records than fit, fewer with another page behind it, or none on an overflow page.
    Count,
    /// Its link leads to no overflow page.
    Link,
    /// This key does not come after the one before it.
    Order(u32),
    /// This key is at home in another chain.
    Home(u32),
    /// A word that is not used is not zero.
    Unused,
}

impl fmt::Display for Flaw {
    fn fmt(&self, out: &mut fmt::Formatter<'_>) -> fmt::Result {
        match *self {
            Flaw::Party(party) => write!(out, "party {party} has an operation under way"),
            Flaw::Lock(lock) => write!(out, "the lock word of {lock} is not zero"),
            Flaw::Waiting(place) => write!(out, "word {place} of who waits is not zero"),
            Flaw::Scratch(party) => write!(out, "the scratch page of party {party} is not zero"),
            Flaw::Root(flaw) => flaw.fmt(out),
            Flaw::Chain { chain, page, flaw } => write!(out, "chain {chain}, page {page}: {flaw}"),
            Flaw::Beyond(page) => {
                write!(out, "page {page} is not zero, and there is no chain {page}")
            }
            Flaw::FreeCount => {
                out.write_str("the free list is not as long as the count of free pages")
            }
            Flaw::FreeLink => out.write_str("the free list leads to no overflow page"),
            Flaw::FreePage(page) => write!(out, "free page {page} is not zero but for its link"),
            Flaw::Twice(page) => write!(out, "overflow page {page} is in two places"),
            Flaw::Lost(page) => {
                write!(out, "overflow page {page} is in no chain and not free")
            }
        }
    }
}

impl fmt::Display for RootFlaw {
    fn fmt(&self, out: &mut fmt::Formatter<'_>) -> fmt::Result {
        out.write_str(match self {
            RootFlaw::Level => "the level is above 8",
            RootFlaw::Next => "next is not below the chains of the level",
            RootFlaw::Chains => "there are more chains than there may be",
            RootFlaw::Free => "more pages are free than there are",
        })
    }
}

impl fmt::Display for PageFlaw {
    fn fmt(&self, out: &mut fmt::Formatter<'_>) -> fmt::Result {
        match self {
            PageFlaw::Level => out.write_str("its level is another"),
            PageFlaw::Count => out.write_str("its count of records is another"),
            PageFlaw::Link => out.write_str("its link leads to no overflow page"),
            PageFlaw::Order(key) => write!(out, "key {key} does not come after the one before"),
            PageFlaw::Home(key) => write!(out, "key {key} is at home in another chain"),
            PageFlaw::Unused => out.write_str("a word that is not used is not zero"),
        }
    }
}

/// Why it is not at rest.
impl<M: Memory> File<M> {
    /// The first thing that keeps the file from being taken up: none exactly where [`take_up`](File::take_up) of its
    /// words passes.
    ///
    /// ```
    /// use bead_index::{File, Flaw, Operation, Sizes};
    ///
    /// # fn main() -> Result<(), bead_index::Error> {
    /// let mut file = File::new(Sizes::new())?;
    /// assert_eq!(file.flaw(), None);
    /// file.begin(3, Operation::find(7))?;
    /// assert_eq!(file.flaw(), Some(Flaw::Party(3)));
    /// assert_eq!(file.flaw().unwrap().to_string(), "party 3 has an operation under way");
    /// # Ok(())
    /// # }
    /// ```
    #[must_use]
    pub fn flaw(&self) -> Option<Flaw> {
        self.memory.parts().saved().err()
    }
}

/// The overflow pages met so far, by their place among them.
struct Met {
    first: u32,
    pages: Vec<bool>,
}

impl Met {
    /// Meets the page that a link names: its number, or what is wrong with the link.
    fn meet(&mut self, link: u32, astray: Flaw) -> Result<u32, Flaw> {
        let page = link.wrapping_sub(1);
        let place = page.wrapping_sub(self.first) as usize;
        match self.pages.get_mut(place) {
            None => Err(astray),
            Some(true) => Err(Flaw::Twice(page)),
            Some(met) => {
                *met = true;
                Ok(page)
            }
        }
    }
}

impl Parts<'_> {
    /// The conditions of take-up, one after the other.
    fn saved(self) -> Result<(), Flaw> {
        self.at_rest()?;
        self.root_sound().map_err(Flaw::Root)?;
        let root = self.root;
        let mut met = Met {
            first: root.primaries,
            pages: vec![false; root.overflow as usize],
        };
        let chains = (root.originals << root.level) + root.next;
        for chain in 0..chains {
            self.chain_saved(chain, &mut met)?;
        }
        self.zero(chains..root.primaries, Flaw::Beyond)?;
        self.free_list_saved(&mut met)?;
        match (root.primaries..).zip(&met.pages).find(|(_, met)| !**met) {
            Some((page, _)) => Err(Flaw::Lost(page)),
            None => Ok(()),
        }
    }

    /// Records, lock words, the row of who waits and scratch pages are zero.
    fn at_rest(self) -> Result<(), Flaw> {
        let is_zero = |record: &PartyRecord| *record == PartyRecord::default();
        if let Some(party) = self.parties.iter().position(|record| !is_zero(record)) {
            return Err(Flaw::Party(party as u32));
        }
        match self.locks.iter().position(|word| *word != 0) {
            Some(0) => return Err(Flaw::Lock(Lock::Root)),
            Some(place) => return Err(Flaw::Lock(Lock::Chain(place as u32 - 1))),
            None => {}
        }
        if let Some(place) = self.waiting.iter().position(|word| *word != 0) {
            return Err(Flaw::Waiting(place as u32));
        }
        let first = self.root.primaries + self.root.overflow;
        self.zero(first..first + self.root.parties, |page| {
            Flaw::Scratch(page - first)
        })
    }

    /// Each of these pages is zero.
    fn zero(self, pages: std::ops::Range<u32>, flaw: impl Fn(u32) -> Flaw) -> Result<(), Flaw> {
        let mut pages = pages;
        match pages.find(|page| self.page(*page).words.iter().any(|word| *word != 0)) {
            Some(page) => Err(flaw(page)),
            None => Ok(()),
        }
    }

    /// Level, next, the number of chains and the free count are within their limits.
    fn root_sound(self) -> Result<(), RootFlaw> {
        let root = self.root;
        if root.level > MOST_LEVEL {
            return Err(RootFlaw::Level);
        }
        let counted = root.originals << root.level;
        if root.next >= counted {
            return Err(RootFlaw::Next);
        }
        if counted + root.next > root.primaries {
            return Err(RootFlaw::Chains);
        }
        if root.free > root.overflow {
            return Err(RootFlaw::Free);
        }
        Ok(())
    }

    /// A chain: at its local level, filled, its keys ascending and at home, and no page without a record behind it.
    fn chain_saved(self, chain: u32, met: &mut Met) -> Result<(), Flaw> {
        let root = self.root;
        let counted = root.originals << root.level;
        let level = root.level + u32::from(chain < root.next || chain >= counted);
        let home = |key| mixed(key) % (root.originals << level) == chain;
        let (mut number, mut last) = (chain, None);
        loop {
            let (page, primary) = (self.page(number), number == chain);
            let at = |flaw| Flaw::Chain {
                chain,
                page: number,
                flaw,
            };
            if page.level() != if primary { level } else { 0 } {
                return Err(at(PageFlaw::Level));
            }
            if !counts(page, root.capacity, primary) {
                return Err(at(PageFlaw::Count));
            }
            last = ascending(page, last, home).map_err(at)?;
            if page.behind().iter().any(|word| *word != 0) {
                return Err(at(PageFlaw::Unused));
            }
            if page.link() == 0 {
                return Ok(());
            }
            number = met.meet(page.link(), at(PageFlaw::Link))?;
        }
    }

    /// The free list has as many pages as the root record says, each zero but for its link.
    fn free_list_saved(self, met: &mut Met) -> Result<(), Flaw> {
        let mut link = self.root.head;
        for _ in 0..self.root.free {
            if link == 0 {
                return Err(Flaw::FreeCount);
            }
            let number = met.meet(link, Flaw::FreeLink)?;
            let page = self.page(number);
            link = page.link();
            let used = (0..)
                .zip(page.words)
                .find(|(place, word)| *place != 2 && **word != 0);
            if used.is_some() {
                return Err(Flaw::FreePage(number));
            }
        }
        if link == 0 {
            Ok(())
        } else {
            Err(Flaw::FreeCount)
        }
    }
}

/// Whether a page has as many records as it must: all that fit where another follows, and one where it is not the
/// first.
fn counts(page: Page<'_>, capacity: u32, primary: bool) -> bool {
    let least = match (page.link(), primary) {
        (0, true) => 0,
        (0, false) => 1,
        _ => capacity,
    };
    (least..=capacity).contains(&page.count())
}

/// The last key of a page, whose keys ascend from the last before it and are at home.
fn ascending(
    page: Page<'_>,
    mut last: Option<u32>,
    home: impl Fn(u32) -> bool,
) -> Result<Option<u32>, PageFlaw> {
    for record in page.records() {
        let key = record[0];
        if last.map_or(false, |last| key <= last) {
            return Err(PageFlaw::Order(key));
        }
        if !home(key) {
            return Err(PageFlaw::Home(key));
        }
        last = Some(key);
    }
    Ok(last)
}
