//! Take-up (document 02, changes 6 and 7): the conditions of a saved file. Each is a test of its own, over memory of allowed
//! sizes and fitting lengths, so that a comparison can tell which of them fail.

use crate::chains::{overflow_needed, page_of, records_on};
use crate::memory::{Page, Party, Record, Root, EMPTY_PAGE, LINK, LOCAL_LEVEL, RECORD_COUNT};
use crate::mixing::mixed;

macro_rules! conditions {
    ($($condition:ident $words:literal,)*) => {
        #[derive(Clone, Copy, Debug, PartialEq, Eq)]
        pub enum Condition { $($condition,)* }
        pub const CONDITIONS: &[(Condition, &str)] = &[$((Condition::$condition, $words),)*];
    };
}

conditions! {
    PartiesRest "party records are zero",
    LocksClear "lock words are zero",
    NobodyWaits "the row of who waits is zero",
    ScratchClear "scratch pages are zero",
    RootSound "level, next, n and free count are sound",
    ChainsSaved "each chain is at its level, filled, ascending and at home",
    BeyondClear "primary pages from n upward are zero",
    FreeSaved "the free list has its count of zeroed pages",
    PagesOnce "each overflow page is once in a list",
}

/// The lent memory of a file that is to be taken up.
pub struct Saved<'a> {
    pub root: &'a Root,
    pub parties: &'a [Party],
    pub locks: &'a [u32],
    pub pages: &'a [Page],
    pub row: &'a [u32],
}

/// A chain looked through whole: its records and the numbers of its overflow pages.
struct Chain {
    records: Vec<Record>,
    overflow: Vec<u32>,
}

impl Saved<'_> {
    /// Whether every condition holds.
    pub fn passes(&self) -> bool {
        CONDITIONS
            .iter()
            .all(|(condition, _)| self.meets(*condition))
    }

    pub fn meets(&self, condition: Condition) -> bool {
        let root = self.root;
        match condition {
            Condition::PartiesRest => self.parties.iter().all(|party| *party == Party::default()),
            Condition::LocksClear => self.locks.iter().all(|word| *word == 0),
            Condition::NobodyWaits => self.row.iter().all(|word| *word == 0),
            Condition::ScratchClear => self.are_zero(root.scratch(0), root.parties),
            Condition::RootSound => {
                self.chain_count().is_some()
                    && root.next < root.level_chains()
                    && root.free_count <= root.overflow_pages
            }
            Condition::ChainsSaved => self
                .chain_count()
                .map_or(false, |n| (0..n).all(|chain| self.is_chain_saved(chain))),
            Condition::BeyondClear => self
                .chain_count()
                .map_or(true, |n| self.are_zero(n as usize, root.most_chains - n)),
            Condition::FreeSaved => self.is_free_list_saved(),
            Condition::PagesOnce => self.is_each_once(),
        }
    }

    /// The n chains, where level is not above 8 and n not above P.
    fn chain_count(&self) -> Option<u32> {
        let root = self.root;
        let sound = root.level <= 8
            && u64::from(root.level_chains()) + u64::from(root.next) <= u64::from(root.most_chains);
        sound.then(|| root.chains())
    }

    /// Whether so many pages from one on are zero.
    fn are_zero(&self, first: usize, count: u32) -> bool {
        self.pages[first..][..count as usize]
            .iter()
            .all(|page| *page == EMPTY_PAGE)
    }

    /// "level+1 on the first next chains and on those from N × 2^level to n − 1, level on those between".
    fn level_at(&self, chain: u32) -> u32 {
        let split = chain < self.root.next || chain >= self.root.level_chains();
        self.root.level + u32::from(split)
    }

    /// A chain by its links, or none where a page of it is damaged, it does not end, or its keys do not strictly
    /// ascend.
    fn chain(&self, number: u32) -> Option<Chain> {
        let root = self.root;
        let (mut records, mut overflow) = (Vec::new(), Vec::new());
        let mut page = &self.pages[number as usize];
        loop {
            let link = page[LINK];
            if page[RECORD_COUNT] > root.page_records || page[LOCAL_LEVEL] > 9 {
                return None;
            }
            records.extend(records_on(page));
            if link == 0 {
                break;
            }
            if !root.links_overflow(link) || overflow.len() == root.overflow_pages as usize {
                return None;
            }
            overflow.push(link - 1);
            page = &self.pages[link as usize - 1];
        }
        let ascends = records.windows(2).all(|pair| pair[0].key < pair[1].key);
        ascends.then(|| Chain { records, overflow })
    }

    /// "Every record is in its chain, keys strictly ascending, pages are filled": word for word, and no page more than
    /// the records need.
    fn is_chain_saved(&self, number: u32) -> bool {
        let (root, level) = (self.root, self.level_at(number));
        let chain = match self.chain(number) {
            Some(chain) => chain,
            None => return false,
        };
        let needed = overflow_needed(chain.records.len(), root.page_records);
        chain.overflow.len() as u32 == needed
            && chain
                .records
                .iter()
                .all(|record| root.hash(level, mixed(record.key)) == number)
            && self.is_packed(number, level, &chain)
    }

    /// Whether the pages hold exactly the chain's records, b a page, each linked to the next.
    fn is_packed(&self, number: u32, level: u32, chain: &Chain) -> bool {
        let links = chain.overflow.iter().map(|page| page + 1).chain([0]);
        let pages = [&[number], &chain.overflow[..]].concat();
        let mut left = &chain.records[..];
        for ((place, page), link) in pages.into_iter().enumerate().zip(links) {
            let (part, after) = left.split_at(left.len().min(self.root.page_records as usize));
            let word = if place == 0 { level } else { 0 };
            if self.pages[page as usize] != page_of(part, word, link) {
                return false;
            }
            left = after;
        }
        left.is_empty()
    }

    /// As many pages as the free count says, none of them twice, and the link behind them; none where the list is
    /// damaged.
    fn free_list(&self) -> Option<(Vec<u32>, u32)> {
        let (mut pages, mut link) = (Vec::new(), self.root.first_free);
        let mut named = vec![false; self.root.overflow_pages as usize];
        for _ in 0..self.root.free_count {
            if !self.root.links_overflow(link) {
                return None;
            }
            let place = &mut named[(link - 1 - self.root.most_chains) as usize];
            if std::mem::replace(place, true) {
                return None;
            }
            pages.push(link - 1);
            link = self.pages[link as usize - 1][LINK];
        }
        Some((pages, link))
    }

    /// "free pages zeroed", "the free count is that of the list".
    fn is_free_list_saved(&self) -> bool {
        let zeroed = |page: &u32| {
            let words = self.pages[*page as usize];
            words == page_of(&[], 0, words[LINK])
        };
        self.free_list()
            .map_or(false, |(pages, link)| link == 0 && pages.iter().all(zeroed))
    }

    /// "each overflow page is once in the free list or once in a chain": in what can be read of them.
    fn is_each_once(&self) -> bool {
        let mut counts = vec![0u32; self.root.overflow_pages as usize];
        let free = self.free_list().map_or(Vec::new(), |(pages, _)| pages);
        let chains = (0..self.chain_count().unwrap_or(0)).filter_map(|chain| self.chain(chain));
        for page in chains.flat_map(|chain| chain.overflow).chain(free) {
            counts[(page - self.root.most_chains) as usize] += 1;
        }
        counts.iter().all(|count| *count == 1)
    }
}
