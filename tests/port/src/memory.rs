//! The lent memory: the root record, the party records, the pages, and the limits of the sizes.

/// "Pages are lent as 32-bit words, sixteen to a page."
pub type Page = [u32; 16];
pub const PAGE_WORDS: usize = 16;
pub const LOCAL_LEVEL: usize = 0;
pub const RECORD_COUNT: usize = 1;
pub const LINK: usize = 2;
pub const FIRST_RECORD: usize = 3;
pub const EMPTY_PAGE: Page = [0; PAGE_WORDS];

/// The number of words in the root record and in a party's record.
pub const ROOT_WORDS: usize = 9;
pub const PARTY_WORDS: usize = 10;

/// "Each record becomes a key and a 32-bit setting": two words, key first.
#[derive(Clone, Copy, Debug, PartialEq, Eq)]
pub struct Record {
    pub key: u32,
    pub setting: u32,
}

pub const RECORD_WORDS: usize = 2;

/// The root record: N, b, P, V, Q, level, next, the first free page plus one, the count of free pages.
#[repr(C)]
#[derive(Clone, Copy, Debug, Default, PartialEq, Eq)]
pub struct Root {
    pub first_chains: u32,
    pub page_records: u32,
    pub most_chains: u32,
    pub overflow_pages: u32,
    pub parties: u32,
    pub level: u32,
    pub next: u32,
    pub first_free: u32,
    pub free_count: u32,
}

/// A party's record; the step number is that of the next step.
#[repr(C)]
#[derive(Clone, Copy, Debug, Default, PartialEq, Eq)]
pub struct Party {
    pub operation: u32,
    pub key: u32,
    pub step: u32,
    pub lev: u32,
    pub chain: u32,
    pub other: u32,
    pub old_link: u32,
    pub owed: u32,
    pub answer: u32,
    pub setting: u32,
}

pub const FIND: u32 = 1;
pub const INSERT: u32 = 2;
pub const DELETE: u32 = 3;

/// Restructure owed: 0 none, 1 split, 2 merge, 3 split made.
pub const OWED_NONE: u32 = 0;
pub const OWED_SPLIT: u32 = 1;
pub const OWED_MERGE: u32 = 2;
pub const SPLIT_MADE: u32 = 3;

impl Root {
    /// "N original chains, 1 to P. P chains at most, 1 to 256. V overflow pages, 0 to 752. Q parties, 1 to 16." "b is 1 to 6".
    #[inline]
    pub fn sizes_allowed(&self) -> bool {
        from_one_to(self.most_chains, 256)
            && from_one_to(self.first_chains, self.most_chains)
            && self.overflow_pages <= 752
            && from_one_to(self.parties, 16)
            && from_one_to(self.page_records, 6)
    }

    /// "Q records, P+1 lock words", "16 × (P+V+Q) page words" and "a lent row of Q words".
    #[inline]
    pub fn lengths_fit(&self, parties: usize, locks: usize, page_words: usize, row: usize) -> bool {
        let pages = (self.most_chains + self.overflow_pages + self.parties) as usize;
        parties == self.parties as usize
            && locks == self.most_chains as usize + 1
            && page_words == PAGE_WORDS * pages
            && row == self.parties as usize
    }

    /// N × 2^level, the chains there were when the level was reached.
    #[inline]
    pub fn level_chains(&self) -> u32 {
        self.first_chains << self.level
    }

    /// "n is N × 2^level + next, the number of chains outside a restructuring."
    #[inline]
    pub fn chains(&self) -> u32 {
        self.level_chains() + self.next
    }

    /// "The target is next − 1, or N × 2^(level−1) − 1 if next is 0", where n is above N.
    #[inline]
    pub fn merge_target(&self) -> u32 {
        let after = if self.next == 0 {
            self.level_chains() / 2
        } else {
            self.next
        };
        after - 1
    }

    /// "h_i(k) is k mod (2^i × N)", of a mixed key.
    #[inline]
    pub fn hash(&self, level: u32, mixed: u32) -> u32 {
        mixed % (self.first_chains << level)
    }

    /// Whether a link word names an overflow page: page number plus one, the overflow pages following the P primary pages.
    #[inline]
    pub fn links_overflow(&self, link: u32) -> bool {
        link.wrapping_sub(self.most_chains + 1) < self.overflow_pages
    }

    /// The page number of a party's scratch page.
    #[inline]
    pub fn scratch(&self, party: u32) -> usize {
        (self.most_chains + self.overflow_pages + party) as usize
    }

    pub fn words(&self) -> [u32; ROOT_WORDS] {
        let sizes = [
            self.first_chains,
            self.page_records,
            self.most_chains,
            self.overflow_pages,
            self.parties,
        ];
        let [n, b, p, v, q] = sizes;
        [
            n,
            b,
            p,
            v,
            q,
            self.level,
            self.next,
            self.first_free,
            self.free_count,
        ]
    }

    pub fn from_words(words: [u32; ROOT_WORDS]) -> Root {
        let [first_chains, page_records, most_chains, overflow_pages, parties, level, next, first_free, free_count] =
            words;
        Root {
            first_chains,
            page_records,
            most_chains,
            overflow_pages,
            parties,
            level,
            next,
            first_free,
            free_count,
        }
    }
}

impl Party {
    pub fn words(&self) -> [u32; PARTY_WORDS] {
        let place = [self.lev, self.chain, self.other, self.old_link];
        let [lev, chain, other, old_link] = place;
        [
            self.operation,
            self.key,
            self.step,
            lev,
            chain,
            other,
            old_link,
            self.owed,
            self.answer,
            self.setting,
        ]
    }

    pub fn from_words(words: [u32; PARTY_WORDS]) -> Party {
        let [operation, key, step, lev, chain, other, old_link, owed, answer, setting] = words;
        Party {
            operation,
            key,
            step,
            lev,
            chain,
            other,
            old_link,
            owed,
            answer,
            setting,
        }
    }
}

#[inline]
fn from_one_to(size: u32, most: u32) -> bool {
    size.wrapping_sub(1) < most
}
