//! The sizes of a file, their limits, and the overflow pages that a bucket chain needs.

const MOST_CHAINS: u32 = 256;
const MOST_OVERFLOW_PAGES: u32 = 752;
const MOST_PARTIES: u32 = 16;
const MOST_RECORDS_A_PAGE: u32 = 6;

/// The five numbers given to a format, in its order.
#[derive(Clone, Copy, Debug, PartialEq, Eq)]
pub struct Sizes {
    /// N, the chains of an empty file.
    pub originals: u32,
    /// b.
    pub records_a_page: u32,
    /// P.
    pub most_chains: u32,
    /// V.
    pub overflow_pages: u32,
    /// Q; operations run singly do not depend on it.
    pub parties: u32,
}

impl Sizes {
    pub fn within_limits(&self) -> bool {
        (1..=MOST_CHAINS).contains(&self.most_chains)
            && (1..=self.most_chains).contains(&self.originals)
            && (1..=MOST_RECORDS_A_PAGE).contains(&self.records_a_page)
            && self.overflow_pages <= MOST_OVERFLOW_PAGES
            && (1..=MOST_PARTIES).contains(&self.parties)
    }

    /// The overflow pages of a chain of so many records: ceil(records / b) - 1, none for no records.
    pub fn overflow_pages_for(&self, records: usize) -> usize {
        let records_a_page = self.records_a_page as usize;
        let pages = (records + records_a_page - 1) / records_a_page;
        pages.saturating_sub(1)
    }
}
