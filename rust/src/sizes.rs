//! The sizes of a file, their limits, how much memory they ask for, and how many calls an operation takes.

use crate::answers::Kind;
use crate::error::Refusal;
use crate::memory::{PartyRecord, RootRecord};

/// The words of one page.
pub(crate) const PAGE_WORDS: usize = 16;

/// The sizes of a file, fixed when it is made.
///
/// | size | limits | in the specification |
/// |---|---|---|
/// | original chains | 1 to the most chains | N |
/// | records a page | 1 to 6 | b |
/// | most chains | 1 to 256 | P |
/// | overflow pages | 0 to 752 | V |
/// | parties | 1 to 16 | Q |
///
/// The file has one primary page a chain, and chains grow into overflow pages. It starts with its original chains,
/// splits them up to the most chains as it fills, and merges them again as it empties.
///
/// ```
/// use bead_index::Sizes;
///
/// let sizes = Sizes::new().original_chains(4).most_chains(64).overflow_pages(100).records_a_page(4).parties(3);
/// assert!(sizes.check().is_ok());
/// assert_eq!(sizes.parties, 3);
/// assert_eq!(sizes.lock_words(), 65);
/// assert!(sizes.parties(17).check().is_err());
/// ```
#[derive(Clone, Copy, Debug, PartialEq, Eq, Hash)]
#[non_exhaustive]
#[must_use]
pub struct Sizes {
    /// The chains of the empty file.
    pub original_chains: u32,
    /// The most records that a page holds, each a key with its setting.
    pub records_a_page: u32,
    /// The most chains that there may be.
    pub most_chains: u32,
    /// The overflow pages that all chains share.
    pub overflow_pages: u32,
    /// The parties that may have an operation under way at once.
    pub parties: u32,
}

impl Sizes {
    /// The most records that a page can hold.
    pub const MOST_RECORDS_A_PAGE: u32 = 6;
    /// The most chains that a file can have.
    pub const MOST_CHAINS: u32 = 256;
    /// The most overflow pages that a file can have.
    pub const MOST_OVERFLOW_PAGES: u32 = 752;
    /// The most parties that can share a file.
    pub const MOST_PARTIES: u32 = 16;

    /// One original chain and every other size at its limit: a file of some 66 KB.
    pub const fn new() -> Self {
        Sizes {
            original_chains: 1,
            records_a_page: Self::MOST_RECORDS_A_PAGE,
            most_chains: Self::MOST_CHAINS,
            overflow_pages: Self::MOST_OVERFLOW_PAGES,
            parties: Self::MOST_PARTIES,
        }
    }

    /// With this many original chains: 1 to the most chains.
    pub const fn original_chains(mut self, chains: u32) -> Self {
        self.original_chains = chains;
        self
    }

    /// With this many records a page: 1 to 6.
    pub const fn records_a_page(mut self, records: u32) -> Self {
        self.records_a_page = records;
        self
    }

    /// With at most this many chains: 1 to 256.
    pub const fn most_chains(mut self, chains: u32) -> Self {
        self.most_chains = chains;
        self
    }

    /// With this many overflow pages: 0 to 752.
    pub const fn overflow_pages(mut self, pages: u32) -> Self {
        self.overflow_pages = pages;
        self
    }

    /// With this many parties: 1 to 16.
    pub const fn parties(mut self, parties: u32) -> Self {
        self.parties = parties;
        self
    }

    /// Whether every size is within its limits.
    ///
    /// # Errors
    /// [`Refusal::Size`] where one is not.
    pub const fn check(&self) -> Result<(), Refusal> {
        let within = 1 <= self.original_chains
            && self.original_chains <= self.most_chains
            && self.most_chains <= Self::MOST_CHAINS
            && 1 <= self.records_a_page
            && self.records_a_page <= Self::MOST_RECORDS_A_PAGE
            && self.overflow_pages <= Self::MOST_OVERFLOW_PAGES
            && 1 <= self.parties
            && self.parties <= Self::MOST_PARTIES;
        if within {
            Ok(())
        } else {
            Err(Refusal::Size)
        }
    }

    /// How many calls of [`step`](crate::File::step) an operation takes at most, whatever the other parties do: those
    /// that come to [`Moved`](crate::Outcome::Moved) or [`Done`](crate::Outcome::Done). The begin is not counted, nor
    /// are calls that wait or are refused. It is proved of a file that only the library wrote, from when it was made or
    /// taken up; the sizes are within their limits.
    ///
    /// With R the least number such that the original chains, doubled R times, are the most chains or more: 7 + 3 × R
    /// and the overflow pages for a find, 21 + 3 × R for an insert, 19 + 3 × R for a delete. R is at most 8.
    ///
    /// ```
    /// use bead_index::{Kind, Sizes};
    ///
    /// let sizes = Sizes::new().overflow_pages(100);
    /// assert_eq!(sizes.most_calls(Kind::Find), 131); // one chain doubled eight times
    /// assert_eq!(sizes.most_calls(Kind::Insert), 45);
    /// assert_eq!(sizes.most_calls(Kind::Delete), 43);
    /// assert_eq!(sizes.original_chains(256).most_calls(Kind::Find), 107); // no chain ever splits
    /// ```
    #[must_use]
    pub const fn most_calls(&self, kind: Kind) -> u32 {
        let led_on = 3 * self.most_doublings();
        match kind {
            Kind::Find => self.overflow_pages.saturating_add(7 + led_on),
            Kind::Insert => 21 + led_on,
            Kind::Delete => 19 + led_on,
        }
    }

    /// How often the original chains double until they are the most chains: how often an operation can be led on to
    /// another chain.
    const fn most_doublings(&self) -> u32 {
        let mut doublings = 0;
        while doublings < 8 && self.original_chains << doublings < self.most_chains {
            doublings += 1;
        }
        doublings
    }

    /// The most calls of any operation.
    pub(crate) fn most_calls_of_all(&self) -> u32 {
        self.most_calls(Kind::Find)
            .max(self.most_calls(Kind::Insert))
    }

    /// How many parties' records to lend.
    #[must_use]
    pub const fn party_records(&self) -> usize {
        self.parties as usize
    }

    /// How many lock words to lend: one for the root and one a chain.
    #[must_use]
    pub const fn lock_words(&self) -> usize {
        self.most_chains as usize + 1
    }

    /// How many page words to lend: sixteen for each primary page, overflow page and party's scratch page.
    #[must_use]
    pub const fn page_words(&self) -> usize {
        PAGE_WORDS
            * (self.most_chains as usize + self.overflow_pages as usize + self.parties as usize)
    }

    /// How many words to lend for who waits: one a party.
    #[must_use]
    pub const fn waiting_words(&self) -> usize {
        self.parties as usize
    }

    /// How many words the whole file takes in one row: the root record, the parties' records, the lock words, the page
    /// words and who waits, in this order.
    ///
    /// ```
    /// use bead_index::{FileRef, Sizes};
    ///
    /// let sizes = Sizes::new().parties(2);
    /// let mut words = vec![0; sizes.words()];
    /// assert!(FileRef::format(&mut words, sizes).is_ok());
    /// ```
    #[must_use]
    pub const fn words(&self) -> usize {
        RootRecord::WORDS
            + PartyRecord::WORDS * self.party_records()
            + self.lock_words()
            + self.page_words()
            + self.waiting_words()
    }
}

impl Default for Sizes {
    /// As [`Sizes::new`].
    fn default() -> Self {
        Sizes::new()
    }
}

#[cfg(test)]
mod tests {
    use super::*;

    #[test]
    fn limits_are_those_of_the_specification() {
        let largest = Sizes::new().original_chains(256);
        let smallest = Sizes::new()
            .most_chains(1)
            .records_a_page(1)
            .overflow_pages(0)
            .parties(1);
        for sizes in [largest, smallest] {
            assert_eq!(sizes.check(), Ok(()));
        }
        for sizes in [
            largest.original_chains(257),
            largest.original_chains(0),
            largest.most_chains(255),
            largest.most_chains(257).original_chains(257),
            largest.records_a_page(0),
            largest.records_a_page(7),
            largest.overflow_pages(753),
            largest.parties(0),
            largest.parties(17),
        ] {
            assert_eq!(sizes.check(), Err(Refusal::Size), "{sizes:?}");
        }
    }

    #[test]
    fn chains_double_until_there_is_no_room() {
        for (original, most, doublings) in [
            (1, 256, 8),
            (1, 129, 8),
            (1, 128, 7),
            (1, 2, 1),
            (1, 1, 0),
            (5, 12, 2),
            (5, 10, 1),
            (128, 256, 1),
            (256, 256, 0),
        ] {
            let sizes = Sizes::new()
                .original_chains(original)
                .most_chains(most)
                .overflow_pages(3);
            let most = [Kind::Find, Kind::Insert, Kind::Delete].map(|kind| sizes.most_calls(kind));
            assert_eq!(most, [10, 21, 19].map(|calls| calls + 3 * doublings));
        }
    }

    #[test]
    fn memory_to_lend() {
        let sizes = Sizes::new()
            .original_chains(2)
            .most_chains(8)
            .overflow_pages(5)
            .parties(3);
        assert_eq!(
            (
                sizes.party_records(),
                sizes.lock_words(),
                sizes.page_words(),
                sizes.waiting_words()
            ),
            (3, 9, 256, 3)
        );
        assert_eq!(sizes.words(), 9 + 30 + 9 + 256 + 3);
        assert_eq!(Sizes::default().words() * 4, 67_304);
    }
}
