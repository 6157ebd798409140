//! Bucket chains and the free list: testing the pages that a step follows, looking through chains, taking and giving back pages.

use crate::calls::Lent;
use crate::damage::{Cause, Damage};
use crate::memory::{
    Page, Record, EMPTY_PAGE, FIRST_RECORD, LINK, LOCAL_LEVEL, RECORD_COUNT, RECORD_WORDS,
};

/// Room for the records of a usual chain; longer ones grow it.
const USUAL_RECORDS: usize = 96;

/// A bit for each overflow page.
const PAGE_SET_WORDS: usize = 24;

/// A chain looked through whole: its records and the number of its overflow pages.
pub(crate) struct ChainRecords {
    pub records: Vec<Record>,
    pub overflow: u32,
}

/// The records of a page whose count was tested.
#[inline(always)]
pub(crate) fn records_on(page: &Page) -> impl Iterator<Item = Record> + '_ {
    page[FIRST_RECORD..][..RECORD_WORDS * page[RECORD_COUNT] as usize]
        .chunks_exact(RECORD_WORDS)
        .map(|words| Record {
            key: words[0],
            setting: words[1],
        })
}

/// "m keys need ceil(m/b) − 1 overflow pages, none for m = 0."
#[inline]
pub(crate) fn overflow_needed(records: usize, page_records: u32) -> u32 {
    (records as u32).saturating_sub(1) / page_records
}

/// A page of some records, at most b; unused words are zero.
#[inline]
pub(crate) fn page_of(records: &[Record], local_level: u32, link: u32) -> Page {
    let mut page = EMPTY_PAGE;
    page[LOCAL_LEVEL] = local_level;
    page[RECORD_COUNT] = records.len() as u32;
    page[LINK] = link;
    let places = page[FIRST_RECORD..].chunks_exact_mut(RECORD_WORDS);
    for (place, record) in places.zip(records) {
        place.copy_from_slice(&[record.key, record.setting]);
    }
    page
}

impl<D: Damage> Lent<'_, D> {
    /// "On a page the step follows, count above b, local level above 9 [...] or a link to no overflow page."
    #[inline(always)]
    pub fn test_page(&self, page: &Page) -> Result<(), D> {
        self.refuse_if(
            page[RECORD_COUNT] > self.root.page_records,
            Cause::CountAbovePage,
        )?;
        self.refuse_if(page[LOCAL_LEVEL] > 9, Cause::LocalLevelAbove9)?;
        self.refuse_if(
            page[LINK] != 0 && !self.root.links_overflow(page[LINK]),
            Cause::LinkAstray,
        )
    }

    /// The page that a tested link word names.
    #[inline(always)]
    pub fn linked(&self, link: u32) -> &Page {
        &self.pages[link as usize - 1]
    }

    /// Adds a page's records to a chain's: "keys that do not strictly ascend in a chain looked through whole" are damage.
    #[inline]
    fn append_ascending(&self, records: &mut Vec<Record>, page: &Page) -> Result<(), D> {
        let mut least = records.last().map_or(0, |last| u64::from(last.key) + 1);
        for record in records_on(page) {
            self.refuse_if(u64::from(record.key) < least, Cause::KeysNotAscending)?;
            least = u64::from(record.key) + 1;
            records.push(record);
        }
        Ok(())
    }

    /// Looks through a whole chain in the file.
    #[inline]
    pub fn chain_records(&self, chain: u32) -> Result<ChainRecords, D> {
        let mut records = Vec::with_capacity(USUAL_RECORDS);
        let mut page = &self.pages[chain as usize];
        let mut overflow = 0;
        loop {
            self.test_page(page)?;
            self.append_ascending(&mut records, page)?;
            if page[LINK] == 0 {
                return Ok(ChainRecords { records, overflow });
            }
            self.refuse_if(overflow == self.root.overflow_pages, Cause::ChainTooLong)?;
            overflow += 1;
            page = self.linked(page[LINK]);
        }
    }

    /// Walks a list of old overflow pages from a link that is 0 or tested; answers how many there are.
    #[inline]
    pub fn walk_list(&self, first: u32, mut visit: impl FnMut(u32)) -> Result<u32, D> {
        let (mut link, mut length) = (first, 0);
        while link != 0 {
            self.refuse_if(length == self.root.overflow_pages, Cause::ChainTooLong)?;
            let page = self.linked(link);
            self.test_page(page)?;
            visit(link);
            length += 1;
            link = page[LINK];
        }
        Ok(length)
    }

    /// "A free list that ends, or names a page twice or no overflow page, before the pages taken."
    #[inline]
    pub fn test_free_list(&self, wanted: u32) -> Result<(), D> {
        let mut named = [0u32; PAGE_SET_WORDS];
        let mut link = self.root.first_free;
        for _ in 0..wanted {
            self.refuse_if(link == 0, Cause::FreeListEnds)?;
            self.refuse_if(!self.root.links_overflow(link), Cause::FreeListAstray)?;
            let place = link - self.root.most_chains - 1;
            let word = &mut named[place as usize / 32];
            self.refuse_if(*word >> (place % 32) & 1 == 1, Cause::FreeListTwice)?;
            *word |= 1 << (place % 32);
            link = self.linked(link)[LINK];
        }
        Ok(())
    }

    /// Takes a chain's overflow pages from the tested free list, in chain order, and fills them; answers the primary page.
    #[inline]
    pub fn take_and_fill(&mut self, records: &[Record], local_level: u32) -> Page {
        let room = self.root.page_records as usize;
        let (first, rest) = records.split_at(records.len().min(room));
        let primary = page_of(
            first,
            local_level,
            if rest.is_empty() {
                0
            } else {
                self.root.first_free
            },
        );
        let mut left = rest;
        while !left.is_empty() {
            let (part, after) = left.split_at(left.len().min(room));
            let taken = self.take_page();
            self.pages[taken] = page_of(
                part,
                0,
                if after.is_empty() {
                    0
                } else {
                    self.root.first_free
                },
            );
            left = after;
        }
        primary
    }

    /// "Pages are taken from the head": the number of the page taken.
    #[inline]
    fn take_page(&mut self) -> usize {
        let taken = self.root.first_free as usize - 1;
        self.root.first_free = self.pages[taken][LINK];
        self.root.free_count -= 1;
        taken
    }

    /// "A page given back becomes the head"; answers the link that stood there.
    #[inline]
    pub fn give_back(&mut self, link: u32) -> u32 {
        let page = &mut self.pages[link as usize - 1];
        let after = page[LINK];
        *page = EMPTY_PAGE;
        page[LINK] = self.root.first_free;
        self.root.first_free = link;
        self.root.free_count += 1;
        after
    }
}
