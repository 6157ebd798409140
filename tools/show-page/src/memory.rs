//! The memory that the script's file is lent, and the calls on it.

use crate::forms::{Form, Reply};
use bead_index::{FileRef, Flaw, Lent, Lock, Mode, PartyRecord, Refusal, RootRecord, Sizes, Wait};

/// The words of a page.
const PAGE_WORDS: usize = 16;

/// The records that a page can hold, each a key and its setting.
const MOST_RECORDS: usize = 6;

/// The five lent parts; all zero, and of no length, before a format.
#[derive(Default)]
pub struct Memory {
    pub root: RootRecord,
    pub parties: Vec<PartyRecord>,
    pub locks: Vec<u32>,
    pages: Vec<u32>,
    waiting: Vec<u32>,
}

impl Memory {
    /// An empty file of these sizes, where they are within their limits.
    fn formatted(sizes: Sizes) -> Result<Memory, Refusal> {
        sizes.check()?;
        let mut memory = Memory {
            root: RootRecord::default(),
            parties: vec![PartyRecord::default(); sizes.party_records()],
            locks: vec![0; sizes.lock_words()],
            pages: vec![0; sizes.page_words()],
            waiting: vec![0; sizes.waiting_words()],
        };
        FileRef::format_parts(memory.lent(), sizes)?;
        Ok(memory)
    }

    fn lent(&mut self) -> Lent<'_> {
        Lent {
            root: &mut self.root,
            parties: &mut self.parties,
            locks: &mut self.locks,
            pages: &mut self.pages,
            waiting: &mut self.waiting,
        }
    }

    /// The file, refused where nothing was formatted.
    fn file(&mut self) -> Result<FileRef<'_>, Refusal> {
        FileRef::open_parts(self.lent())
    }

    /// Calls the library as a form says. After a refused format the earlier file stays.
    pub fn call(&mut self, form: Form) -> Reply {
        match form {
            Form::Format(sizes) => {
                Reply::Format(Memory::formatted(sizes).map(|memory| *self = memory))
            }
            Form::Begin(party, operation) => Reply::Begin(
                party,
                self.file()
                    .and_then(|mut file| file.begin(party, operation)),
            ),
            Form::Step(party) => {
                Reply::Step(party, self.file().and_then(|mut file| file.step(party)))
            }
            Form::Withdraw(party) => {
                Reply::Withdraw(party, self.file().and_then(|mut file| file.withdraw(party)))
            }
            Form::TakeUp => Reply::TakeUp(FileRef::take_up_parts(self.lent()).map(|_| ())),
        }
    }

    /// The first thing that keeps the file from being taken up.
    pub fn flaw(&mut self) -> Option<Flaw> {
        self.file().ok()?.flaw()
    }

    /// How many keys there are, at rest.
    pub fn key_count(&mut self) -> usize {
        let file = self.file();
        file.map_or(0, |file| file.records().map_or(0, |records| records.len()))
    }

    /// What every party's next step asks for.
    pub fn requests(&mut self) -> Vec<Request> {
        let count = self.root.parties;
        match self.file() {
            Ok(file) => (0..count)
                .map(|party| Request {
                    wanted: file.wanted(party),
                    wait: file.wait(party),
                })
                .collect(),
            Err(_) => Vec::new(),
        }
    }

    /// The parties that wait, first come first.
    pub fn waiting(&self) -> impl Iterator<Item = u32> + '_ {
        self.waiting.iter().map_while(|word| word.checked_sub(1))
    }

    /// The words of a page, where there is one of this number.
    pub fn page(&self, number: u32) -> Option<Page<'_>> {
        let words = self.pages.chunks_exact(PAGE_WORDS).nth(number as usize)?;
        Some(Page { number, words })
    }

    /// The pages from one on along their links, each met once and no more than there are.
    pub fn pages_from(&self, first: Option<u32>) -> Vec<Page<'_>> {
        let mut pages: Vec<Page<'_>> = Vec::new();
        let mut next = first;
        while let Some(page) = next.and_then(|number| self.page(number)) {
            if pages.len() * PAGE_WORDS >= self.pages.len() {
                break;
            }
            next = page.next();
            pages.push(page);
        }
        pages
    }

    /// How many chains there are, by level and next.
    pub fn chain_count(&self) -> u32 {
        (self.root.originals << self.root.level.min(8)) + self.root.next
    }

    /// The number of a party's scratch page.
    pub fn scratch_page(&self, party: u32) -> u32 {
        self.root.primaries + self.root.overflow + party
    }
}

/// What a party's next step asks for, and why it would wait.
pub struct Request {
    pub wanted: Option<(Lock, Mode)>,
    pub wait: Option<Wait>,
}

/// A page and its words.
#[derive(Clone, Copy)]
pub struct Page<'a> {
    pub number: u32,
    words: &'a [u32],
}

impl<'a> Page<'a> {
    /// Its local level; 0 on an overflow page.
    pub fn level(self) -> u32 {
        self.words[0]
    }

    /// Its keys, each with its setting.
    pub fn records(self) -> impl Iterator<Item = (u32, u32)> + 'a {
        let count = (self.words[1] as usize).min(MOST_RECORDS);
        let records = self.words[3..].chunks_exact(2).take(count);
        records.map(|record| (record[0], record[1]))
    }

    /// The page that its link names.
    pub fn next(self) -> Option<u32> {
        linked(self.words[2])
    }

    pub fn is_zero(self) -> bool {
        self.words.iter().all(|&word| word == 0)
    }
}

/// The page that a link word names: its number plus one, 0 for none.
pub fn linked(link: u32) -> Option<u32> {
    link.checked_sub(1)
}
