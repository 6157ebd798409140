//! The file that turns holds: records, lock words, pages and who waits, for the largest sizes, lent to each call as the sizes ask.

use crate::forms::Form;
use bead_port::calls;
use bead_port::damage::Unnamed;
use bead_port::memory::{Page, Party, Root, EMPTY_PAGE, PAGE_WORDS};
use bead_port::reply::{Outcome, Refusal, Restructuring, FOUND};
use std::io::{self, Write};

const MOST_PARTIES: usize = 16;
const MOST_LOCKS: usize = 257;
const MOST_PAGES: usize = 1024;
/// The answers by number; found is printed with its setting.
const ANSWERS: [&str; 6] = ["", "inserted", "present", "deleted", "absent", "no-page"];

pub struct File {
    root: Root,
    parties: Vec<Party>,
    locks: Vec<u32>,
    pages: Vec<Page>,
    row: Vec<u32>,
}

impl Default for File {
    fn default() -> File {
        File {
            root: Root::default(),
            parties: vec![Party::default(); MOST_PARTIES],
            locks: vec![0; MOST_LOCKS],
            pages: vec![EMPTY_PAGE; MOST_PAGES],
            row: vec![0; MOST_PARTIES],
        }
    }
}

/// How many parties, lock words and pages these sizes ask for, and no more than there are.
fn lengths([_, _, chains, overflow, parties]: [u32; 5]) -> (usize, usize, usize) {
    let pages = u64::from(chains) + u64::from(overflow) + u64::from(parties);
    let parties = MOST_PARTIES.min(parties as usize);
    let locks = MOST_LOCKS.min(chains as usize + 1);
    (parties, locks, MOST_PAGES.min(pages as usize))
}

impl File {
    /// Whether a party has no operation under way.
    pub fn is_idle(&self, party: u32) -> bool {
        self.parties[party as usize].operation == 0
    }

    /// The record of the party that a form steps or withdraws; a zero record where there is none.
    pub fn record_of(&self, form: Form) -> Party {
        match form {
            Form::Step(party) | Form::Withdraw(party) => self
                .parties
                .get(party as usize)
                .copied()
                .unwrap_or_default(),
            _ => Party::default(),
        }
    }

    pub fn level(&self) -> u32 {
        self.root.level
    }

    pub fn free_count(&self) -> u32 {
        self.root.free_count
    }

    /// The sizes of the file that is held.
    fn sizes(&self) -> [u32; 5] {
        let root = &self.root;
        [
            root.first_chains,
            root.page_records,
            root.most_chains,
            root.overflow_pages,
            root.parties,
        ]
    }

    /// Performs the call and prints its reply.
    pub fn answer(&mut self, form: Form, out: &mut impl Write) -> io::Result<()> {
        let sizes = match form {
            Form::Format(sizes) => sizes,
            _ => self.sizes(),
        };
        let (parties, locks, pages) = lengths(sizes);
        let words = pages * PAGE_WORDS;
        let row = &mut self.row[..parties];
        let (root, parties) = (&mut self.root, &mut self.parties[..parties]);
        let (locks, pages) = (&mut self.locks[..locks], &mut self.pages[..pages]);
        match form {
            Form::Format(sizes) => {
                match calls::format::<Unnamed>(root, parties, locks, pages, words, row, sizes) {
                    Ok(()) => out.write_all(b"(format ok)\n"),
                    Err(cause) => writeln!(out, "(format (refused {}))", cause.number()),
                }
            }
            Form::Begin(party, operation, key, setting) => {
                let result = calls::begin::<Unnamed>(
                    root, parties, locks, words, row, party, operation, key, setting,
                );
                match result {
                    Ok(()) => writeln!(out, "(begin {party} ok)"),
                    Err(cause) => writeln!(out, "(begin {party} (refused {}))", cause.number()),
                }
            }
            Form::Step(party) => {
                let result = calls::step::<Unnamed>(root, parties, locks, pages, words, row, party);
                print_step(party, result, out)
            }
            Form::Withdraw(party) => {
                match calls::withdraw::<Unnamed>(root, parties, locks, pages, words, row, party) {
                    Ok(()) => writeln!(out, "(withdraw {party} ok)"),
                    Err(cause) => writeln!(out, "(withdraw {party} (refused {}))", cause.number()),
                }
            }
            Form::TakeUp => {
                match calls::take_up::<Unnamed>(root, parties, locks, pages, words, row) {
                    Ok(()) => out.write_all(b"(take-up ok)\n"),
                    Err(cause) => writeln!(out, "(take-up (refused {}))", cause.number()),
                }
            }
        }
    }
}

fn print_step(
    party: u32,
    result: Result<Outcome, Refusal<Unnamed>>,
    out: &mut impl Write,
) -> io::Result<()> {
    match result {
        Ok(Outcome::Moved) => writeln!(out, "(step {party} moved)"),
        Ok(Outcome::Waiting) => writeln!(out, "(step {party} waiting)"),
        Ok(Outcome::Done(answer, made)) => {
            let made = match made {
                Restructuring::None => "none",
                Restructuring::Split => "split",
                Restructuring::SplitSkipped => "split-skipped",
                Restructuring::Merged => "merged",
                Restructuring::MergeSkipped => "merge-skipped",
            };
            if answer.number == FOUND {
                let setting = answer.setting;
                writeln!(out, "(step {party} (done (found {setting}) {made}))")
            } else {
                let name = ANSWERS[answer.number as usize];
                writeln!(out, "(step {party} (done {name} {made}))")
            }
        }
        Err(cause) => writeln!(out, "(step {party} (refused {}))", cause.number()),
    }
}
