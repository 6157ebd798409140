//! The thirty steps and withdraw: which rule a step number has, and what many rules share.

mod change;
mod locating;
mod merge;
mod split;
mod withdraw;

use crate::calls::Lent;
use crate::damage::{Cause, Damage};
use crate::locks::{self, Mode};
use crate::memory::{Page, Party, EMPTY_PAGE, FIND, OWED_MERGE, OWED_SPLIT, SPLIT_MADE};
use crate::reply::{Answer, Outcome, Restructuring};

pub(crate) use withdraw::withdraw;

type Result<D> = std::result::Result<Outcome, D>;

/// Performs the party's next step; the record's step number was tested.
#[inline]
pub(crate) fn perform<D: Damage>(lent: &mut Lent<D>) -> Result<D> {
    match lent.party.step {
        1 => lent.request_root(Mode::Read, 2),
        2 => locating::read_level(lent),
        3 => locating::read_next(lent),
        4 => lent.request_chain(lent.working_mode(), 5),
        5 => locating::give_up_root(lent),
        6 => locating::copy_primary(lent),
        7 => lent.request_chain(lent.working_mode(), 8),
        8 => locating::give_up_previous(lent),
        9 => locating::search_scratch(lent),
        10 => change::change(&mut lent.apart()),
        11 => lent.write_primary(12),
        12 => change::give_up_chain(lent),
        13 => change::request_old_pages(lent),
        14 => change::give_back_old_pages(&mut lent.apart()),
        15 => lent.request_root(Mode::Selective, 16),
        16 => split::request_chain(lent),
        17 => split::divide(&mut lent.apart()),
        18 => lent.write_primary(19),
        19 => split::give_up_chain(lent),
        20 => split::advance_next(lent),
        21 => split::raise_level(lent),
        22 => split::give_up_root(lent),
        23 => lent.request_root(Mode::Exclusive, 24),
        24 => merge::request_target(&mut lent.apart()),
        25 => merge::request_partner(lent),
        26 => merge::join(&mut lent.apart()),
        27 => merge::lower_next(lent),
        28 => merge::write_target(lent),
        29 => merge::give_back_both(&mut lent.apart()),
        _ => merge::give_up_all(lent),
    }
}

impl<D: Damage> Lent<'_, D> {
    /// The same memory lent on to a long step, which is compiled apart from the short ones.
    #[inline(always)]
    fn apart(&mut self) -> Lent<'_, D> {
        Lent {
            root: self.root,
            party: self.party,
            locks: self.locks,
            pages: self.pages,
            number: self.number,
            behind: self.behind,
            damage: self.damage,
        }
    }

    #[inline(always)]
    fn move_to(&mut self, step: u32) -> Result<D> {
        self.party.step = step;
        Ok(Outcome::Moved)
    }

    /// "Done" "zeroes the party's record and scratch page".
    #[inline]
    fn done(&mut self, answer: Answer, made: Restructuring) -> Result<D> {
        self.clear();
        Ok(Outcome::Done(answer, made))
    }

    #[inline(always)]
    fn clear(&mut self) {
        *self.party = Party::default();
        *self.scratch() = EMPTY_PAGE;
    }

    /// "An owed split goes to 15 and an owed merge to 23; else the operation is done."
    #[inline]
    fn pay_owed(&mut self) -> Result<D> {
        match self.party.owed {
            OWED_SPLIT => self.move_to(15),
            OWED_MERGE => self.move_to(23),
            _ => self.done_as_owed(),
        }
    }

    /// "Done at 12, 14 or 22 reports split where owed is 3, else none."
    #[inline]
    fn done_as_owed(&mut self) -> Result<D> {
        let made = if self.party.owed == SPLIT_MADE {
            Restructuring::Split
        } else {
            Restructuring::None
        };
        self.done_changed(made)
    }

    /// Done with the answer of the party's record.
    #[inline]
    fn done_changed(&mut self, made: Restructuring) -> Result<D> {
        self.done(Answer::plain(self.party.answer), made)
    }

    #[inline(always)]
    fn scratch(&mut self) -> &mut Page {
        &mut self.pages[self.root.scratch(self.number)]
    }

    /// "Read for find, selective otherwise."
    #[inline(always)]
    fn working_mode(&self) -> Mode {
        if self.party.operation == FIND {
            Mode::Read
        } else {
            Mode::Selective
        }
    }

    #[inline(always)]
    fn request_root(&mut self, mode: Mode, step: u32) -> Result<D> {
        self.request(0, mode, step)
    }

    #[inline(always)]
    fn request_chain(&mut self, mode: Mode, step: u32) -> Result<D> {
        self.request(chain_lock(self.party.chain), mode, step)
    }

    #[inline(always)]
    fn request(&mut self, lock: usize, mode: Mode, step: u32) -> Result<D> {
        if self.is_granted(lock, mode) {
            self.move_to(step)
        } else {
            Ok(Outcome::Waiting)
        }
    }

    /// "Granted if the locks held permit it and if no earlier waiting request for the same lock conflicts with it"; then
    /// the word names the party.
    #[inline(always)]
    fn is_granted(&mut self, lock: usize, mode: Mode) -> bool {
        !self.behind && locks::request(&mut self.locks[lock], mode, self.number)
    }

    #[inline(always)]
    fn test_held(&self, lock: usize, mode: Mode, cause: Cause) -> std::result::Result<(), D> {
        self.refuse_if(!locks::is_held(self.locks[lock], mode, self.number), cause)
    }

    #[inline(always)]
    fn give_up(&mut self, lock: usize, mode: Mode) {
        locks::give_up(&mut self.locks[lock], mode, self.number);
    }

    /// Steps 11 and 18: write the chain's primary page from scratch.
    #[inline]
    fn write_primary(&mut self, step: u32) -> Result<D> {
        let page = *self.scratch();
        self.test_page(&page)?;
        self.pages[self.party.chain as usize] = page;
        self.move_to(step)
    }
}

const ROOT_LOCK: usize = 0;

/// "Word 0 for the root, word c+1 for chain c."
#[inline(always)]
fn chain_lock(chain: u32) -> usize {
    chain as usize + 1
}
