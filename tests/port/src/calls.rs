//! The five calls: format, begin, step, withdraw and take-up, with the refusal table's tests in its order.
//! Pages are lent as whole pages beside the count of lent words, so that a length that is no multiple of sixteen is refused too.

use crate::damage::{refuse_if, Cause, Damage};
use crate::memory::{Page, Party, Root, DELETE, EMPTY_PAGE, FIND, INSERT, LINK};
use crate::reply::{Outcome, Refusal};
use crate::steps;
use crate::take_up::Saved;
use crate::waiting::{self, Place};
use std::marker::PhantomData;

/// The memory that one step is lent, with the party it is for, and whether that one stands behind another.
pub(crate) struct Lent<'a, D> {
    pub root: &'a mut Root,
    pub party: &'a mut Party,
    pub locks: &'a mut [u32],
    pub pages: &'a mut [Page],
    pub number: u32,
    pub behind: bool,
    pub damage: PhantomData<D>,
}

/// "Format makes N empty chains of level 0, lists overflow pages ascending and zeroes the rest."
pub fn format<D>(
    root: &mut Root,
    parties: &mut [Party],
    locks: &mut [u32],
    pages: &mut [Page],
    page_words: usize,
    row: &mut [u32],
    sizes: [u32; 5],
) -> Result<(), Refusal<D>> {
    let [first_chains, page_records, most_chains, overflow_pages, party_count] = sizes;
    let mut new = Root {
        first_chains,
        page_records,
        most_chains,
        overflow_pages,
        parties: party_count,
        ..Root::default()
    };
    if !new.sizes_allowed() {
        return Err(Refusal::Size);
    }
    if !new.lengths_fit(parties.len(), locks.len(), page_words, row.len()) {
        return Err(Refusal::Length);
    }
    new.first_free = if overflow_pages == 0 {
        0
    } else {
        most_chains + 1
    };
    new.free_count = overflow_pages;
    *root = new;
    parties.fill(Party::default());
    locks.fill(0);
    row.fill(0);
    list_overflow_pages(pages, most_chains, overflow_pages);
    Ok(())
}

/// Zeroes the pages and links the overflow pages, the lowest first.
fn list_overflow_pages(pages: &mut [Page], most_chains: u32, overflow_pages: u32) {
    let end = most_chains + overflow_pages;
    for (number, page) in (0..).zip(pages.iter_mut()) {
        *page = EMPTY_PAGE;
        if number >= most_chains && number + 1 < end {
            page[LINK] = number + 2;
        }
    }
}

/// "A begin sets operation, key and step 1 and zeroes the rest"; an insert's setting is kept too. The operation is 1 to 3.
#[inline]
pub fn begin<D>(
    root: &Root,
    parties: &mut [Party],
    locks: &[u32],
    page_words: usize,
    row: &[u32],
    number: u32,
    operation: u32,
    key: u32,
    setting: u32,
) -> Result<(), Refusal<D>> {
    test_sizes(root, parties.len(), locks.len(), page_words, row.len())?;
    let party = parties
        .get_mut(number as usize)
        .ok_or(Refusal::PartyNumber)?;
    if party.operation != 0 {
        return Err(Refusal::NotIdle);
    }
    *party = Party {
        operation,
        key,
        step: 1,
        setting: if operation == INSERT { setting } else { 0 },
        ..Party::default()
    };
    Ok(())
}

/// "One call performs one step and answers waiting, moved, or done with the answer." "Only the first waiting call alters
/// memory, and only this row; a grant or withdraw removes the party."
#[inline]
pub fn step<D: Damage>(
    root: &mut Root,
    parties: &mut [Party],
    locks: &mut [u32],
    pages: &mut [Page],
    page_words: usize,
    row: &mut [u32],
    number: u32,
) -> Result<Outcome, Refusal<D>> {
    test_sizes(root, parties.len(), locks.len(), page_words, row.len())?;
    let party = parties.get(number as usize).ok_or(Refusal::PartyNumber)?;
    if party.operation == 0 {
        return Err(Refusal::Idle);
    }
    let place = tested_place::<D>(root, parties, row, number)?;
    let mut lent: Lent<D> = Lent {
        root,
        party: &mut parties[number as usize],
        locks,
        pages,
        number,
        behind: place.behind,
        damage: PhantomData,
    };
    let outcome = steps::perform(&mut lent)?;
    match outcome {
        Outcome::Waiting if !place.waits => waiting::join(row, number),
        Outcome::Moved if place.waits => waiting::leave(row, number),
        _ => {}
    }
    Ok(outcome)
}

/// "Withdraw takes back a begin": "7 when the decisive step has been taken", "tested after 5 (the party is idle) and before 6".
pub fn withdraw<D: Damage>(
    root: &mut Root,
    parties: &mut [Party],
    locks: &mut [u32],
    pages: &mut [Page],
    page_words: usize,
    row: &mut [u32],
    number: u32,
) -> Result<(), Refusal<D>> {
    test_sizes(root, parties.len(), locks.len(), page_words, row.len())?;
    let party = parties.get(number as usize).ok_or(Refusal::PartyNumber)?;
    if party.operation == 0 {
        return Err(Refusal::Idle);
    }
    if is_decided(party) {
        return Err(Refusal::Decided);
    }
    let place = tested_place::<D>(root, parties, row, number)?;
    let mut lent: Lent<D> = Lent {
        root,
        party: &mut parties[number as usize],
        locks,
        pages,
        number,
        behind: place.behind,
        damage: PhantomData,
    };
    steps::withdraw(&mut lent)?;
    waiting::leave(row, number);
    Ok(())
}

/// "A find at 9, a change at 12 or later", by the numbers alone.
fn is_decided(party: &Party) -> bool {
    match party.operation {
        FIND => party.step == 9,
        INSERT | DELETE => party.step >= 12,
        _ => false,
    }
}

/// "8 when a condition fails, tested after 2 and 1, nothing altered."
pub fn take_up<D>(
    root: &Root,
    parties: &[Party],
    locks: &[u32],
    pages: &[Page],
    page_words: usize,
    row: &[u32],
) -> Result<(), Refusal<D>> {
    test_sizes(root, parties.len(), locks.len(), page_words, row.len())?;
    let saved = Saved {
        root,
        parties,
        locks,
        pages,
        row,
    };
    if saved.passes() {
        Ok(())
    } else {
        Err(Refusal::Unsaved)
    }
}

/// Refusals 2 and 1.
#[inline(always)]
fn test_sizes<D>(
    root: &Root,
    parties: usize,
    locks: usize,
    page_words: usize,
    row: usize,
) -> Result<(), Refusal<D>> {
    if !root.sizes_allowed() {
        return Err(Refusal::Size);
    }
    if !root.lengths_fit(parties, locks, page_words, row) {
        return Err(Refusal::Length);
    }
    Ok(())
}

/// The tests of damage that every step and withdraw make, and where the party stands.
#[inline(always)]
fn tested_place<D: Damage>(
    root: &Root,
    parties: &[Party],
    row: &[u32],
    number: u32,
) -> Result<Place, D> {
    test_root(root)?;
    test_party(root, &parties[number as usize])?;
    waiting::place_of(root, parties, row, number)
}

/// "Level above 8, next not below N × 2^level, n above P, or free count above V."
#[inline(always)]
fn test_root<D: Damage>(root: &Root) -> Result<(), D> {
    refuse_if(root.level > 8, Cause::LevelAbove8)?;
    refuse_if(root.next >= root.level_chains(), Cause::NextNotBelow)?;
    refuse_if(root.chains() > root.most_chains, Cause::ChainsAboveMost)?;
    refuse_if(root.free_count > root.overflow_pages, Cause::FreeCountAbove)
}

/// The tests of the party's record that every step makes.
#[inline(always)]
fn test_party<D: Damage>(root: &Root, party: &Party) -> Result<(), D> {
    let chains = root.most_chains;
    refuse_if(party.operation > 3, Cause::OperationAbove3)?;
    let steps = STEPS[party.operation as usize];
    refuse_if(
        party.step > 30 || steps >> party.step & 1 == 0,
        Cause::StepLacking,
    )?;
    refuse_if(party.lev > 9, Cause::LevAbove9)?;
    refuse_if(party.owed > 3, Cause::OwedAbove3)?;
    refuse_if(party.answer > 5, Cause::AnswerAbove5)?;
    refuse_if(party.answer == 0 && party.step >= 12, Cause::AnswerMissing)?;
    refuse_if(party.chain >= chains, Cause::ChainNotBelow)?;
    refuse_if(party.other >= chains, Cause::OtherNotBelow)
}

impl<D: Damage> Lent<'_, D> {
    /// Refuses for a cause.
    #[inline(always)]
    pub fn refuse_if(&self, damaged: bool, cause: Cause) -> Result<(), D> {
        refuse_if(damaged, cause)
    }
}

/// "Find has 1 to 9, insert 1 to 8 and 10 to 22, delete 1 to 8, 10 to 14 and 23 to 30": bit s for step s.
const STEPS: [u32; 4] = [
    0,
    bits(1, 9),
    bits(1, 8) | bits(10, 22),
    bits(1, 8) | bits(10, 14) | bits(23, 30),
];

const fn bits(first: u32, last: u32) -> u32 {
    (1 << (last + 1)) - (1 << first)
}
