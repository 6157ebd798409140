//! Steps 10 to 14: changing a chain, and giving back its old overflow pages.

use super::{chain_lock, Result};
use crate::calls::Lent;
use crate::chains::overflow_needed;
use crate::damage::{Cause, Damage};
use crate::locks::Mode;
use crate::memory::{Record, INSERT, LINK, LOCAL_LEVEL, OWED_MERGE, OWED_NONE, OWED_SPLIT};
use crate::reply::{ABSENT, DELETED, INSERTED, NO_PAGE, PRESENT};

/// "10 look through the whole chain in the file", then make the new chain but for its primary page, which scratch holds.
#[inline(never)]
pub(super) fn change<D: Damage>(lent: &mut Lent<D>) -> Result<D> {
    let mut found = lent.chain_records(lent.party.chain)?;
    let inserting = lent.party.operation == INSERT;
    let (key, setting) = (lent.party.key, lent.party.setting);
    let place = found
        .records
        .binary_search_by_key(&key, |record| record.key);
    match (place, inserting) {
        (Ok(_), true) => return unchanged(lent, PRESENT),
        (Err(_), false) => return unchanged(lent, ABSENT),
        (Err(place), true) => found.records.insert(place, Record { key, setting }),
        (Ok(place), false) => drop(found.records.remove(place)),
    }
    let wanted = overflow_needed(found.records.len(), lent.root.page_records);
    if lent.root.free_count < wanted {
        return unchanged(lent, NO_PAGE);
    }
    lent.test_free_list(wanted)?;
    let primary = &lent.pages[lent.party.chain as usize];
    let (local_level, old_link) = (primary[LOCAL_LEVEL], primary[LINK]);
    *lent.scratch() = lent.take_and_fill(&found.records, local_level);
    lent.party.old_link = old_link;
    lent.party.answer = if inserting { INSERTED } else { DELETED };
    lent.party.owed = match inserting {
        true if wanted > found.overflow => OWED_SPLIT,
        false if found.records.is_empty() => OWED_MERGE,
        _ => OWED_NONE,
    };
    lent.move_to(11)
}

/// "Insert of a present key answers present, delete of a missing one absent" or "no page; each goes to 12".
#[inline]
fn unchanged<D: Damage>(lent: &mut Lent<D>, answer: u32) -> Result<D> {
    lent.party.answer = answer;
    lent.move_to(12)
}

/// "12 give up the chain; done unless inserted or deleted."
#[inline]
pub(super) fn give_up_chain<D: Damage>(lent: &mut Lent<D>) -> Result<D> {
    let lock = chain_lock(lent.party.chain);
    lent.test_held(lock, Mode::Selective, Cause::ChainLockNotHeld)?;
    lent.give_up(lock, Mode::Selective);
    if lent.party.answer != INSERTED && lent.party.answer != DELETED {
        return lent.done_as_owed();
    }
    if lent.party.old_link != 0 {
        return lent.move_to(13);
    }
    lent.pay_owed()
}

/// "13, if there are old overflow pages, request exclusive on the chain."
#[inline]
pub(super) fn request_old_pages<D: Damage>(lent: &mut Lent<D>) -> Result<D> {
    test_old_link(lent)?;
    lent.request_chain(Mode::Exclusive, 14)
}

/// "14 give them back in chain order, zero the old link and give up the lock."
#[inline(never)]
pub(super) fn give_back_old_pages<D: Damage>(lent: &mut Lent<D>) -> Result<D> {
    test_old_link(lent)?;
    let length = lent.walk_list(lent.party.old_link, |_| ())?;
    lent.refuse_if(
        lent.root.free_count + length > lent.root.overflow_pages,
        Cause::FreeCountOverfull,
    )?;
    let lock = chain_lock(lent.party.chain);
    lent.test_held(lock, Mode::Exclusive, Cause::ChainLockNotHeld)?;
    let mut link = lent.party.old_link;
    while link != 0 {
        link = lent.give_back(link);
    }
    lent.party.old_link = 0;
    lent.give_up(lock, Mode::Exclusive);
    lent.pay_owed()
}

/// "At 13, 14 or 29 an old link to no overflow page, 0 passing at 29 only."
#[inline]
fn test_old_link<D: Damage>(lent: &Lent<D>) -> std::result::Result<(), D> {
    lent.refuse_if(lent.party.old_link == 0, Cause::OldLinkZero)?;
    lent.refuse_if(
        !lent.root.links_overflow(lent.party.old_link),
        Cause::OldLinkAstray,
    )
}
