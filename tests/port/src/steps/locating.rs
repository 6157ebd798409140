//! Steps 1 to 9: locating the chain, and find.

use super::{chain_lock, Result, ROOT_LOCK};
use crate::calls::Lent;
use crate::chains::records_on;
use crate::damage::{Cause, Damage};
use crate::locks::Mode;
use crate::memory::{Root, FIND, LINK, LOCAL_LEVEL};
use crate::mixing::mixed;
use crate::reply::{Answer, Outcome, Restructuring, ABSENT};

/// "2 read level."
#[inline]
pub(super) fn read_level<D: Damage>(lent: &mut Lent<D>) -> Result<D> {
    lent.party.lev = lent.root.level;
    lent.move_to(3)
}

/// "3 read next; fix lev and chain." Lev stays raised where the chain was split already.
#[inline]
pub(super) fn read_next<D: Damage>(lent: &mut Lent<D>) -> Result<D> {
    let (mut lev, mixed) = (lent.party.lev, mixed(lent.party.key));
    let mut chain = lent.root.hash(lev, mixed);
    if chain < lent.root.next {
        lev += 1;
        chain = lent.root.hash(lev, mixed);
    }
    lent.refuse_if(chain >= lent.root.most_chains, Cause::AddressNotBelow)?;
    lent.party.lev = lev;
    lent.party.chain = chain;
    lent.move_to(4)
}

/// "5 give up root."
#[inline]
pub(super) fn give_up_root<D: Damage>(lent: &mut Lent<D>) -> Result<D> {
    lent.test_held(ROOT_LOCK, Mode::Read, Cause::RootLockNotHeld)?;
    lent.give_up(ROOT_LOCK, Mode::Read);
    lent.move_to(6)
}

/// "6 copy the primary page to the scratch page"; then 7 where the key has moved on, "else 9 for find, 10 otherwise".
#[inline]
pub(super) fn copy_primary<D: Damage>(lent: &mut Lent<D>) -> Result<D> {
    let party = *lent.party;
    let page = lent.pages[party.chain as usize];
    lent.test_page(&page)?;
    lent.refuse_if(page[LOCAL_LEVEL] < party.lev, Cause::LocalLevelBelowLev)?;
    let (lev, chain) = catch_up(
        lent.root,
        party.lev,
        page[LOCAL_LEVEL],
        party.key,
        party.chain,
    );
    lent.refuse_if(chain >= lent.root.most_chains, Cause::AddressNotBelow)?;
    *lent.scratch() = page;
    lent.party.lev = lev;
    if chain != party.chain {
        lent.party.other = party.chain;
        lent.party.chain = chain;
        return lent.move_to(7);
    }
    lent.move_to(if party.operation == FIND { 9 } else { 10 })
}

/// "While lev differs from its local level, raise lev by one and go to 7 as soon as h_lev(k) is another chain."
#[inline]
fn catch_up(root: &Root, mut lev: u32, local_level: u32, key: u32, chain: u32) -> (u32, u32) {
    while lev != local_level {
        lev += 1;
        let address = root.hash(lev, mixed(key));
        if address != chain {
            return (lev, address);
        }
    }
    (lev, chain)
}

/// "8 give up the previous one, back to 6."
#[inline]
pub(super) fn give_up_previous<D: Damage>(lent: &mut Lent<D>) -> Result<D> {
    let (lock, mode) = (chain_lock(lent.party.other), lent.working_mode());
    lent.test_held(lock, mode, Cause::OtherLockNotHeld)?;
    lent.give_up(lock, mode);
    lent.move_to(6)
}

/// "9 key on the scratch page: give up the chain, done found. No link: the same, done absent.
/// Else copy the linked page over it and stay at 9."
#[inline]
pub(super) fn search_scratch<D: Damage>(lent: &mut Lent<D>) -> Result<D> {
    let key = lent.party.key;
    let page = *lent.scratch();
    lent.test_page(&page)?;
    let found = records_on(&page).find(|record| record.key == key);
    if found.is_none() && page[LINK] != 0 {
        let linked = *lent.linked(page[LINK]);
        lent.test_page(&linked)?;
        *lent.scratch() = linked;
        return Ok(Outcome::Moved);
    }
    let lock = chain_lock(lent.party.chain);
    lent.test_held(lock, Mode::Read, Cause::ChainLockNotHeld)?;
    lent.give_up(lock, Mode::Read);
    let answer = found.map_or(Answer::plain(ABSENT), |record| {
        Answer::found(record.setting)
    });
    lent.done(answer, Restructuring::None)
}
