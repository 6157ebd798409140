//! Steps 23 to 30: merging the last chain into its target.

use super::{chain_lock, Result, ROOT_LOCK};
use crate::calls::Lent;
use crate::chains::page_of;
use crate::damage::{Cause, Damage};
use crate::locks::{self, Mode};
use crate::memory::{Record, EMPTY_PAGE, LINK, LOCAL_LEVEL};
use crate::reply::{Outcome, Restructuring};

/// "24 if n = N give up root, done, merge skipped. The partner is chain n − 1; the target is next − 1, or
/// N × 2^(level−1) − 1 if next is 0. Request exclusive on the target."
#[inline(never)]
pub(super) fn request_target<D: Damage>(lent: &mut Lent<D>) -> Result<D> {
    let chains = lent.root.chains();
    if chains == lent.root.first_chains {
        lent.test_held(ROOT_LOCK, Mode::Exclusive, Cause::RootLockNotHeld)?;
        lent.give_up(ROOT_LOCK, Mode::Exclusive);
        return lent.done_changed(Restructuring::MergeSkipped);
    }
    let target = lent.root.merge_target();
    if !lent.is_granted(chain_lock(target), Mode::Exclusive) {
        return Ok(Outcome::Waiting);
    }
    lent.party.chain = target;
    lent.party.other = chains - 1;
    lent.move_to(25)
}

/// "25 on the partner."
#[inline]
pub(super) fn request_partner<D: Damage>(lent: &mut Lent<D>) -> Result<D> {
    lent.request(chain_lock(lent.party.other), Mode::Exclusive, 26)
}

/// "26 join both key lists, ... primary page in scratch at the target's local level, and set the old link to the target's"; merge
/// skipped unless "the joined records fit the primary page".
#[inline(never)]
pub(super) fn join<D: Damage>(lent: &mut Lent<D>) -> Result<D> {
    lent.refuse_if(
        lent.root.chains() == lent.root.first_chains,
        Cause::NothingToMergeAt26,
    )?;
    let target = lent.chain_records(lent.party.chain)?;
    let partner = lent.chain_records(lent.party.other)?;
    let room = lent.root.page_records as usize;
    let records = joined(&target.records, &partner.records, room)?;
    if records.len() > room {
        give_up_three(lent, Mode::Exclusive)?;
        return lent.done_changed(Restructuring::MergeSkipped);
    }
    let primary = &lent.pages[lent.party.chain as usize];
    let (local_level, old_link) = (primary[LOCAL_LEVEL], primary[LINK]);
    *lent.scratch() = page_of(&records, local_level, 0);
    lent.party.old_link = old_link;
    lent.move_to(27)
}

/// Two ascending lists of records as one; "a key in both halves of a merge" is damage, also where they do not fit a page's `room`.
fn joined<D: Damage>(
    target: &[Record],
    partner: &[Record],
    room: usize,
) -> std::result::Result<Vec<Record>, D> {
    let in_both = if target.len() + partner.len() > room {
        Cause::KeyInBothThatDoNotFit
    } else {
        Cause::KeyInBothHalves
    };
    let mut records = Vec::with_capacity(target.len() + partner.len());
    let (mut target, mut partner) = (target, partner);
    while let ([first, target_rest @ ..], [second, partner_rest @ ..]) = (target, partner) {
        if first.key == second.key {
            return Err(D::of(in_both));
        }
        if first.key < second.key {
            records.push(*first);
            target = target_rest;
        } else {
            records.push(*second);
            partner = partner_rest;
        }
    }
    records.extend_from_slice(target);
    records.extend_from_slice(partner);
    Ok(records)
}

/// Gives up the root, in the mode given, and both chains; every lock is tested before the first is given up.
#[inline(always)]
fn give_up_three<D: Damage>(lent: &mut Lent<D>, root_mode: Mode) -> std::result::Result<(), D> {
    let (chain, other) = (chain_lock(lent.party.chain), chain_lock(lent.party.other));
    lent.test_held(ROOT_LOCK, root_mode, Cause::RootLockNotHeld)?;
    lent.test_held(chain, Mode::Exclusive, Cause::ChainLockNotHeld)?;
    lent.test_held(other, Mode::Exclusive, Cause::OtherLockNotHeld)?;
    lent.give_up(ROOT_LOCK, root_mode);
    lent.give_up(chain, Mode::Exclusive);
    lent.give_up(other, Mode::Exclusive);
    Ok(())
}

/// "27 if next was 0, lower level; next becomes the target's number; exclusive on root becomes selective."
#[inline]
pub(super) fn lower_next<D: Damage>(lent: &mut Lent<D>) -> Result<D> {
    lent.refuse_if(
        lent.root.chains() == lent.root.first_chains,
        Cause::NothingToMergeAt27,
    )?;
    lent.test_held(ROOT_LOCK, Mode::Exclusive, Cause::TurnedLockNotHeld)?;
    locks::turn_selective(&mut lent.locks[ROOT_LOCK], lent.number);
    if lent.root.next == 0 {
        lent.root.level -= 1;
    }
    lent.root.next = lent.party.chain;
    lent.move_to(28)
}

/// "28 write the target's primary page from scratch, local level lowered by one."
#[inline]
pub(super) fn write_target<D: Damage>(lent: &mut Lent<D>) -> Result<D> {
    let mut page = *lent.scratch();
    lent.test_page(&page)?;
    lent.refuse_if(page[LOCAL_LEVEL] == 0, Cause::LocalLevel0At28)?;
    page[LOCAL_LEVEL] -= 1;
    lent.pages[lent.party.chain as usize] = page;
    lent.move_to(29)
}

/// "29 give back the target's old pages, then the partner's; zero the partner's primary page."
#[inline(never)]
pub(super) fn give_back_both<D: Damage>(lent: &mut Lent<D>) -> Result<D> {
    let (old_link, other) = (lent.party.old_link, lent.party.other as usize);
    lent.refuse_if(
        old_link != 0 && !lent.root.links_overflow(old_link),
        Cause::OldLinkAstray,
    )?;
    let mut list = Vec::new();
    let length = lent.walk_list(old_link, |link| list.push(link))?;
    lent.test_page(&lent.pages[other])?;
    let total = length + lent.walk_list(lent.pages[other][LINK], |link| list.push(link))?;
    lent.refuse_if(
        lent.root.free_count + total > lent.root.overflow_pages,
        Cause::FreeCountOverfull,
    )?;
    for link in list {
        lent.give_back(link);
    }
    lent.pages[other] = EMPTY_PAGE;
    lent.move_to(30)
}

/// "30 give up all, done."
#[inline]
pub(super) fn give_up_all<D: Damage>(lent: &mut Lent<D>) -> Result<D> {
    give_up_three(lent, Mode::Selective)?;
    lent.done_changed(Restructuring::Merged)
}
