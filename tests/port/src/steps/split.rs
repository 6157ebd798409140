//! Steps 15 to 22: splitting the chain whose turn it is.

use super::{chain_lock, Result, ROOT_LOCK};
use crate::calls::Lent;
use crate::chains::overflow_needed;
use crate::damage::{Cause, Damage};
use crate::locks::Mode;
use crate::memory::{Record, LINK, SPLIT_MADE};
use crate::mixing::mixed;
use crate::reply::{Outcome, Restructuring};

/// "16 if n = P give up root, done, split skipped; else request selective on chain next."
#[inline]
pub(super) fn request_chain<D: Damage>(lent: &mut Lent<D>) -> Result<D> {
    let (next, chains) = (lent.root.next, lent.root.chains());
    if chains == lent.root.most_chains {
        lent.test_held(ROOT_LOCK, Mode::Selective, Cause::RootLockNotHeld)?;
        lent.give_up(ROOT_LOCK, Mode::Selective);
        return lent.done_changed(Restructuring::SplitSkipped);
    }
    if !lent.is_granted(chain_lock(next), Mode::Selective) {
        return Ok(Outcome::Waiting);
    }
    lent.party.chain = next;
    lent.party.other = chains;
    lent.move_to(17)
}

/// "17 keys whose h_(level+1) is the chain stay, the rest go, both halves with local level level+1."
#[inline(never)]
pub(super) fn divide<D: Damage>(lent: &mut Lent<D>) -> Result<D> {
    lent.refuse_if(
        lent.root.chains() == lent.root.most_chains,
        Cause::NoChainLeftAt17,
    )?;
    let (chain, local_level) = (lent.party.chain, lent.root.level + 1);
    let found = lent.chain_records(chain)?;
    let (staying, going): (Vec<Record>, Vec<Record>) = found
        .records
        .iter()
        .partition(|record| lent.root.hash(local_level, mixed(record.key)) == chain);
    let room = lent.root.page_records;
    let wanted = overflow_needed(staying.len(), room) + overflow_needed(going.len(), room);
    if lent.root.free_count < wanted {
        return skip(lent);
    }
    lent.test_free_list(wanted)?;
    lent.party.old_link = lent.pages[chain as usize][LINK];
    *lent.scratch() = lent.take_and_fill(&staying, local_level);
    lent.pages[lent.party.other as usize] = lent.take_and_fill(&going, local_level);
    lent.move_to(18)
}

/// "Too few free pages: take none, give up both locks, done, split skipped."
fn skip<D: Damage>(lent: &mut Lent<D>) -> Result<D> {
    let lock = chain_lock(lent.party.chain);
    lent.test_held(ROOT_LOCK, Mode::Selective, Cause::RootLockNotHeld)?;
    lent.test_held(lock, Mode::Selective, Cause::ChainLockNotHeld)?;
    lent.give_up(ROOT_LOCK, Mode::Selective);
    lent.give_up(lock, Mode::Selective);
    lent.done_changed(Restructuring::SplitSkipped)
}

/// "19 give up the chain."
#[inline]
pub(super) fn give_up_chain<D: Damage>(lent: &mut Lent<D>) -> Result<D> {
    let lock = chain_lock(lent.party.chain);
    lent.test_held(lock, Mode::Selective, Cause::ChainLockNotHeld)?;
    lent.give_up(lock, Mode::Selective);
    lent.move_to(20)
}

/// "20 next becomes (next + 1) mod (N × 2^level)."
#[inline]
pub(super) fn advance_next<D: Damage>(lent: &mut Lent<D>) -> Result<D> {
    lent.root.next = (lent.root.next + 1) % lent.root.level_chains();
    lent.move_to(21)
}

/// "21 if next is 0, raise level."
#[inline]
pub(super) fn raise_level<D: Damage>(lent: &mut Lent<D>) -> Result<D> {
    if lent.root.next == 0 {
        lent.root.level += 1;
    }
    lent.move_to(22)
}

/// "22 give up root, owed becomes 3; then 13 and 14 on the old chain if it has old pages, else done."
#[inline]
pub(super) fn give_up_root<D: Damage>(lent: &mut Lent<D>) -> Result<D> {
    lent.test_held(ROOT_LOCK, Mode::Selective, Cause::RootLockNotHeld)?;
    lent.give_up(ROOT_LOCK, Mode::Selective);
    lent.party.owed = SPLIT_MADE;
    if lent.party.old_link != 0 {
        return lent.move_to(13);
    }
    lent.done_as_owed()
}
