//! Withdraw: what a party holds and has built before its decisive step is given up and given back.

use super::{chain_lock, ROOT_LOCK};
use crate::calls::Lent;
use crate::damage::{Cause, Damage};
use crate::locks::Mode;
use crate::memory::LINK;

/// The step that writes the pages built into the file.
const WRITES: u32 = 11;

/// A lock that the step number claims: its word, its mode, and the damage where it is not held.
type Claim = (usize, Mode, Cause);

/// "Locks are given up, pages built and not yet written into the file (at step 11, those scratch leads to) go back in reverse order, the party's record and scratch page are
/// zeroed." Every test comes before the first write.
#[inline(never)]
pub(crate) fn withdraw<D: Damage>(lent: &mut Lent<D>) -> Result<(), D> {
    let built = built_links(lent)?;
    lent.refuse_if(
        lent.root.free_count + built.len() as u32 > lent.root.overflow_pages,
        Cause::FreeCountOverfull,
    )?;
    let claims = claims(lent);
    for &(lock, mode, cause) in &claims {
        lent.test_held(lock, mode, cause)?;
    }
    for &(lock, mode, _) in &claims {
        lent.give_up(lock, mode);
    }
    for &link in built.iter().rev() {
        lent.give_back(link);
    }
    lent.clear();
    Ok(())
}

/// The links to the pages built, in chain order.
fn built_links<D: Damage>(lent: &mut Lent<D>) -> Result<Vec<u32>, D> {
    let mut links = Vec::new();
    if lent.party.step == WRITES {
        let page = *lent.scratch();
        lent.test_page(&page)?;
        lent.walk_list(page[LINK], |link| links.push(link))?;
    }
    Ok(links)
}

/// What the steps before have requested and not given up.
fn claims<D: Damage>(lent: &Lent<D>) -> Vec<Claim> {
    let mode = lent.working_mode();
    let root = (ROOT_LOCK, Mode::Read, Cause::RootLockNotHeld);
    let chain = (chain_lock(lent.party.chain), mode, Cause::ChainLockNotHeld);
    let other = (chain_lock(lent.party.other), mode, Cause::OtherLockNotHeld);
    match lent.party.step {
        2..=4 => vec![root],
        5 => vec![root, chain],
        6 | 9..=11 => vec![chain],
        7 => vec![other],
        8 => vec![other, chain],
        _ => vec![],
    }
}
