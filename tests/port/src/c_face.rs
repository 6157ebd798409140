//! The C face: the five calls over pointers and lengths. The only unsafe code of the port, which makes slices of them.
#![allow(unsafe_code)]

use crate::calls;
use crate::damage::Unnamed;
use crate::memory::{Page, Party, Root, PAGE_WORDS};
use crate::reply::{Outcome, Refusal};

/// The reply of a step: outcome 0 waiting, 1 moved, 2 done.
#[repr(C)]
#[derive(Clone, Copy, Debug, Default, PartialEq, Eq)]
pub struct BeadReply {
    pub refusal: u32,
    pub outcome: u32,
    pub answer: u32,
    pub restructuring: u32,
    pub setting: u32,
}

impl BeadReply {
    #[inline]
    pub fn of<D>(result: Result<Outcome, Refusal<D>>) -> BeadReply {
        match result {
            Err(refusal) => BeadReply {
                refusal: refusal.number(),
                ..BeadReply::default()
            },
            Ok(Outcome::Waiting) => BeadReply::default(),
            Ok(Outcome::Moved) => BeadReply {
                outcome: 1,
                ..BeadReply::default()
            },
            Ok(Outcome::Done(answer, made)) => BeadReply {
                refusal: 0,
                outcome: 2,
                answer: answer.number,
                restructuring: made as u32,
                setting: answer.setting,
            },
        }
    }
}

/// 0 for ok, else the refusal's number.
#[inline]
pub fn code_of<D>(result: Result<(), Refusal<D>>) -> u32 {
    result.map_or_else(Refusal::number, |()| 0)
}

/// Words as the whole pages that they make, to be read alone.
#[inline]
pub fn read_pages_of(words: &[u32]) -> &[Page] {
    let count = words.len() / PAGE_WORDS;
    // SAFETY: a page is sixteen words without padding, and so many pages lie within the words.
    unsafe { std::slice::from_raw_parts(words.as_ptr().cast::<Page>(), count) }
}

/// Words as the whole pages that they make.
#[inline]
pub fn pages_of(words: &mut [u32]) -> &mut [Page] {
    let count = words.len() / PAGE_WORDS;
    // SAFETY: a page is sixteen words without padding, and so many pages lie within the words.
    unsafe { std::slice::from_raw_parts_mut(words.as_mut_ptr().cast::<Page>(), count) }
}

/// # Safety
/// Each pointer is valid for its length: nine words at `root`, ten for each of `np` records, `nl` lock words, `ng` page words, `nr` words of who waits; none
/// overlap.
#[cfg_attr(feature = "c-names", no_mangle)]
pub unsafe extern "C" fn bead_format(
    root: *mut Root,
    parties: *mut Party,
    np: usize,
    locks: *mut u32,
    nl: usize,
    pages: *mut u32,
    ng: usize,
    row: *mut u32,
    nr: usize,
    n: u32,
    b: u32,
    p: u32,
    v: u32,
    q: u32,
) -> u32 {
    let parties = std::slice::from_raw_parts_mut(parties, np);
    let locks = std::slice::from_raw_parts_mut(locks, nl);
    let pages = pages_of(std::slice::from_raw_parts_mut(pages, ng));
    let row = std::slice::from_raw_parts_mut(row, nr);
    code_of(calls::format::<Unnamed>(
        &mut *root,
        parties,
        locks,
        pages,
        ng,
        row,
        [n, b, p, v, q],
    ))
}

/// 255 for an operation outside 1 to 3. The setting is an insert's.
/// # Safety
/// As for `bead_format`.
#[cfg_attr(feature = "c-names", no_mangle)]
pub unsafe extern "C" fn bead_begin(
    root: *mut Root,
    parties: *mut Party,
    np: usize,
    locks: *mut u32,
    nl: usize,
    _pages: *mut u32,
    ng: usize,
    row: *mut u32,
    nr: usize,
    party: u32,
    operation: u32,
    key: u32,
    setting: u32,
) -> u32 {
    if !(1..=3).contains(&operation) {
        return 255;
    }
    let parties = std::slice::from_raw_parts_mut(parties, np);
    let locks = std::slice::from_raw_parts(locks, nl);
    let row = std::slice::from_raw_parts(row, nr);
    code_of(calls::begin::<Unnamed>(
        &*root, parties, locks, ng, row, party, operation, key, setting,
    ))
}

/// # Safety
/// As for `bead_format`.
#[cfg_attr(feature = "c-names", no_mangle)]
pub unsafe extern "C" fn bead_step(
    root: *mut Root,
    parties: *mut Party,
    np: usize,
    locks: *mut u32,
    nl: usize,
    pages: *mut u32,
    ng: usize,
    row: *mut u32,
    nr: usize,
    party: u32,
) -> BeadReply {
    let parties = std::slice::from_raw_parts_mut(parties, np);
    let locks = std::slice::from_raw_parts_mut(locks, nl);
    let pages = pages_of(std::slice::from_raw_parts_mut(pages, ng));
    let row = std::slice::from_raw_parts_mut(row, nr);
    BeadReply::of(calls::step::<Unnamed>(
        &mut *root, parties, locks, pages, ng, row, party,
    ))
}

/// # Safety
/// As for `bead_format`.
#[cfg_attr(feature = "c-names", no_mangle)]
pub unsafe extern "C" fn bead_withdraw(
    root: *mut Root,
    parties: *mut Party,
    np: usize,
    locks: *mut u32,
    nl: usize,
    pages: *mut u32,
    ng: usize,
    row: *mut u32,
    nr: usize,
    party: u32,
) -> u32 {
    let parties = std::slice::from_raw_parts_mut(parties, np);
    let locks = std::slice::from_raw_parts_mut(locks, nl);
    let pages = pages_of(std::slice::from_raw_parts_mut(pages, ng));
    let row = std::slice::from_raw_parts_mut(row, nr);
    code_of(calls::withdraw::<Unnamed>(
        &mut *root, parties, locks, pages, ng, row, party,
    ))
}

/// # Safety
/// As for `bead_format`.
#[cfg_attr(feature = "c-names", no_mangle)]
pub unsafe extern "C" fn bead_take_up(
    root: *const Root,
    parties: *const Party,
    np: usize,
    locks: *const u32,
    nl: usize,
    pages: *const u32,
    ng: usize,
    row: *const u32,
    nr: usize,
) -> u32 {
    let parties = std::slice::from_raw_parts(parties, np);
    let locks = std::slice::from_raw_parts(locks, nl);
    let pages = read_pages_of(std::slice::from_raw_parts(pages, ng));
    let row = std::slice::from_raw_parts(row, nr);
    code_of(calls::take_up::<Unnamed>(
        &*root, parties, locks, pages, ng, row,
    ))
}
