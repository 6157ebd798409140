//! The library's calls, and the words of a row as records: all that is unsafe in this crate.

#![allow(unsafe_code)]

use crate::memory::{Lent, Parts, PartyRecord, RootRecord};
use crate::sizes::Sizes;
use std::mem::{align_of, size_of};

/// The reply to a step, as the library gives it.
#[repr(C)]
pub(crate) struct Reply {
    pub refusal: u32,
    pub outcome: u32,
    pub answer: u32,
    pub restructuring: u32,
    pub setting: u32,
}

extern "C" {
    fn bead_format(
        root: *mut RootRecord,
        party_row: *mut PartyRecord,
        parties: usize,
        locks: *mut u32,
        lock_words: usize,
        pages: *mut u32,
        page_words: usize,
        row: *mut u32,
        row_words: usize,
        original_chains: u32,
        records_a_page: u32,
        most_chains: u32,
        overflow_pages: u32,
        party_count: u32,
    ) -> u32;

    fn bead_begin(
        root: *mut RootRecord,
        party_row: *mut PartyRecord,
        parties: usize,
        locks: *mut u32,
        lock_words: usize,
        pages: *mut u32,
        page_words: usize,
        row: *mut u32,
        row_words: usize,
        party: u32,
        operation: u32,
        key: u32,
        setting: u32,
    ) -> u32;

    fn bead_step(
        root: *mut RootRecord,
        party_row: *mut PartyRecord,
        parties: usize,
        locks: *mut u32,
        lock_words: usize,
        pages: *mut u32,
        page_words: usize,
        row: *mut u32,
        row_words: usize,
        party: u32,
    ) -> Reply;

    fn bead_withdraw(
        root: *mut RootRecord,
        party_row: *mut PartyRecord,
        parties: usize,
        locks: *mut u32,
        lock_words: usize,
        pages: *mut u32,
        page_words: usize,
        row: *mut u32,
        row_words: usize,
        party: u32,
    ) -> u32;

    fn bead_take_up(
        root: *const RootRecord,
        party_row: *const PartyRecord,
        parties: usize,
        locks: *const u32,
        lock_words: usize,
        pages: *const u32,
        page_words: usize,
        row: *const u32,
        row_words: usize,
    ) -> u32;
}

/// Makes an empty file in the lent memory: 0, or the number of the refusal.
pub(crate) fn format(lent: Lent<'_>, sizes: &Sizes) -> u32 {
    let Lent {
        root,
        parties,
        locks,
        pages,
        waiting,
    } = lent;
    // SAFETY: five parts that are lent for writing do not overlap, and each goes with its own length.
    // The library takes any words and any sizes.
    unsafe {
        bead_format(
            root,
            parties.as_mut_ptr(),
            parties.len(),
            locks.as_mut_ptr(),
            locks.len(),
            pages.as_mut_ptr(),
            pages.len(),
            waiting.as_mut_ptr(),
            waiting.len(),
            sizes.original_chains,
            sizes.records_a_page,
            sizes.most_chains,
            sizes.overflow_pages,
            sizes.parties,
        )
    }
}

/// Begins an operation for a party: 0, or the number of the refusal.
pub(crate) fn begin(lent: Lent<'_>, party: u32, operation: u32, key: u32, setting: u32) -> u32 {
    let Lent {
        root,
        parties,
        locks,
        pages,
        waiting,
    } = lent;
    // SAFETY: as in `format`.
    unsafe {
        bead_begin(
            root,
            parties.as_mut_ptr(),
            parties.len(),
            locks.as_mut_ptr(),
            locks.len(),
            pages.as_mut_ptr(),
            pages.len(),
            waiting.as_mut_ptr(),
            waiting.len(),
            party,
            operation,
            key,
            setting,
        )
    }
}

/// Performs one step of a party's operation.
pub(crate) fn step(lent: Lent<'_>, party: u32) -> Reply {
    let Lent {
        root,
        parties,
        locks,
        pages,
        waiting,
    } = lent;
    // SAFETY: as in `format`.
    unsafe {
        bead_step(
            root,
            parties.as_mut_ptr(),
            parties.len(),
            locks.as_mut_ptr(),
            locks.len(),
            pages.as_mut_ptr(),
            pages.len(),
            waiting.as_mut_ptr(),
            waiting.len(),
            party,
        )
    }
}

/// Withdraws a party's operation: 0, or the number of the refusal.
pub(crate) fn withdraw(lent: Lent<'_>, party: u32) -> u32 {
    let Lent {
        root,
        parties,
        locks,
        pages,
        waiting,
    } = lent;
    // SAFETY: as in `format`.
    unsafe {
        bead_withdraw(
            root,
            parties.as_mut_ptr(),
            parties.len(),
            locks.as_mut_ptr(),
            locks.len(),
            pages.as_mut_ptr(),
            pages.len(),
            waiting.as_mut_ptr(),
            waiting.len(),
            party,
        )
    }
}

/// Tests whether the memory is a file at rest: 0, or the number of the refusal.
pub(crate) fn take_up(parts: Parts<'_>) -> u32 {
    let Parts {
        root,
        parties,
        locks,
        pages,
        waiting,
    } = parts;
    // SAFETY: each part is lent for reading, goes with its own length, and is not written.
    unsafe {
        bead_take_up(
            root,
            parties.as_ptr(),
            parties.len(),
            locks.as_ptr(),
            locks.len(),
            pages.as_ptr(),
            pages.len(),
            waiting.as_ptr(),
            waiting.len(),
        )
    }
}

/// A record that is words and nothing else.
///
/// # Safety
/// The type is `#[repr(C)]`, all its fields are `u32`, and `WORDS` is how many they are.
pub(crate) unsafe trait Record: Sized {
    const WORDS: usize;
}

// SAFETY: the root record has nine fields and a party's ten, of `u32` alone.
unsafe impl Record for RootRecord {
    const WORDS: usize = RootRecord::WORDS;
}
unsafe impl Record for PartyRecord {
    const WORDS: usize = PartyRecord::WORDS;
}

/// The records that a row of words is, as many as are whole.
pub(crate) fn records<R: Record>(words: &[u32]) -> &[R] {
    assert!(size_of::<R>() == R::WORDS * size_of::<u32>() && align_of::<R>() == align_of::<u32>());
    // SAFETY: the records take no more bytes than the words, are aligned as these are, and any words make a record.
    unsafe { std::slice::from_raw_parts(words.as_ptr().cast(), words.len() / R::WORDS) }
}

/// The same, for writing.
pub(crate) fn records_mut<R: Record>(words: &mut [u32]) -> &mut [R] {
    assert!(size_of::<R>() == R::WORDS * size_of::<u32>() && align_of::<R>() == align_of::<u32>());
    // SAFETY: as in `records`; the words are lent for writing to nobody else, and any record makes words.
    unsafe { std::slice::from_raw_parts_mut(words.as_mut_ptr().cast(), words.len() / R::WORDS) }
}

/// The words that records are.
fn words<R: Record>(records: &[R]) -> &[u32] {
    assert!(size_of::<R>() == R::WORDS * size_of::<u32>() && align_of::<R>() == align_of::<u32>());
    // SAFETY: so many words are all bytes of the records, aligned as these are, and any record makes words.
    unsafe { std::slice::from_raw_parts(records.as_ptr().cast(), records.len() * R::WORDS) }
}

/// All words of a file, part by part in their order.
pub(crate) fn all_words(parts: Parts<'_>) -> [&[u32]; 5] {
    let root = words(std::slice::from_ref(parts.root));
    let records = words(parts.parties);
    [root, records, parts.locks, parts.pages, parts.waiting]
}

/// The words that bytes are, such as those of a mapped file: none where the bytes do not start at a word's address or
/// do not make whole words. Words are in the machine's own byte order.
///
/// ```
/// use bead_index::{words_of_bytes, FileRef, Sizes};
///
/// # let sizes = Sizes::new();
/// # let mut memory = vec![0u32; sizes.words()];
/// # let mapped: &mut [u8] = unsafe { std::slice::from_raw_parts_mut(memory.as_mut_ptr().cast(), 4 * sizes.words()) };
/// let words = words_of_bytes(mapped).expect("a mapping starts at a page");
/// let mut file = FileRef::format(words, sizes)?;
/// assert_eq!(file.insert(7, 40), Ok(true));
/// # Ok::<(), bead_index::Refusal>(())
/// ```
#[must_use]
pub fn words_of_bytes(bytes: &mut [u8]) -> Option<&mut [u32]> {
    // SAFETY: any four bytes make a word, and any word four bytes.
    match unsafe { bytes.align_to_mut::<u32>() } {
        ([], words, []) => Some(words),
        _ => None,
    }
}

#[cfg(test)]
mod tests {
    use super::*;

    #[test]
    fn records_stand_where_their_words_do() {
        let mut words: Vec<u32> = (0..20).collect();
        let parties: &[PartyRecord] = records(&words);
        assert_eq!(parties.len(), 2);
        assert_eq!(
            (
                parties[0].operation,
                parties[0].setting,
                parties[1].operation
            ),
            (0, 9, 10)
        );
        records_mut::<RootRecord>(&mut words)[1].free = 99;
        assert_eq!(words[17], 99);
        assert_eq!(super::words(records::<PartyRecord>(&words)), words);
    }

    #[test]
    fn bytes_are_words_where_they_are_aligned_and_whole() {
        let mut words = [1u32, 2, 3];
        // SAFETY: twelve bytes are the three words.
        let bytes = unsafe { std::slice::from_raw_parts_mut(words.as_mut_ptr().cast::<u8>(), 12) };
        assert!(words_of_bytes(&mut bytes[1..]).is_none());
        assert!(words_of_bytes(&mut bytes[..7]).is_none());
        assert_eq!(words_of_bytes(&mut bytes[4..]), Some(&mut [2, 3][..]));
    }
}
