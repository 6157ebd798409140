//! Where every key stands when a file has a given number of chains, worked out anew from the whole
//! map, without level and next.

use std::collections::BTreeMap;

use sequential::{mixed, Record, Sizes};

/// The chain of a mixed key among `chains` chains: k mod m for the least m = N 2^i not below their
/// number, or k mod (m / 2) where that chain does not exist yet.
pub fn home(sizes: Sizes, chains: u32, key: u32) -> usize {
    let mut modulus = sizes.originals;
    while modulus < chains {
        modulus *= 2;
    }
    let chain = key % modulus;
    let home = if chain < chains {
        chain
    } else {
        key % (modulus / 2)
    };
    home as usize
}

/// All chains with their records, keys ascending.
pub fn placed(sizes: Sizes, chains: u32, settings: &BTreeMap<u32, u32>) -> Vec<Vec<Record>> {
    let mut placed = vec![Vec::new(); chains as usize];
    for (&key, &setting) in settings {
        placed[home(sizes, chains, mixed(key))].push(Record { key, setting });
    }
    placed
}

/// The overflow pages of a chain, by cutting its records into pages.
pub fn overflow_pages(sizes: Sizes, records: &[Record]) -> usize {
    let pages = records.chunks(sizes.records_a_page as usize);
    pages.skip(1).count()
}

/// V less the overflow pages of all chains.
pub fn free_pages(sizes: Sizes, chains: &[Vec<Record>]) -> usize {
    let pages = chains.iter().map(|records| overflow_pages(sizes, records));
    let used: usize = pages.sum();
    (sizes.overflow_pages as usize)
        .checked_sub(used)
        .expect("no more than V overflow pages in use")
}
