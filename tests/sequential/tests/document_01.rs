//! The cases that document 01 checks by hand (P1 to P8), and the limits of the sizes.

mod common;

use common::key;
use sequential::{AddressSpace, HashFile, Operation, Record, Restructuring, Sizes};

fn space(originals: u32, level: u32, next: u32) -> AddressSpace {
    AddressSpace {
        originals,
        level,
        next,
    }
}

fn sizes([originals, records_a_page, most_chains, overflow_pages, parties]: [u32; 5]) -> Sizes {
    Sizes {
        originals,
        records_a_page,
        most_chains,
        overflow_pages,
        parties,
    }
}

/// A record of the key that goes where m would, its setting told from m.
fn record(m: u32) -> Record {
    let (key, setting) = (key(m), 100 + m);
    Record { key, setting }
}

/// "The address cases of document 01 are read with the mixed key given" (document 02, change 3).
#[test]
fn p1_to_p5_addresses() {
    let cases = [
        (space(2, 1, 0), 42, 2),
        (space(2, 1, 1), 20, 4),
        (space(2, 1, 1), 42, 2),
        (space(3, 1, 2), 7, 7),
        (space(1, 8, 0), 4294967295, 255),
    ];
    for (space, mixed, chain) in cases {
        let address = space.address_of(mixed);
        assert_eq!(address, chain, "mixed key {mixed} in {space:?}");
    }
}

#[test]
fn p6_the_last_split_of_a_round_raises_level() {
    assert_eq!(space(2, 1, 3).after_split(), space(2, 2, 0));
}

#[test]
fn p7_a_merge_at_next_0_lowers_level() {
    let before = space(2, 1, 0);
    assert_eq!((before.merge_target(), before.chains() - 1), (Some(1), 3));
    assert_eq!(before.after_merge(1), space(2, 0, 1));
}

#[test]
fn p6_and_p7_by_operations() {
    let mut file = HashFile::format(sizes([2, 1, 8, 20, 1])).unwrap();
    for m in [0, 2, 1, 3, 4, 5, 6, 7] {
        file.insert(record(m));
    }
    assert_eq!((file.space(), file.chains().len()), (space(2, 2, 0), 8));

    let mut file = HashFile::format(sizes([2, 1, 4, 20, 1])).unwrap();
    for m in [0, 2, 1, 3] {
        file.insert(record(m));
    }
    assert_eq!(file.space(), space(2, 1, 0));
    assert_eq!(file.chains(), [0, 1, 2, 3].map(|m| vec![record(m)]));
    assert_eq!(file.delete(key(1)).restructuring, Restructuring::Merged);
    assert_eq!(file.space(), space(2, 0, 1));
    let joined = [vec![record(0)], vec![record(3)], vec![record(2)]];
    assert_eq!(file.chains(), joined);
}

#[test]
fn p8_overflow_pages() {
    let two_a_page = sizes([1, 2, 1, 0, 1]);
    let pages = [0, 2, 3, 5].map(|records| two_a_page.overflow_pages_for(records));
    assert_eq!(pages, [0, 0, 1, 2]);
}

#[test]
fn sizes_at_their_limits_are_accepted() {
    for least_or_most in [
        [1, 1, 1, 0, 1],
        [1, 1, 256, 752, 16],
        [256, 6, 256, 752, 16],
        [256, 1, 256, 0, 1],
    ] {
        let file = HashFile::format(sizes(least_or_most)).expect("within the limits");
        assert_eq!(file.sizes(), sizes(least_or_most));
        assert_eq!(file.chains().len() as u32, least_or_most[0]);
        assert_eq!(file.free_pages() as u32, least_or_most[3]);
        assert_eq!(file.space(), space(least_or_most[0], 0, 0));
    }
}

#[test]
fn sizes_beyond_their_limits_are_refused() {
    for beyond in [
        [0, 1, 2, 0, 1],
        [3, 1, 2, 0, 1],
        [1, 0, 2, 0, 1],
        [1, 7, 2, 0, 1],
        [1, 1, 0, 0, 1],
        [1, 1, 257, 0, 1],
        [257, 1, 257, 0, 1],
        [1, 1, 2, 753, 1],
        [1, 1, 2, 0, 0],
        [1, 1, 2, 0, 17],
        [u32::MAX; 5],
    ] {
        assert_eq!(HashFile::format(sizes(beyond)), None, "{beyond:?}");
    }
}

#[test]
fn the_printed_script_is_answered_absent() {
    let mut file = HashFile::format(sizes([1, 1, 2, 0, 1])).unwrap();
    let outcome = file.perform(Operation::Find(7));
    assert_eq!(outcome.to_string(), "(done absent none)");
}
