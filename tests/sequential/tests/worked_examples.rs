//! Short runs worked out by hand: splits, merges and shortages, with the chains that each leaves.
//! A number m stands for the key that goes where m would if keys were not mixed (`common::key`).

mod common;

use common::key;
use sequential::{HashFile, Operation, Record, Sizes};

/// A file of N, b, P and V.
fn formatted([originals, records_a_page, most_chains, overflow_pages]: [u32; 4]) -> HashFile {
    let sizes = Sizes {
        originals,
        records_a_page,
        most_chains,
        overflow_pages,
        parties: 1,
    };
    HashFile::format(sizes).expect("sizes within their limits")
}

/// The setting that a key has in these runs.
fn setting(m: u32) -> u32 {
    !m
}

/// An insert of a key with its setting, a find and a delete.
fn insert(m: u32) -> Operation {
    Operation::Insert(key(m), setting(m))
}

fn find(m: u32) -> Operation {
    Operation::Find(key(m))
}

fn delete(m: u32) -> Operation {
    Operation::Delete(key(m))
}

/// Performs each operation and compares what it reports.
fn run(file: &mut HashFile, script: &[(Operation, &str)]) {
    for (operation, report) in script {
        let said = file.perform(*operation).to_string();
        assert_eq!(said, format!("(done {report})"), "{operation:?}");
    }
}

/// Inserts keys that all go in and bring about no restructuring.
fn fill(file: &mut HashFile, keys: &[u32]) {
    for m in keys {
        run(file, &[(insert(*m), "inserted none")]);
    }
}

/// The records of keys with their settings.
fn records(keys: &[u32]) -> Vec<Record> {
    let record = |&m| Record {
        key: key(m),
        setting: setting(m),
    };
    keys.iter().map(record).collect()
}

/// Compares level, next, the free pages and the chains, given by their keys.
fn expect(file: &HashFile, root: (u32, u32), free_pages: usize, chains: &[&[u32]]) {
    assert_eq!((file.space().level, file.space().next), root);
    assert_eq!(file.free_pages(), free_pages);
    let due: Vec<Vec<Record>> = chains.iter().map(|keys| records(keys)).collect();
    assert_eq!(file.chains(), due);
}

/// The insertion of 42 that Ellis walks through: an overflow in chain 2 splits chain 0.
#[test]
fn an_overflow_splits_the_chain_that_is_next() {
    let mut file = formatted([2, 2, 8, 8]);
    fill(&mut file, &[4, 0]);
    run(&mut file, &[(insert(20), "inserted split")]);
    fill(&mut file, &[8, 1, 3]);
    run(&mut file, &[(insert(5), "inserted split")]);
    fill(&mut file, &[2, 6]);
    expect(&file, (1, 0), 7, &[&[0, 4, 8, 20], &[1, 5], &[2, 6], &[3]]);
    run(&mut file, &[(insert(42), "inserted split")]);
    let chains: [&[u32]; 5] = [&[0, 8], &[1, 5], &[2, 6, 42], &[3], &[4, 20]];
    expect(&file, (1, 1), 7, &chains);
    run(
        &mut file,
        &[
            (find(20), "(found 4294967275) none"),
            (find(12), "absent none"),
            (insert(42), "present none"),
            (delete(10), "absent none"),
        ],
    );
    expect(&file, (1, 1), 7, &chains);
}

#[test]
fn a_split_is_skipped_at_the_most_chains() {
    let mut file = formatted([1, 1, 1, 3]);
    fill(&mut file, &[7]);
    run(
        &mut file,
        &[
            (insert(5), "inserted split-skipped"),
            (insert(9), "inserted split-skipped"),
            (insert(11), "no-page none"),
        ],
    );
    expect(&file, (0, 0), 1, &[&[5, 7, 9]]);
}

/// Both halves need pages while the chain still holds its own.
#[test]
fn a_split_is_skipped_for_want_of_pages() {
    let script = |last| [(insert(0), "inserted none"), (insert(2), last)];
    let mut file = formatted([1, 1, 4, 1]);
    run(&mut file, &script("inserted split-skipped"));
    expect(&file, (0, 0), 0, &[&[0, 2]]);
    let mut file = formatted([1, 1, 4, 2]);
    run(&mut file, &script("inserted split"));
    expect(&file, (1, 0), 1, &[&[0, 2], &[]]);
}

/// The split finds the page that its insert gave back.
#[test]
fn an_insert_gives_its_old_pages_back_before_the_split() {
    let mut file = formatted([1, 1, 4, 3]);
    run(
        &mut file,
        &[
            (insert(0), "inserted none"),
            (insert(2), "inserted split"),
            (insert(4), "inserted split"),
        ],
    );
    expect(&file, (1, 1), 2, &[&[0, 4], &[], &[2]]);
}

/// A change needs pages for the whole new chain, even where it makes the chain shorter.
#[test]
fn a_change_is_refused_for_want_of_pages() {
    let mut file = formatted([2, 1, 2, 3]);
    fill(&mut file, &[0]);
    run(
        &mut file,
        &[
            (insert(2), "inserted split-skipped"),
            (insert(4), "inserted split-skipped"),
            (insert(1), "inserted none"),
            (insert(3), "inserted split-skipped"),
            (delete(4), "no-page none"),
            (insert(5), "no-page none"),
            (insert(4), "present none"),
            (delete(6), "absent none"),
            (find(4), "(found 4294967291) none"),
        ],
    );
    expect(&file, (0, 0), 0, &[&[0, 2, 4], &[1, 3]]);
    run(
        &mut file,
        &[(delete(3), "deleted none"), (delete(4), "deleted none")],
    );
    expect(&file, (0, 0), 2, &[&[0, 2], &[1]]);
}

/// The chain emptied need not be one of the two that are joined.
#[test]
fn an_emptied_chain_merges_the_last_chain() {
    let mut file = formatted([2, 2, 3, 2]);
    fill(&mut file, &[0, 2]);
    run(&mut file, &[(insert(4), "inserted split")]);
    fill(&mut file, &[1]);
    run(
        &mut file,
        &[(delete(4), "deleted none"), (delete(1), "deleted merged")],
    );
    expect(&file, (0, 0), 2, &[&[0, 2], &[]]);
    run(
        &mut file,
        &[
            (delete(0), "deleted none"),
            (delete(2), "deleted merge-skipped"),
        ],
    );
    expect(&file, (0, 0), 2, &[&[], &[]]);
}

/// Pages are free, and the joined records would need one.
#[test]
fn a_merge_is_skipped_where_the_records_do_not_fit() {
    let mut file = formatted([2, 2, 3, 2]);
    fill(&mut file, &[0, 2]);
    run(&mut file, &[(insert(4), "inserted split")]);
    fill(&mut file, &[1]);
    run(&mut file, &[(delete(1), "deleted merge-skipped")]);
    expect(&file, (0, 1), 2, &[&[0, 4], &[], &[2]]);
    fill(&mut file, &[1]);
    run(
        &mut file,
        &[(delete(0), "deleted none"), (delete(1), "deleted merged")],
    );
    expect(&file, (0, 0), 2, &[&[2, 4], &[]]);
}

/// The last free page is in a chain that the merge does not touch.
#[test]
fn a_merge_needs_no_free_page() {
    let mut file = formatted([2, 1, 3, 1]);
    fill(&mut file, &[0]);
    run(&mut file, &[(insert(2), "inserted split")]);
    fill(&mut file, &[1]);
    run(
        &mut file,
        &[
            (insert(3), "inserted split-skipped"),
            (delete(2), "deleted merged"),
        ],
    );
    expect(&file, (0, 0), 0, &[&[0], &[1, 3]]);
}

/// A merge in the middle of a round moves next back by one and leaves level.
#[test]
fn a_merge_moves_next_back() {
    let mut file = formatted([2, 1, 8, 4]);
    for m in [0, 2, 1, 3, 4] {
        file.perform(insert(m));
    }
    expect(&file, (1, 1), 4, &[&[0], &[1], &[2], &[3], &[4]]);
    run(&mut file, &[(delete(4), "deleted merged")]);
    expect(&file, (1, 0), 4, &[&[0], &[1], &[2], &[3]]);
    run(&mut file, &[(delete(1), "deleted merged")]);
    expect(&file, (0, 1), 4, &[&[0], &[3], &[2]]);
}

#[test]
fn the_largest_key_is_a_key() {
    let mut file = formatted([3, 6, 256, 752]);
    let key = 4294967295;
    run(
        &mut file,
        &[
            (Operation::Find(key), "absent none"),
            (Operation::Insert(key, 0), "inserted none"),
            (Operation::Insert(key, 0), "present none"),
            (Operation::Find(key), "(found 0) none"),
            (Operation::Delete(key), "deleted merge-skipped"),
            (Operation::Delete(key), "absent none"),
        ],
    );
}

/// "an insert of a present key keeps the old one"; a delete takes the setting with the key.
#[test]
fn a_present_key_keeps_its_setting() {
    let mut file = formatted([1, 1, 2, 4]);
    run(
        &mut file,
        &[
            (Operation::Insert(key(7), 5), "inserted none"),
            (Operation::Insert(key(7), 6), "present none"),
            (find(7), "(found 5) none"),
            (Operation::Insert(key(9), 4294967295), "inserted split"),
            (Operation::Insert(key(9), 5), "present none"),
            (find(9), "(found 4294967295) none"),
            (find(7), "(found 5) none"),
            (delete(7), "deleted none"),
            (find(7), "absent none"),
            (Operation::Insert(key(7), 6), "inserted split-skipped"),
            (find(7), "(found 6) none"),
        ],
    );
}
