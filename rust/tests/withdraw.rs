//! Operations that are withdrawn: what is left is the file as it was before they were begun.

mod common;

use bead_index::{
    Answer, Error, File, FileRef, Kind, Lent, Operation, Outcome, PartyRecord, Refusal, RootRecord,
    Sizes,
};
use common::Random;
use std::collections::HashSet;

const SIZES: Sizes = Sizes::new()
    .original_chains(1)
    .records_a_page(1)
    .most_chains(6)
    .overflow_pages(12)
    .parties(4);

/// One of the three operations on a small key.
fn any_operation(random: &mut Random) -> Operation {
    let key = random.below(12);
    match random.below(3) {
        0 => Operation::find(key),
        1 => Operation::insert(key, random.below(100)),
        _ => Operation::delete(key),
    }
}

/// A file in which parties 1 to 3 have operations under way, each as far as it happened to come.
fn busy_file(random: &mut Random) -> File {
    let mut file = File::new(SIZES).unwrap();
    for _ in 0..random.below(8) {
        let _ = file.run(0, any_operation(random)).unwrap();
    }
    for _ in 0..random.below(50) {
        let party = 1 + random.below(3);
        match file.under_way(party).unwrap() {
            Some(_) => drop(file.step(party).unwrap()),
            None => file.begin(party, any_operation(random)).unwrap(),
        }
    }
    file
}

/// Withdraws party 0's operation in a copy of the file, which then has the words given; the kind of the operation and
/// its step, or none where that is decided.
fn withdraw_from_copy(file: &File, before: &[u32]) -> Option<(Kind, u32)> {
    let under_way = file.under_way(0).unwrap().expect("it is not done yet");
    let mut copy = file.clone();
    match copy.withdraw(0) {
        Ok(()) => {
            assert!(copy.words() == before, "{under_way}: a word differs");
            Some((under_way.operation.kind(), under_way.step))
        }
        Err(refusal) => {
            assert_eq!(refusal, Refusal::Decided, "{under_way}");
            None
        }
    }
}

#[test]
fn alone_every_word_is_as_before_the_begin() {
    let mut random = Random::new(5);
    let mut met = HashSet::new();
    for _ in 0..4000 {
        let mut file = busy_file(&mut random);
        let before = file.words().to_vec();
        file.begin(0, any_operation(&mut random)).unwrap();
        while let Some(place) = withdraw_from_copy(&file, &before) {
            met.insert(place);
            if file.step(0) == Ok(Outcome::Waiting) {
                break;
            }
        }
    }
    // A find at 1 to 8, an insert and a delete at 1 to 8, 10 and 11.
    assert_eq!(met.len(), 28, "not all were met: {met:?}");
}

#[test]
fn who_waited_for_a_withdrawn_operation_goes_on() {
    let mut file = File::new(SIZES).unwrap();
    file.insert(4, 40).unwrap();
    file.begin(1, Operation::delete(4)).unwrap();
    for _ in 0..7 {
        assert_eq!(file.step(1), Ok(Outcome::Moved));
    }
    let waits = match file.insert(6, 45) {
        Err(Error::Waits(wait)) => wait,
        other => panic!("{other:?}"),
    };
    assert_eq!(waits.holders, [1]);
    file.withdraw(1).unwrap();
    assert_eq!(file.wait(0), None);
    assert_eq!(file.finish(0), Ok(Answer::Inserted));
    assert_eq!(file.find(4), Ok(Some(40)));
}

#[test]
fn who_waits_can_be_withdrawn() {
    let mut file = File::new(SIZES).unwrap();
    file.begin(1, Operation::insert(4, 40)).unwrap();
    for _ in 0..7 {
        assert_eq!(file.step(1), Ok(Outcome::Moved));
    }
    let before = file.words().to_vec();
    assert!(matches!(file.insert(4, 45), Err(Error::Waits(_))));
    file.withdraw(0).unwrap();
    assert_eq!(file.words(), before);
    assert_eq!(file.finish(1), Ok(Answer::Inserted));
    assert_eq!(file.find(4), Ok(Some(40)));
}

#[test]
fn pages_built_are_free_for_others() {
    let mut file = File::new(SIZES.most_chains(1).overflow_pages(3)).unwrap();
    for key in [1, 2] {
        file.insert(key, 40).unwrap();
    }
    file.begin(1, Operation::insert(3, 40)).unwrap();
    for _ in 0..7 {
        assert_eq!(file.step(1), Ok(Outcome::Moved));
    }
    assert_eq!(file.free_pages(), 0);
    file.withdraw(1).unwrap();
    assert_eq!(file.free_pages(), 2);
    assert_eq!(file.insert(3, 45), Ok(true));
}

#[test]
fn in_memory_of_the_caller() {
    let mut memory = vec![0; SIZES.words()];
    let mut file = FileRef::format(&mut memory, SIZES).unwrap();
    file.insert(4, 40).unwrap();
    let before = memory.clone();
    let mut file = FileRef::open(&mut memory).unwrap();
    file.begin(3, Operation::delete(4)).unwrap();
    assert_eq!(file.step(3), Ok(Outcome::Moved));
    assert_eq!(file.lend().withdraw(3), Ok(()));
    assert_eq!(memory, before);
}

#[test]
fn in_four_parts() {
    let mut root = RootRecord::default();
    let mut parties = [PartyRecord::default(); 4];
    let (mut locks, mut pages, mut waiting) = ([0; 7], [0; 16 * 22], [0; 4]);
    let lent = Lent {
        root: &mut root,
        parties: &mut parties,
        locks: &mut locks,
        pages: &mut pages,
        waiting: &mut waiting,
    };
    let mut file = FileRef::format_parts(lent, SIZES).unwrap();
    file.begin(2, Operation::insert(9, 40)).unwrap();
    assert_eq!(file.step(2), Ok(Outcome::Moved));
    assert_eq!(file.withdraw(2), Ok(()));
    assert_eq!(file.withdraw(2), Err(Refusal::Idle));
    assert_eq!((locks[0], parties[2]), (0, PartyRecord::default()));
}
