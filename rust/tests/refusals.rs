//! Every cause of the table through every call that has it, and that a refused call alters nothing.

use bead_index::{
    Answer, Error, File, FileRef, Lent, Operation, Outcome, PartyRecord, Refusal, RootRecord, Sizes,
};

const SIZES: Sizes = Sizes::new()
    .original_chains(2)
    .records_a_page(2)
    .most_chains(8)
    .overflow_pages(6)
    .parties(3);

fn file() -> File {
    File::new(SIZES).expect("the sizes are within their limits")
}

/// What a call answers, and that it left every word as it was.
fn unaltered<T>(file: &mut File, call: impl FnOnce(&mut File) -> T) -> T {
    let before = file.words().to_vec();
    let answer = call(file);
    assert!(file.words() == before, "a refused call altered a word");
    answer
}

#[test]
fn a_size_outside_its_limits() {
    assert_eq!(File::new(SIZES.parties(17)).unwrap_err(), Refusal::Size);
    assert_eq!(
        File::new(SIZES.most_chains(257)).unwrap_err(),
        Refusal::Size
    );
    assert!(File::new(SIZES.most_chains(256)).is_ok());
    let mut words = vec![7; SIZES.words()];
    assert_eq!(
        FileRef::format(&mut words, SIZES.original_chains(9)).unwrap_err(),
        Refusal::Size
    );
    assert_eq!(words, vec![7; SIZES.words()]);
    assert_eq!(
        FileRef::open(&mut vec![0; SIZES.words()]).unwrap_err(),
        Refusal::Size
    );
    assert_eq!(
        File::from_words(vec![0; SIZES.words()]).unwrap_err(),
        Refusal::Size
    );
}

#[test]
fn memory_of_another_length() {
    let mut words = file().into_words();
    words.push(0);
    assert_eq!(FileRef::open(&mut words).unwrap_err(), Refusal::Length);
    assert_eq!(
        FileRef::format(&mut words, SIZES).unwrap_err(),
        Refusal::Length
    );
    assert_eq!(FileRef::open(&mut []).unwrap_err(), Refusal::Length);
}

#[test]
fn parts_of_another_length() {
    let lengths = [
        (2, 9, 272, 3),
        (3, 8, 272, 3),
        (3, 9, 271, 3),
        (3, 9, 272, 2),
        (3, 9, 272, 4),
        (0, 0, 0, 0),
    ];
    for (parties, locks, pages, waiting) in lengths {
        let (mut root, mut party_row) =
            (RootRecord::default(), vec![PartyRecord::default(); parties]);
        let (mut lock_words, mut page_words) = (vec![0; locks], vec![0; pages]);
        let mut waiting_words = vec![0; waiting];
        let lent = Lent {
            root: &mut root,
            parties: &mut party_row,
            locks: &mut lock_words,
            pages: &mut page_words,
            waiting: &mut waiting_words,
        };
        assert_eq!(
            FileRef::format_parts(lent, SIZES).unwrap_err(),
            Refusal::Length
        );
        root.originals = 2;
        (root.capacity, root.primaries, root.overflow, root.parties) = (2, 8, 6, 3);
        let lent = Lent {
            root: &mut root,
            parties: &mut party_row,
            locks: &mut lock_words,
            pages: &mut page_words,
            waiting: &mut waiting_words,
        };
        assert_eq!(FileRef::open_parts(lent).unwrap_err(), Refusal::Length);
    }
}

#[test]
fn no_such_party() {
    let mut file = file();
    for party in [3, 16, u32::MAX] {
        assert_eq!(
            unaltered(&mut file, |file| file.begin(party, Operation::find(1))),
            Err(Refusal::Party)
        );
        assert_eq!(
            unaltered(&mut file, |file| file.step(party)),
            Err(Refusal::Party)
        );
        assert_eq!(
            unaltered(&mut file, |file| file.withdraw(party)),
            Err(Refusal::Party)
        );
        assert_eq!(file.under_way(party), Err(Refusal::Party));
        assert_eq!(file.wait(party), None);
        assert_eq!(
            file.insert_as(party, 1, 40),
            Err(Error::Refused(Refusal::Party))
        );
    }
    assert_eq!(file.insert_as(2, 1, 40), Ok(true));
}

#[test]
fn a_busy_and_an_idle_party() {
    let mut file = file();
    assert_eq!(
        unaltered(&mut file, |file| file.step(1)),
        Err(Refusal::Idle)
    );
    assert_eq!(
        unaltered(&mut file, |file| file.withdraw(1)),
        Err(Refusal::Idle)
    );
    assert_eq!(file.finish(1), Err(Error::Refused(Refusal::Idle)));
    file.begin(1, Operation::insert(5, 40)).unwrap();
    assert_eq!(
        unaltered(&mut file, |file| file.begin(1, Operation::find(5))),
        Err(Refusal::Busy)
    );
    assert_eq!(file.delete_as(1, 5), Err(Error::Refused(Refusal::Busy)));
    assert_eq!(file.finish(1), Ok(Answer::Inserted));
    assert_eq!(file.step(1), Err(Refusal::Idle));
}

#[test]
fn a_damaged_number() {
    let mut words = file().into_words();
    words[5] = 9; // level
    let mut damaged = File::from_words(words).expect("the sizes and the length are sound");
    damaged
        .begin(0, Operation::find(1))
        .expect("begin tests no damage");
    assert_eq!(
        unaltered(&mut damaged, |file| file.step(0)),
        Err(Refusal::Damage)
    );
    assert_eq!(
        unaltered(&mut damaged, |file| file.withdraw(0)),
        Err(Refusal::Damage)
    );
    assert_eq!(damaged.chain_count(), Err(Refusal::Damage));
    assert_eq!(damaged.wait(0), None);
    assert!(format!("{damaged:?}").contains("level: 9"));
}

#[test]
fn a_decided_operation() {
    for (operation, steps, answer) in [
        (Operation::find(4), 6, Answer::Found { setting: 40 }),
        (Operation::find(6), 6, Answer::Absent),
        (Operation::insert(4, 45), 7, Answer::Present),
        (Operation::insert(6, 45), 8, Answer::Inserted),
        (Operation::delete(6), 7, Answer::Absent),
        (Operation::delete(4), 8, Answer::Deleted),
    ] {
        let mut file = file();
        file.insert(4, 40).unwrap();
        file.begin(1, operation).unwrap();
        for _ in 0..steps {
            assert_eq!(file.step(1), Ok(Outcome::Moved));
        }
        assert_eq!(
            unaltered(&mut file, |file| file.withdraw(1)),
            Err(Refusal::Decided),
            "{operation}"
        );
        assert_eq!(file.finish(1), Ok(answer), "{operation}");
    }
}

#[test]
fn a_decided_operation_in_damaged_memory() {
    let mut file = file();
    file.begin(0, Operation::find(4)).unwrap();
    for _ in 0..6 {
        assert_eq!(file.step(0), Ok(Outcome::Moved));
    }
    let mut words = file.into_words();
    words[5] = 9; // level
    let mut damaged = File::from_words(words).expect("the sizes and the length are sound");
    assert_eq!(damaged.withdraw(0), Err(Refusal::Decided));
    assert_eq!(damaged.step(0), Err(Refusal::Damage));
}

#[test]
fn too_few_pages() {
    let mut file = File::new(
        Sizes::new()
            .most_chains(1)
            .records_a_page(1)
            .overflow_pages(1)
            .parties(1),
    )
    .unwrap();
    assert_eq!(
        (file.insert(1, 40), file.insert(2, 45)),
        (Ok(true), Ok(true))
    );
    assert_eq!(file.insert(3, 40), Err(Error::NoPage));
    assert_eq!(file.find(3), Ok(None));
    assert_eq!(
        file.records().unwrap().collect::<Vec<_>>(),
        [(1, 40), (2, 45)]
    );
}

#[test]
fn one_that_waits_is_not_overtaken() {
    let mut file = file();
    // 5, 13 and 14 have even mixed keys, and go to chain 0.
    for key in [5, 13] {
        file.insert(key, 40).unwrap();
    }
    file.begin(2, Operation::find(5)).unwrap();
    for _ in 0..5 {
        assert_eq!(file.step(2), Ok(Outcome::Moved));
    }
    assert!(matches!(file.insert(14, 60), Err(Error::Waits(_))));
    // A find that comes later goes with the one that holds the chain, and not with the insert that waits for it.
    let later = file.run(1, Operation::find(5)).unwrap_err();
    assert_eq!(
        later.to_string(),
        "party 1 waits for chain 0 (read), behind party 0; the operation stays under way"
    );
    assert_eq!(file.finish(2), Ok(Answer::Found { setting: 40 }));
    assert!(file.wait(1).is_some());
    assert_eq!(file.finish(0), Ok(Answer::Inserted));
    assert_eq!(file.finish(1), Ok(Answer::Found { setting: 40 }));
}

#[test]
fn one_that_waits_says_for_whom_and_goes_on() {
    let mut file = file();
    // 5, 13 and 14 have even mixed keys, and go to chain 0.
    file.begin(2, Operation::find(5)).unwrap();
    for _ in 0..5 {
        assert_eq!(file.step(2), Ok(Outcome::Moved));
    }
    assert_eq!(
        (file.insert(5, 40), file.insert(13, 45)),
        (Ok(true), Ok(true))
    );
    // The third key splits chain 0, and party 2 may be on its way along the old pages.
    let waiting = file.insert(14, 60).unwrap_err();
    assert_eq!(
        waiting.to_string(),
        "party 0 waits for chain 0 (exclusive), held by party 2; the operation stays under way"
    );
    assert_eq!(file.insert(12, 60), Err(Error::Refused(Refusal::Busy)));
    // It had the chain, and had not looked yet.
    assert_eq!(file.finish(2), Ok(Answer::Found { setting: 40 }));
    assert_eq!(file.finish(0), Ok(Answer::Inserted));
}
