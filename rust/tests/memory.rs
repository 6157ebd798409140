//! Files in memory that the caller owns, and what is made of memory that something else wrote to.

mod common;

use bead_index::{
    Error, File, FileRef, Lent, Operation, Outcome, PartyRecord, Refusal, RootRecord, Sizes,
};
use common::Random;

const SIZES: Sizes = Sizes::new()
    .original_chains(2)
    .records_a_page(2)
    .most_chains(8)
    .overflow_pages(12)
    .parties(3);

/// The place of a file's first page word in its row.
fn pages_start(sizes: Sizes) -> usize {
    sizes.words() - sizes.waiting_words() - sizes.page_words()
}

/// A file with some keys and three operations under way, as a row of words.
fn busy_words(random: &mut Random) -> Vec<u32> {
    let mut file = File::new(SIZES).unwrap();
    for _ in 0..10 {
        file.insert(random.below(1000), random.below(1000)).unwrap();
    }
    for party in 0..3 {
        let key = random.below(1000);
        let operations = [
            Operation::find(key),
            Operation::insert(key, random.below(1000)),
            Operation::delete(key),
        ];
        file.begin(party, operations[random.below(3) as usize])
            .unwrap();
    }
    for _ in 0..random.below(60) {
        let _ = file.step(random.below(3));
    }
    file.into_words()
}

#[test]
fn a_vector_of_the_caller() {
    let mut memory = vec![0xdead_beef; SIZES.words()];
    let mut file = FileRef::format(&mut memory, SIZES).unwrap();
    for key in 0..20 {
        assert_eq!(file.insert(key, 100 + key), Ok(true));
    }
    let mut owned = File::from_words(memory.clone()).unwrap();
    assert_eq!(owned.find(19), Ok(Some(119)));
    let mut again = FileRef::open(&mut memory).unwrap();
    assert_eq!(again.records().unwrap().len(), 20);
    assert_eq!(again.delete(19), Ok(true));
    assert!(!again.records().unwrap().any(|(key, _)| key == 19));
}

#[test]
fn a_slice_amid_other_words() {
    let mut memory = vec![0xaaaa_aaaa; SIZES.words() + 200];
    let mut file = FileRef::format(&mut memory[100..100 + SIZES.words()], SIZES).unwrap();
    let mut random = Random::new(3);
    for _ in 0..500 {
        let key = random.below(60);
        let done = if random.below(2) == 0 {
            file.insert(key, 40)
        } else {
            file.delete(key)
        };
        assert!(matches!(done, Ok(_) | Err(Error::NoPage)), "{done:?}");
    }
    assert!(memory[..100].iter().all(|&word| word == 0xaaaa_aaaa));
    assert!(memory[100 + SIZES.words()..]
        .iter()
        .all(|&word| word == 0xaaaa_aaaa));
}

#[test]
fn five_parts_in_different_places() {
    let mut root = RootRecord::default();
    let mut parties = [PartyRecord::default(); 3];
    let mut locks = [0; 9];
    let mut pages = [0; 16 * 23];
    let mut waiting = [0; 3];
    let lent = Lent {
        root: &mut root,
        parties: &mut parties,
        locks: &mut locks,
        pages: &mut pages,
        waiting: &mut waiting,
    };
    let mut file = FileRef::format_parts(lent, SIZES).unwrap();
    file.begin(1, Operation::insert(9, 40)).unwrap();
    assert_eq!(file.step(1), Ok(Outcome::Moved));
    let PartyRecord {
        key, step, setting, ..
    } = parties[1];
    assert_eq!((locks[0], key, step, setting), (1 << 1, 9, 2, 40));
    let lent = Lent {
        root: &mut root,
        parties: &mut parties,
        locks: &mut locks,
        pages: &mut pages,
        waiting: &mut waiting,
    };
    let mut file = FileRef::open_parts(lent).unwrap();
    assert!(file.finish(1).is_ok());
    assert_eq!((root.level, root.next), (0, 0));
    assert_eq!(pages[16..16 + 6], [0, 1, 0, 9, 40, 0]);
}

#[test]
fn a_file_lent_on() {
    fn fill(mut file: FileRef<'_>) {
        file.insert(1, 40).unwrap();
    }
    let mut file = File::new(SIZES).unwrap();
    fill(file.lend());
    let mut lent = file.lend();
    fill(lent.lend());
    assert_eq!(lent.find(1), Ok(Some(40)));
    assert_eq!(file.records().unwrap().collect::<Vec<_>>(), [(1, 40)]);
}

#[test]
fn records_of_a_large_file() {
    let mut file = File::new(Sizes::new()).unwrap();
    let records: Vec<(u32, u32)> = (0..1500)
        .map(|place: u32| (place.wrapping_mul(2_654_435_761), place))
        .collect();
    for &(key, setting) in &records {
        assert_eq!(file.insert(key, setting), Ok(true));
    }
    let mut listed: Vec<(u32, u32)> = file.records().unwrap().collect();
    assert_eq!(file.records().unwrap().len(), records.len());
    let mut sorted = records;
    listed.sort_unstable();
    sorted.sort_unstable();
    assert_eq!(listed, sorted);
}

#[test]
fn a_circle_of_pages_ends() {
    let sizes = SIZES.most_chains(2);
    let mut file = File::new(sizes).unwrap();
    // Keys whose mixed keys are even: all go to chain 0, and so does 12.
    for key in [1, 2, 3, 5, 6] {
        file.insert(key, 40).unwrap();
    }
    let mut words = file.into_words();
    let pages = &mut words[pages_start(sizes)..];
    let link = pages[2];
    pages[16 * (link as usize - 1) + 2] = link; // the second page of chain 0 names itself
    let mut file = File::from_words(words).unwrap();
    assert_eq!(file.records().unwrap_err(), Error::Refused(Refusal::Damage));
    assert!(format!("{file:?}").contains("0 damaged"));
    assert_eq!(file.find(12), Err(Error::Circle { party: 0 }));
    assert_eq!(file.records().unwrap_err(), Error::UnderWay { party: 0 });
}

/// Withdraws a party's operation in a copy of the file, and counts what comes of it: withdrawn, or refused for damage.
fn withdraw_from_copy(file: &File, party: u32, met: &mut [usize; 5]) {
    let mut copy = file.clone();
    match copy.withdraw(party) {
        Ok(()) => {
            assert_eq!(copy.under_way(party), Ok(None));
            met[3] += 1;
        }
        Err(refusal) => {
            assert!(
                copy.words() == file.words(),
                "a refused withdraw altered a word"
            );
            met[4] += usize::from(refusal == Refusal::Damage);
        }
    }
}

#[test]
fn any_words_are_read_without_harm() {
    let mut random = Random::new(11);
    let mut met = [0; 5];
    for round in 0..600 {
        let mut words = busy_words(&mut random);
        // Half the rounds alter lock words and records, half any word, one in eight of them who waits; the sizes stay.
        let end = if round % 2 == 0 {
            pages_start(SIZES)
        } else {
            SIZES.words()
        };
        for _ in 0..=round / 100 {
            let place = if random.below(8) == 0 {
                SIZES.words() - 1 - random.below(3) as usize
            } else {
                5 + random.below(end as u32 - 5) as usize
            };
            words[place] = if random.below(2) == 0 {
                random.below(30)
            } else {
                random.word() as u32
            };
        }
        let mut file = File::from_words(words).unwrap();
        for party in 0..3 {
            withdraw_from_copy(&file, party, &mut met);
        }
        for turn in 0..30 {
            let _ = (file.records().map(Iterator::count), format!("{file:#?}"));
            let waits = file.wait(turn % 3).is_some();
            match file.step(turn % 3) {
                Ok(Outcome::Waiting) => {
                    assert!(waits, "party {} waits for nobody: {file:?}", turn % 3)
                }
                Ok(_) => assert!(!waits, "party {} does not wait: {file:?}", turn % 3),
                Err(_) => met[2] += 1,
            }
            met[usize::from(waits)] += 1;
        }
        let _ = file.finish(0);
    }
    assert!(
        met.iter().all(|&times| times > 100),
        "moved, waited, refused, withdrawn, not withdrawn for damage: {met:?}"
    );
}
