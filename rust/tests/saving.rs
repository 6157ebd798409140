//! Files saved and loaded, and files brought to rest.

mod common;

use bead_index::{Answer, Error, File, FileError, FileRef, Operation, Outcome, Refusal, Sizes};
use common::Random;
use std::collections::BTreeMap;
use std::io::{self, Read, Write};

const SIZES: Sizes = Sizes::new()
    .original_chains(1)
    .records_a_page(2)
    .most_chains(8)
    .overflow_pages(10)
    .parties(3);

/// A file with twenty keys.
fn filled() -> File {
    let mut file = File::new(SIZES).unwrap();
    for key in 0..20 {
        file.insert(key, 100 + key).unwrap();
    }
    file
}

/// The place of a file's first page word in its row.
fn first_page(sizes: Sizes) -> usize {
    sizes.words() - sizes.waiting_words() - sizes.page_words()
}

fn saved(file: &File) -> Vec<u8> {
    let mut bytes = Vec::new();
    file.save(&mut bytes).unwrap();
    bytes
}

/// What loading these bytes is refused for.
fn refused(bytes: &[u8]) -> Refusal {
    match File::load(bytes).unwrap_err() {
        FileError::Index(Error::Refused(refusal)) => refusal,
        error => panic!("{error}"),
    }
}

#[test]
fn a_file_is_saved_and_loaded() {
    let file = filled();
    let bytes = saved(&file);
    assert_eq!(bytes.len(), 4 * SIZES.words());
    for (word, bytes) in file.words().iter().zip(bytes.chunks(4)) {
        assert_eq!(word.to_le_bytes(), bytes);
    }
    let mut again = File::load(&bytes[..]).unwrap();
    assert_eq!(again.words(), file.words());
    assert_eq!(again.find(7), Ok(Some(107)));
    let (mut words, mut lent_bytes) = (file.into_words(), Vec::new());
    FileRef::open(&mut words)
        .unwrap()
        .save(&mut lent_bytes)
        .unwrap();
    assert_eq!(lent_bytes, bytes);
}

#[test]
fn bytes_that_are_no_file_are_refused() {
    let bytes = saved(&filled());
    for length in [0, 1, 35, 36, 37, 400, bytes.len() - 4, bytes.len() - 1] {
        assert_eq!(refused(&bytes[..length]), Refusal::Length, "{length} bytes");
    }
    assert_eq!(refused(&[&bytes[..], &[0]].concat()), Refusal::Length);
    assert_eq!(refused(&[&bytes[..], &[0; 4]].concat()), Refusal::Length);
    assert_eq!(refused(&[0; 4000]), Refusal::Size);
    // A file in which there is no row of who waits.
    let without = bytes.len() - 4 * SIZES.waiting_words();
    assert_eq!(refused(&bytes[..without]), Refusal::Length);
    let mut altered = bytes.clone();
    *altered.last_mut().unwrap() = 1;
    assert_eq!(refused(&altered), Refusal::Unsaved);
}

#[test]
fn the_other_byte_order_is_refused() {
    let mut bytes = saved(&filled());
    bytes.chunks_mut(4).for_each(<[u8]>::reverse);
    assert_eq!(refused(&bytes), Refusal::Size);
    assert!((1..=256u32).all(|chains| chains.swap_bytes() > 256));
}

/// An output and an input that fail.
struct Broken;

impl Write for Broken {
    fn write(&mut self, _: &[u8]) -> io::Result<usize> {
        Err(io::ErrorKind::Other.into())
    }

    fn flush(&mut self) -> io::Result<()> {
        Ok(())
    }
}

impl Read for Broken {
    fn read(&mut self, _: &mut [u8]) -> io::Result<usize> {
        Err(io::ErrorKind::Other.into())
    }
}

#[test]
fn nothing_is_saved_that_could_not_be_loaded() {
    let mut file = filled();
    assert!(matches!(file.save(Broken), Err(FileError::Io(_))));
    assert!(matches!(File::load(Broken), Err(FileError::Io(_))));
    file.begin(2, Operation::find(7)).unwrap();
    let mut bytes = Vec::new();
    let error = file.save(&mut bytes).unwrap_err();
    assert_eq!(
        error.to_string(),
        "the file is not at rest: party 2 has an operation under way"
    );
    assert!(matches!(
        error,
        FileError::Index(Error::UnderWay { party: 2 })
    ));
    file.withdraw(2).unwrap();
    let mut words = file.into_words();
    *words.last_mut().unwrap() = 1;
    let damaged = File::from_words(words).unwrap();
    let error = damaged.save(&mut bytes).unwrap_err();
    assert!(matches!(
        error,
        FileError::Index(Error::Refused(Refusal::Unsaved))
    ));
    assert!(bytes.is_empty());
}

/// What an answer makes of a key.
fn apply(settings: &mut BTreeMap<u32, u32>, operation: Operation, answer: Answer) {
    match answer {
        Answer::Inserted => settings.insert(operation.key(), operation.setting().unwrap()),
        Answer::Deleted => settings.remove(&operation.key()),
        _ => None,
    };
}

#[test]
fn settled_files_are_taken_up() {
    let mut random = Random::new(29);
    let (mut withdrawn, mut ended) = (0, 0);
    for _ in 0..1000 {
        let mut file = filled();
        let mut settings: BTreeMap<u32, u32> = file.records().unwrap().collect();
        // Keys of different parties differ, so their order does not matter.
        let operations: Vec<Operation> = (0..3)
            .map(|party| {
                let key = 3 * random.below(12) + party;
                match random.below(4) {
                    0 => Operation::find(key),
                    1 => Operation::insert(key, random.below(100)),
                    _ => Operation::delete(key),
                }
            })
            .collect();
        for (party, operation) in (0..).zip(&operations) {
            file.begin(party, *operation).unwrap();
        }
        for _ in 0..random.below(80) {
            let party = random.below(3);
            if let Ok(Outcome::Done { answer, .. }) = file.step(party) {
                apply(&mut settings, operations[party as usize], answer);
            }
        }
        let busy = (0..3).filter(|party| file.under_way(*party).unwrap().is_some());
        let busy = busy.count();
        let answers = file.settle().unwrap();
        ended += answers.len();
        withdrawn += busy - answers.len();
        for (party, answer) in answers {
            apply(&mut settings, operations[party as usize], answer);
        }
        let taken = File::take_up(file.into_words()).unwrap();
        let records: BTreeMap<u32, u32> = taken.records().unwrap().collect();
        assert_eq!(records, settings);
    }
    assert!(withdrawn > 200 && ended > 200, "{withdrawn}, {ended}");
}

#[test]
fn damaged_words_are_settled_or_not_but_settling_ends() {
    let mut random = Random::new(31);
    let (mut settled, mut errors) = (0, BTreeMap::new());
    for _ in 0..2000 {
        let mut file = filled();
        for party in 0..3 {
            let key = random.below(30);
            let operation = [
                Operation::find(key),
                Operation::insert(key, 40),
                Operation::delete(key),
            ][random.below(3) as usize];
            file.begin(party, operation).unwrap();
        }
        for _ in 0..random.below(60) {
            let _ = file.step(random.below(3));
        }
        let mut words = file.into_words();
        for _ in 0..=random.below(3) {
            // Half of them before the pages: what is left of the root record, records and lock words.
            let end = [SIZES.words(), first_page(SIZES)][random.below(2) as usize];
            let place = 5 + random.below(end as u32 - 5) as usize;
            words[place] = [random.below(30), random.word() as u32][random.below(2) as usize];
        }
        let mut file = File::from_words(words).unwrap();
        match file.settle() {
            Ok(_) => {
                assert!(file.is_at_rest());
                settled += 1;
            }
            Err(error) => {
                let name = format!("{error:?}");
                let name = name.split([' ', '{']).next().unwrap().to_string();
                *errors.entry(name).or_insert(0) += 1;
            }
        }
    }
    assert!(settled > 100, "{settled}");
    for name in ["Refused(Damage)", "Waits(Wait"] {
        assert!(errors.contains_key(name), "{errors:?}");
    }
}

#[test]
fn a_find_that_goes_round_is_not_settled() {
    let mut file = File::new(SIZES.most_chains(1)).unwrap();
    for key in [1, 2, 3, 5, 6] {
        file.insert(key, 40).unwrap();
    }
    file.begin(0, Operation::find(9)).unwrap();
    while file.under_way(0).unwrap().unwrap().step != 9 {
        let _ = file.step(0).unwrap();
    }
    let first_page = first_page(SIZES.most_chains(1));
    let mut words = file.into_words();
    let link = words[first_page + 2];
    words[first_page + 16 * (link as usize - 1) + 2] = link;
    let mut file = File::from_words(words).unwrap();
    assert_eq!(file.settle(), Err(Error::Circle { party: 0 }));
}
