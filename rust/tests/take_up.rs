//! Files taken up: what the library says of words at rest, under way and altered, and that `flaw` says the same and
//! names each thing that can be wrong.

mod common;

use bead_index::{
    Error, File, FileRef, Flaw, Lent, Lock, Operation, PageFlaw, PartyRecord, Refusal, RootFlaw,
    RootRecord, Sizes,
};
use common::Random;
use std::collections::BTreeMap;

const SIZES: Sizes = Sizes::new()
    .original_chains(1)
    .records_a_page(2)
    .most_chains(8)
    .overflow_pages(10)
    .parties(3);

/// The place of a page's word in a file's row.
fn place_of(sizes: Sizes, page: u32, word: usize) -> usize {
    let first = sizes.words() - sizes.waiting_words() - sizes.page_words();
    first + 16 * page as usize + word
}

/// Some inserts and deletes, each run to its end.
fn worked(mut file: File, random: &mut Random) -> File {
    for _ in 0..random.below(60) {
        let key = random.below(200);
        let done = if random.below(4) == 0 {
            file.delete(key)
        } else {
            file.insert(key, random.below(100))
        };
        assert!(matches!(done, Ok(_) | Err(Error::NoPage)), "{done:?}");
    }
    file
}

/// What `flaw` says of words, after the library was seen to say the same.
fn agreed(words: &[u32]) -> Option<Flaw> {
    let file = match File::from_words(words.to_vec()) {
        Ok(file) => file,
        Err(refusal) => {
            assert_eq!(File::take_up(words.to_vec()).unwrap_err(), refusal);
            return None;
        }
    };
    let (flaw, mut lent) = (file.flaw(), words.to_vec());
    match FileRef::take_up(&mut lent) {
        Ok(_) => assert_eq!(flaw, None),
        Err(Refusal::Unsaved) => assert!(flaw.is_some(), "{file:?}"),
        Err(refusal) => panic!("{refusal}"),
    }
    assert_eq!(lent, words, "a take-up altered a word");
    flaw
}

/// The name of a flaw without its places and keys.
fn kind(flaw: Flaw) -> String {
    let name = format!("{flaw:?}");
    name.chars().filter(|c| !c.is_numeric()).collect()
}

#[test]
fn at_rest_and_nowhere_else() {
    let mut random = Random::new(5);
    let mut under_way = 0;
    for _ in 0..300 {
        let mut file = worked(File::new(SIZES).unwrap(), &mut random);
        assert_eq!(agreed(file.words()), None);
        let settings: BTreeMap<u32, u32> = file.records().unwrap().collect();
        let mut again = File::take_up(file.words().to_vec()).unwrap();
        for (key, setting) in settings {
            assert_eq!(again.find(key), Ok(Some(setting)));
        }
        file.begin(1, Operation::delete(random.below(200))).unwrap();
        while !file.is_at_rest() {
            assert_eq!(agreed(file.words()), Some(Flaw::Party(1)));
            let _ = file.step(1).unwrap();
            under_way += 1;
        }
        assert_eq!(agreed(file.words()), None);
    }
    assert!(under_way > 1000);
}

#[test]
fn altered_words_and_every_flaw() {
    let mut random = Random::new(17);
    let mut met: BTreeMap<String, u32> = BTreeMap::new();
    let mut passed = 0;
    for round in 0..4000 {
        let mut words = worked(File::new(SIZES).unwrap(), &mut random).into_words();
        for _ in 0..=random.below(3) {
            // Every other time a word of the root record, a link or a level, which the rest hangs on.
            let place = match random.below(4) {
                0 => 5 + random.below(4) as usize,
                1 => place_of(SIZES, random.below(18), random.below(5) as usize),
                _ => random.below(words.len() as u32) as usize,
            };
            words[place] = match random.below(4) {
                0 => words[place] ^ 1,
                1 => random.word() as u32,
                _ => random.below(20),
            };
        }
        match agreed(&words) {
            Some(flaw) => *met.entry(kind(flaw)).or_insert(0) += 1,
            None if File::from_words(words.clone()).is_ok() => {
                passed += 1;
                let file = worked(File::take_up(words).unwrap(), &mut random);
                assert_eq!(file.flaw(), None, "round {round}");
            }
            None => {}
        }
    }
    assert!(passed > 100, "{passed} altered files were taken up");
    let kinds = [
        "Party()",
        "Lock(Root)",
        "Lock(Chain())",
        "Waiting()",
        "Scratch()",
        "Root(Level)",
        "Root(Next)",
        "Root(Chains)",
        "Root(Free)",
        "Chain { chain: , page: , flaw: Level }",
        "Chain { chain: , page: , flaw: Count }",
        "Chain { chain: , page: , flaw: Link }",
        "Chain { chain: , page: , flaw: Order() }",
        "Chain { chain: , page: , flaw: Home() }",
        "Chain { chain: , page: , flaw: Unused }",
        "Beyond()",
        "FreeCount",
        "FreeLink",
        "FreePage()",
        "Twice()",
    ];
    for kind in kinds {
        assert!(met.contains_key(kind), "{kind} was not met: {met:#?}");
    }
}

/// A file with a word altered, and what is then wrong.
fn altered(file: &File, place: usize, word: u32) -> Flaw {
    let mut words = file.words().to_vec();
    words[place] = word;
    agreed(&words).expect("a word that tells")
}

#[test]
fn flaws_have_their_places() {
    let mut file = File::new(SIZES).unwrap();
    for key in [1, 2, 3, 5, 6] {
        file.insert(key, 40).unwrap();
    }
    let page = |page, word| place_of(SIZES, page, word);
    let locks = 9 + 3 * 10;
    assert_eq!(altered(&file, 9 + 2 * 10 + 5, 1), Flaw::Party(2));
    assert_eq!(altered(&file, locks, 1 << 31), Flaw::Lock(Lock::Root));
    assert_eq!(altered(&file, locks + 8, 1), Flaw::Lock(Lock::Chain(7)));
    assert_eq!(altered(&file, SIZES.words() - 1, 1), Flaw::Waiting(2));
    assert_eq!(altered(&file, page(19, 15), 1), Flaw::Scratch(1));
    assert_eq!(altered(&file, 6, 9), Flaw::Root(RootFlaw::Next));
    assert_eq!(altered(&file, page(7, 0), 1), Flaw::Beyond(7));
    let unused = Flaw::Chain {
        chain: 0,
        page: 0,
        flaw: PageFlaw::Unused,
    };
    assert_eq!(altered(&file, page(0, 15), 9), unused);
    assert_eq!(
        unused.to_string(),
        "chain 0, page 0: a word that is not used is not zero"
    );
    assert_eq!(
        Flaw::Lock(Lock::Root).to_string(),
        "the lock word of the root is not zero"
    );
}

#[test]
fn a_page_lost_and_a_root_that_did_not_wrap() {
    let mut file = File::new(SIZES).unwrap();
    let mut key = 0;
    while (file.level(), file.next_to_split()) != (1, 0) {
        file.insert(key, 40).unwrap();
        key += 1;
    }
    let mut words = file.words().to_vec();
    (words[5], words[6]) = (0, 1);
    assert_eq!(agreed(&words), Some(Flaw::Root(RootFlaw::Next)));
    let mut words = file.words().to_vec();
    let first = words[7] - 1;
    words[7] = words[place_of(SIZES, first, 2)];
    words[8] -= 1;
    assert_eq!(agreed(&words), Some(Flaw::Lost(first)));
}

#[test]
fn refused_in_their_order() {
    let words = File::new(SIZES).unwrap().into_words();
    let mut under_way = File::from_words(words.clone()).unwrap();
    under_way.begin(0, Operation::find(7)).unwrap();
    let mut longer = [under_way.words(), &[0]].concat();
    let refused = |words: &[u32]| File::take_up(words.to_vec()).unwrap_err();
    assert_eq!(refused(under_way.words()), Refusal::Unsaved);
    assert_eq!(refused(&longer), Refusal::Length);
    assert_eq!(
        FileRef::take_up(&mut longer[..]).unwrap_err(),
        Refusal::Length
    );
    longer[1] = 7;
    assert_eq!(refused(&longer), Refusal::Size);
    assert_eq!(refused(&[]), Refusal::Length);
    assert_eq!(Refusal::Unsaved.number(), 8);
    assert_eq!(
        Refusal::Unsaved.to_string(),
        "the words are no file at rest (refusal 8)"
    );
}

#[test]
fn in_five_parts() {
    let mut root = RootRecord::default();
    let mut parties = [PartyRecord::default(); 3];
    let (mut locks, mut pages, mut waiting) = ([0; 9], [0; 16 * 21], [0; 3]);
    macro_rules! lent {
        () => {
            Lent {
                root: &mut root,
                parties: &mut parties,
                locks: &mut locks,
                pages: &mut pages,
                waiting: &mut waiting,
            }
        };
    }
    assert_eq!(FileRef::take_up_parts(lent!()).unwrap_err(), Refusal::Size);
    FileRef::format_parts(lent!(), SIZES)
        .unwrap()
        .insert(7, 40)
        .unwrap();
    assert_eq!(
        FileRef::take_up_parts(lent!()).unwrap().find(7),
        Ok(Some(40))
    );
    parties[2].setting = 1;
    assert_eq!(
        FileRef::take_up_parts(lent!()).unwrap_err(),
        Refusal::Unsaved
    );
    let short = Lent {
        locks: &mut [0; 8],
        ..lent!()
    };
    assert_eq!(FileRef::take_up_parts(short).unwrap_err(), Refusal::Length);
}
