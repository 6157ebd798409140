//! Parties in a random order against a plain map: every answer is the one that the map gives at the operation's
//! decisive step, a party waits exactly where it is said to, somebody can always move, a withdrawn operation leaves the
//! map as it was, and no operation takes more calls than `Sizes::most_calls` says.

mod common;

use bead_index::{Answer, File, Kind, Operation, Outcome, Refusal, Restructuring, Sizes, UnderWay};
use common::Random;
use std::collections::hash_map::Entry;
use std::collections::{HashMap, HashSet};
use std::mem;

/// The book of the specification: a map of keys to settings, and the answer that each party's operation must give.
struct Book {
    settings: HashMap<u32, u32>,
    notes: Vec<Option<Answer>>,
}

impl Book {
    fn new(parties: u32) -> Self {
        Book {
            settings: HashMap::new(),
            notes: vec![None; parties as usize],
        }
    }

    /// Enters the step that a party performed. A find is decided by its last step 6, an operation that changes nothing
    /// by step 10, one that changes something by step 11.
    fn enter(&mut self, party: u32, under_way: UnderWay) {
        let operation = under_way.operation;
        let there = self.settings.get(&operation.key()).copied();
        let note = match (under_way.step, operation.kind(), there) {
            (6, Kind::Find, Some(setting)) => Answer::Found { setting },
            (6, Kind::Find, None) => Answer::Absent,
            (10, Kind::Insert, Some(_)) => Answer::Present,
            (10, Kind::Delete, None) => Answer::Absent,
            (10, ..) => Answer::NoPage,
            (11, ..) => self.change(operation),
            _ => return,
        };
        self.notes[party as usize] = Some(note);
    }

    /// What an insert or a delete does to a plain map, and its answer.
    fn change(&mut self, operation: Operation) -> Answer {
        match (operation.setting(), self.settings.entry(operation.key())) {
            (Some(_), Entry::Occupied(_)) => Answer::Present,
            (Some(setting), Entry::Vacant(place)) => {
                place.insert(setting);
                Answer::Inserted
            }
            (None, Entry::Occupied(record)) => {
                record.remove();
                Answer::Deleted
            }
            (None, Entry::Vacant(_)) => Answer::Absent,
        }
    }
}

/// How often each outcome was met.
#[derive(Default)]
struct Met {
    waits: usize,
    answers: Vec<Answer>,
    restructurings: Vec<Restructuring>,
    /// The steps before which an operation was withdrawn.
    withdrawn: HashSet<u32>,
    /// The steps before which a withdraw was refused.
    decided: HashSet<u32>,
}

impl Met {
    fn times(&self, restructuring: Restructuring) -> usize {
        self.restructurings
            .iter()
            .filter(|&&it| it == restructuring)
            .count()
    }
}

/// A file, its book, and what was met.
struct Run {
    file: File,
    book: Book,
    /// The calls that each party's operation has taken.
    taken: Vec<u32>,
    met: Met,
    random: Random,
}

impl Run {
    fn new(sizes: Sizes, seed: u64) -> Self {
        let file = File::new(sizes).expect("the sizes are within their limits");
        Run {
            file,
            book: Book::new(sizes.parties),
            taken: vec![0; sizes.parties as usize],
            met: Met::default(),
            random: Random::new(seed),
        }
    }

    /// Begins an operation on one of a number of keys; inserts and deletes prevail in turn.
    fn begin(&mut self, party: u32, keys: u32, growing: bool) {
        let key = self.random.below(keys).wrapping_mul(2_654_435_761);
        let setting = self.random.below(1000);
        let operation = match self.random.below(8) {
            0 | 1 => Operation::find(key),
            2 if growing => Operation::delete(key),
            2 => Operation::insert(key, setting),
            _ if growing => Operation::insert(key, setting),
            _ => Operation::delete(key),
        };
        self.file
            .begin(party, operation)
            .expect("the party is idle");
        self.book.notes[party as usize] = None;
        self.taken[party as usize] = 0;
    }

    /// Counts a call that moved or is done. The one that makes up the most is done.
    fn count(&mut self, party: u32, under_way: UnderWay, moved: bool) {
        let most = self.file.sizes().most_calls(under_way.operation.kind());
        let taken = &mut self.taken[party as usize];
        *taken += 1;
        assert!(
            *taken + u32::from(moved) <= most,
            "party {party}, {under_way}: {taken} calls of {most}"
        );
    }

    /// One step of a party that has an operation under way.
    fn step(&mut self, party: u32, under_way: UnderWay) {
        let wait = self.file.wait(party);
        let before = wait.is_some().then(|| self.file.words().to_vec());
        let outcome = self.file.step(party).expect("nothing is damaged");
        assert_eq!(
            outcome == Outcome::Waiting,
            wait.is_some(),
            "party {party}, {under_way}: {outcome}, {wait:?}"
        );
        if let Some(mut before) = before {
            let row = before.len() - self.file.sizes().waiting_words();
            let (word, mut waiting) = (party + 1, before[row..].iter_mut());
            let joins = waiting.find(|other| **other == 0 || **other == word);
            *joins.expect("a row with room") = word;
            assert!(
                self.file.words() == before,
                "a waiting step altered more than who waits"
            );
            self.met.waits += 1;
            return;
        }
        self.count(party, under_way, outcome == Outcome::Moved);
        self.book.enter(party, under_way);
        if let Outcome::Done {
            answer,
            restructuring,
            ..
        } = outcome
        {
            assert_eq!(
                Some(answer),
                self.book.notes[party as usize],
                "party {party}, {under_way}"
            );
            self.met.answers.push(answer);
            self.met.restructurings.push(restructuring);
        }
    }

    /// Withdraws a party's operation, and its entry goes from the book; a find at 9 and a change at 12 or above are
    /// refused, and alter nothing.
    fn withdraw(&mut self, party: u32, under_way: UnderWay) {
        let decided = match under_way.operation.kind() {
            Kind::Find => under_way.step == 9,
            Kind::Insert | Kind::Delete => under_way.step >= 12,
        };
        let before = decided.then(|| self.file.words().to_vec());
        let withdrawn = self.file.withdraw(party);
        if let Some(before) = before {
            assert_eq!(
                withdrawn,
                Err(Refusal::Decided),
                "party {party}, {under_way}"
            );
            assert!(
                self.file.words() == before,
                "a refused withdraw altered a word"
            );
            self.met.decided.insert(under_way.step);
        } else {
            assert_eq!(withdrawn, Ok(()), "party {party}, {under_way}");
            assert_eq!(self.file.under_way(party), Ok(None));
            self.book.notes[party as usize] = None;
            self.met.withdrawn.insert(under_way.step);
        }
    }

    /// Brings every operation to its end, in rounds; in each somebody moves.
    fn settle(&mut self) {
        while !self.file.is_at_rest() {
            let parties = 0..self.file.sizes().parties;
            let busy: Vec<_> = parties
                .filter_map(|party| Some((party, self.file.under_way(party).unwrap()?)))
                .collect();
            assert!(
                busy.iter()
                    .any(|&(party, _)| self.file.wait(party).is_none()),
                "all wait: {:?}",
                self.file
            );
            for (party, under_way) in busy {
                self.step(party, under_way);
            }
        }
    }

    /// At rest the file has the records of the map, and as many chains as splits and merges left.
    fn compare(&self) {
        let records = self.file.records().expect("the file is at rest");
        assert_eq!(
            records.len(),
            self.book.settings.len(),
            "a key stands twice, or is missing"
        );
        assert_eq!(records.collect::<HashMap<_, _>>(), self.book.settings);
        let made = self.met.times(Restructuring::Split) - self.met.times(Restructuring::Merged);
        assert_eq!(
            self.file.chain_count(),
            Ok(self.file.sizes().original_chains + made as u32)
        );
    }

    /// Turns of parties picked at random, with rests in between.
    fn turns(&mut self, turns: u32, keys: u32) {
        for turn in 0..turns {
            let party = self.random.below(self.file.sizes().parties);
            match self.file.under_way(party).unwrap() {
                Some(under_way) if self.random.below(40) == 0 => self.withdraw(party, under_way),
                Some(under_way) => self.step(party, under_way),
                None => self.begin(party, keys, turn / 2000 % 2 == 0),
            }
            if turn % 1000 == 999 {
                self.settle();
                self.compare();
            }
        }
    }
}

#[test]
fn every_order_answers_as_a_map_does() {
    let sizes = |chains, records, most, overflow, parties| {
        let sizes = Sizes::new()
            .original_chains(chains)
            .records_a_page(records)
            .most_chains(most);
        sizes.overflow_pages(overflow).parties(parties)
    };
    let mut all = Met::default();
    for (seed, (sizes, keys)) in (1..).zip([
        (sizes(1, 1, 2, 0, 1), 4),
        (sizes(1, 1, 1, 3, 3), 6),
        (sizes(2, 2, 16, 8, 5), 50),
        (sizes(1, 3, 64, 40, 16), 250),
        (sizes(3, 1, 96, 120, 4), 90),
        (sizes(1, 6, 256, 752, 16), 1500),
    ]) {
        let mut run = Run::new(sizes, seed);
        run.turns(8000, keys);
        all.waits += run.met.waits;
        all.answers.append(&mut run.met.answers);
        all.restructurings.append(&mut run.met.restructurings);
        all.withdrawn.extend(run.met.withdrawn);
        all.decided.extend(run.met.decided);
    }
    let answers: HashSet<_> = all.answers.iter().map(mem::discriminant).collect();
    let restructurings: HashSet<_> = all.restructurings.iter().collect();
    assert_eq!(
        (answers.len(), restructurings.len()),
        (6, 5),
        "not all were met: {:?} {restructurings:?}",
        all.answers
    );
    assert!(all.waits > 1000, "only {} waits", all.waits);
    assert!(
        [1, 2, 3, 4, 5, 6, 10, 11]
            .iter()
            .all(|step| all.withdrawn.contains(step)),
        "withdrawn before {:?} alone",
        all.withdrawn
    );
    assert!(
        [9, 12, 13, 14, 15, 16, 23, 24]
            .iter()
            .all(|step| all.decided.contains(step)),
        "refused before {:?} alone",
        all.decided
    );
}

#[test]
fn a_saved_file_goes_on_where_it_was() {
    let mut run = Run::new(
        Sizes::new()
            .records_a_page(2)
            .most_chains(32)
            .overflow_pages(40)
            .parties(6),
        99,
    );
    for _ in 0..40 {
        run.turns(150, 60);
        run.file = File::from_words(run.file.clone().into_words()).expect("the words are a file");
    }
    run.settle();
    run.compare();
}

#[test]
fn one_party_alone_never_waits() {
    let mut file = File::new(
        Sizes::new()
            .records_a_page(2)
            .most_chains(16)
            .overflow_pages(20)
            .parties(2),
    )
    .unwrap();
    let mut settings = HashMap::new();
    let mut random = Random::new(7);
    for turn in 0..2000 {
        let key = random.below(40);
        let party = random.below(2);
        assert_eq!(file.find_as(party, key), Ok(settings.get(&key).copied()));
        if (turn / 200) % 2 == 0 {
            let is_out = !settings.contains_key(&key);
            assert_eq!(file.insert_as(party, key, turn), Ok(is_out));
            settings.entry(key).or_insert(turn);
        } else {
            let is_in = settings.remove(&key).is_some();
            assert_eq!(file.delete_as(party, key), Ok(is_in));
        }
    }
    assert_eq!(file.records().unwrap().collect::<HashMap<_, _>>(), settings);
}
