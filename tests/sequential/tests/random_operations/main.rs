//! Random operation sequences over many sizes. After every operation its report must be the one
//! expected, the answer that of a plain map, and the file sound.

mod expectation;
mod placement;
mod xorshift;

use std::collections::BTreeSet;

use expectation::expected;
use placement::{free_pages, placed};
use sequential::{Answer, HashFile, Operation, Outcome, PlainMap, Record, Restructuring, Sizes};
use xorshift::Xorshift;

/// Each kind of report, with the reason where something is refused or skipped.
const KINDS: [&str; 13] = [
    "(done (found) none)",
    "(done absent none)",
    "(done deleted merge-skipped) chains",
    "(done deleted merge-skipped) records",
    "(done deleted merged)",
    "(done deleted none)",
    "(done inserted none)",
    "(done inserted split)",
    "(done inserted split-skipped) chains",
    "(done inserted split-skipped) pages",
    "(done no-page none) delete",
    "(done no-page none) insert",
    "(done present none)",
];

/// A file run beside a plain map, and the kinds of reports seen.
struct Run {
    file: HashFile,
    map: PlainMap,
    kinds: BTreeSet<String>,
}

impl Run {
    fn new(sizes: Sizes) -> Self {
        Run {
            file: HashFile::format(sizes).expect("sizes within their limits"),
            map: PlainMap::default(),
            kinds: BTreeSet::new(),
        }
    }

    /// Performs an operation and checks all there is to check.
    fn perform(&mut self, operation: Operation) {
        let sizes = self.file.sizes();
        let chains = self.file.chains().len() as u32;
        let (due, reason) = expected(sizes, chains, &self.map, operation);
        let outcome = self.file.perform(operation);
        assert_eq!(outcome, due, "{operation:?} {reason}");
        if outcome.answer != Answer::NoPage {
            assert_eq!(outcome.answer, self.map.perform(operation));
        }
        let chains_due = match outcome.restructuring {
            Restructuring::Split => chains + 1,
            Restructuring::Merged => chains - 1,
            _ => chains,
        };
        let placed = placed(sizes, chains_due, self.map.settings());
        assert_eq!(self.file.chains(), placed, "after {operation:?}");
        check_sound(&self.file);
        self.kinds.insert(kind_of(outcome, reason));
    }

    /// Performs random operations on keys from `base` on, `stride` apart, by turns mostly inserts
    /// and mostly deletes.
    fn perform_random(&mut self, random: &mut Xorshift, operations: u32) {
        let sizes = self.file.sizes();
        let room = (sizes.most_chains + sizes.overflow_pages) * sizes.records_a_page;
        let range = random.between(1, 2 * room.min(1000));
        let stride = [1, 2, sizes.originals, 4096][random.below(4) as usize];
        let base = [0, 0u32.wrapping_sub(range)][random.below(2) as usize];
        let turn = operations / 4 + 1;
        for count in 0..operations {
            let key = base.wrapping_add(stride * random.below(range));
            let setting = random.below(4);
            let growing = (count / turn) % 2 == 0;
            self.perform(match random.below(8) {
                0 | 1 => Operation::Find(key),
                2 if growing => Operation::Delete(key),
                2 => Operation::Insert(key, setting),
                _ if growing => Operation::Insert(key, setting),
                _ => Operation::Delete(key),
            });
        }
    }
}

/// A report as one of the kinds: a found without its setting.
fn kind_of(outcome: Outcome, reason: &str) -> String {
    let report = match outcome.answer {
        Answer::Found(_) => "(done (found) none)".into(),
        _ => outcome.to_string(),
    };
    format!("{report} {reason}").trim_end().into()
}

/// Level and next follow from the number of chains; every key stands in its chain by the chain's
/// local level; keys ascend; the pages in use and the free pages make V.
fn check_sound(file: &HashFile) {
    let (sizes, space) = (file.sizes(), file.space());
    let round = sizes.originals << space.level;
    assert_eq!(space.originals, sizes.originals);
    assert!(space.next < round);
    assert_eq!(space.chains(), round + space.next);
    assert_eq!(space.chains() as usize, file.chains().len());
    assert!((sizes.originals..=sizes.most_chains).contains(&space.chains()));
    for (chain, records) in (0..).zip(file.chains()) {
        assert!(records.windows(2).all(|pair| pair[0].key < pair[1].key));
        let level = space.local_level(chain);
        let at_home = |record: &Record| space.hash(level, record.key) == chain;
        assert!(records.iter().all(at_home));
    }
    assert_eq!(file.free_pages(), free_pages(sizes, file.chains()));
}

fn sizes([originals, records_a_page, most_chains, overflow_pages]: [u32; 4]) -> Sizes {
    Sizes {
        originals,
        records_a_page,
        most_chains,
        overflow_pages,
        parties: 1,
    }
}

#[test]
fn small_files_show_every_kind_of_report() {
    let mut random = Xorshift::new(1987);
    let mut kinds = BTreeSet::new();
    for originals in 1..=3 {
        for records_a_page in 1..=3 {
            for most_chains in originals..=7 {
                for overflow_pages in 0..=8 {
                    let small = [originals, records_a_page, most_chains, overflow_pages];
                    let mut run = Run::new(sizes(small));
                    run.perform_random(&mut random, 200);
                    kinds.extend(run.kinds);
                }
            }
        }
    }
    assert_eq!(kinds, KINDS.map(String::from).into());
}

#[test]
fn files_of_random_sizes() {
    let mut random = Xorshift::new(2654435769);
    for _ in 0..50 {
        let most_chains = random.between(1, 256);
        let mut run = Run::new(sizes([
            random.between(1, most_chains),
            random.between(1, 6),
            most_chains,
            random.between(0, 752),
        ]));
        run.perform_random(&mut random, 500);
    }
}

#[test]
fn files_of_the_largest_sizes() {
    let mut random = Xorshift::new(88172645463325252);
    for largest in [
        [1, 1, 256, 752],
        [1, 6, 256, 752],
        [3, 2, 256, 752],
        [255, 1, 256, 752],
        [256, 1, 256, 0],
        [256, 6, 256, 752],
    ] {
        Run::new(sizes(largest)).perform_random(&mut random, 1000);
    }
}

/// From one chain to the most and back, through all nine levels.
#[test]
fn a_file_grows_to_256_chains_and_shrinks_to_one() {
    let mut run = Run::new(sizes([1, 1, 256, 752]));
    let mut keys = 0;
    while run.file.chains().len() < 256 {
        run.perform(Operation::Insert(keys, 1000 - keys));
        keys += 1;
    }
    assert_eq!((run.file.space().level, run.file.space().next), (8, 0));
    for key in 0..keys {
        run.perform(Operation::Delete(key));
    }
    while run.file.chains().len() > 1 {
        run.perform(Operation::Insert(0, 0));
        run.perform(Operation::Delete(0));
    }
    assert_eq!(run.file.chains(), [Vec::new()]);
}
