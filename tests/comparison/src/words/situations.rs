//! Rare situations that the compared calls must have met, told from the memory before and after a step that was performed.

use crate::image::Image;
use bead_port::memory::{Party, LINK, RECORD_COUNT};

/// How often each situation was met.
pub struct Situations {
    counts: Vec<(Situation, u32, u64)>,
}

#[derive(Clone, Copy, Debug, PartialEq, Eq)]
enum Situation {
    TakenFromChain,
    LooseChain,
    EmptyPageWithin,
    LongListSmallPages,
    LongListLargePages,
    JoinedWithOverflow,
    JoinedWithNoneFree,
    JoinedFull,
    OneTooMany,
    PageOnBothLists,
    SameChains,
    PastTheEnd,
    LevelChanged,
}

/// Each situation with the steps at which it must be met.
const WANTED: [(Situation, &[u32], &str); 13] = [
    (
        Situation::TakenFromChain,
        &[10, 17],
        "a page taken that stands in the chain itself",
    ),
    (
        Situation::LooseChain,
        &[10, 17, 26],
        "a page with fewer than b records before another",
    ),
    (
        Situation::EmptyPageWithin,
        &[10, 17, 26],
        "an overflow page without records before another",
    ),
    (
        Situation::LongListSmallPages,
        &[10, 14, 17, 26, 29],
        "more than 200 overflow pages, b at most 3",
    ),
    (
        Situation::LongListLargePages,
        &[10, 14, 17, 26, 29],
        "more than 200 overflow pages, b at least 5",
    ),
    (
        Situation::JoinedWithOverflow,
        &[26],
        "joined, with overflow pages in both chains",
    ),
    (
        Situation::JoinedWithNoneFree,
        &[26],
        "joined, with no page free",
    ),
    (Situation::JoinedFull, &[26], "b records joined"),
    (Situation::OneTooMany, &[26], "b + 1 records not joined"),
    (Situation::PageOnBothLists, &[29], "a page on both lists"),
    (
        Situation::SameChains,
        &[17, 26, 29, 30],
        "chain and other chain the same",
    ),
    (Situation::PastTheEnd, &[20], "next back to 0"),
    (
        Situation::LevelChanged,
        &[21, 27],
        "level raised or lowered",
    ),
];

impl Situations {
    pub fn new() -> Situations {
        let pairs = WANTED
            .iter()
            .flat_map(|(what, steps, _)| steps.iter().map(|step| (*what, *step, 0)));
        Situations {
            counts: pairs.collect(),
        }
    }

    /// Counts what the party's step met.
    pub fn count(&mut self, before: &Image, after: &Image, number: u32) {
        let party = before.party(number);
        for (what, step, count) in &mut self.counts {
            if *step == party.step && is_met(*what, before, after, number) {
                *count += 1;
            }
        }
    }

    /// Each with its words and how often it was met.
    pub fn rows(&self) -> Vec<(String, u64)> {
        let words = |what| {
            WANTED
                .iter()
                .find(|(known, _, _)| *known == what)
                .map_or("", |(_, _, words)| words)
        };
        self.counts
            .iter()
            .map(|(what, step, count)| (format!("step {step}: {}", words(*what)), *count))
            .collect()
    }
}

fn is_met(what: Situation, before: &Image, after: &Image, number: u32) -> bool {
    let (root, party) = (before.root_record(), before.party(number));
    let lists = || lists_read(before, &party);
    let within = |list: &[u32]| {
        list.split_last()
            .map_or(Vec::new(), |(_, within)| within.to_vec())
    };
    let long = || lists().iter().any(|list| list.len() > 200);
    let count = |page: u32| before.page(page)[RECORD_COUNT];
    let records = || lists().concat().into_iter().map(count).sum::<u32>();
    let goes_on = after.party(number).step == party.step + 1;
    match what {
        Situation::TakenFromChain => lists()
            .concat()
            .iter()
            .any(|page| taken(before, after).contains(page)),
        Situation::LooseChain => lists().iter().any(|list| {
            within(list)
                .iter()
                .any(|page| count(*page) < root.page_records)
        }),
        Situation::EmptyPageWithin => lists()
            .iter()
            .any(|list| within(list).iter().skip(1).any(|page| count(*page) == 0)),
        Situation::LongListSmallPages => root.page_records <= 3 && long(),
        Situation::LongListLargePages => root.page_records >= 5 && long(),
        Situation::JoinedWithOverflow => goes_on && lists().iter().all(|list| list.len() > 1),
        Situation::JoinedWithNoneFree => goes_on && root.free_count == 0,
        Situation::JoinedFull => goes_on && records() == root.page_records,
        Situation::OneTooMany => !goes_on && records() == root.page_records + 1,
        Situation::PageOnBothLists => lists()[0].iter().any(|page| lists()[1].contains(page)),
        Situation::SameChains => party.chain == party.other,
        Situation::PastTheEnd => after.root_record().next == 0,
        Situation::LevelChanged => root.level != after.root_record().level,
    }
}

/// The pages of the chains or old lists that a step reads whole.
fn lists_read(image: &Image, party: &Party) -> Vec<Vec<u32>> {
    let chain = |number: u32| [vec![number], list(image, image.page(number)[LINK])].concat();
    match party.step {
        14 => vec![list(image, party.old_link)],
        29 => vec![
            list(image, party.old_link),
            list(image, image.page(party.other)[LINK]),
        ],
        26 => vec![chain(party.chain), chain(party.other)],
        _ => vec![chain(party.chain)],
    }
}

fn list(image: &Image, first: u32) -> Vec<u32> {
    let root = image.root_record();
    let (mut link, mut pages) = (first, Vec::new());
    while root.links_overflow(link) && pages.len() <= root.overflow_pages as usize {
        pages.push(link - 1);
        link = image.page(link - 1)[LINK];
    }
    pages
}

/// The pages taken from the free list between the two.
fn taken(before: &Image, after: &Image) -> Vec<u32> {
    let (root, later) = (before.root_record(), after.root_record());
    let mut pages = list(before, root.first_free);
    pages.truncate(root.free_count.saturating_sub(later.free_count) as usize);
    pages
}
