//! Files that the calls left at rest are taken up. Copies of them have one to three words altered: library and port say
//! the same of each, and those that pass are gone on from, as if they had been formatted. Two alterations are directed,
//! since random words hardly meet them.

use super::comparison::Comparison;
use super::sound::{run, Plan};
use crate::callee::{failing, Call, Reply};
use crate::habits::Habits;
use crate::image::Image;
use crate::part::Outcome;
use crate::random::Random;
use crate::sizes;
use bead_port::memory::{FIRST_RECORD, LINK, ROOT_WORDS};
use bead_port::take_up::Condition;

/// Rounds of steps within which every operation ends.
const MOST_ROUNDS: u32 = 20_000;

const PASSED: Reply = [0; 5];
const DAMAGE: u32 = 6;

/// One session: a file made by calls and brought to rest, then altered copies of it.
pub fn session(comparison: &mut Comparison, random: &mut Random) -> Outcome<()> {
    let sizes = if random.one_in(2) {
        sizes::allowed(random)
    } else {
        sizes::doubled(random)
    };
    let habits = Habits::new(sizes, random.pick(&[20, 60, 1000]), random);
    let mut plan = Plan::new(sizes, habits, 0, random);
    run(comparison, &mut plan, random.between(0, 1000), random)?;
    rest(comparison)?;
    for _ in 0..random.between(10, 40) {
        altered(comparison, &mut plan, random)?;
    }
    directed(comparison, Condition::RootSound, next_not_wrapped)?;
    directed(comparison, Condition::PagesOnce, first_free_lost)
}

/// Steps everybody's operation to its end, in turn; the file that is left passes.
fn rest(comparison: &mut Comparison) -> Outcome<()> {
    for _ in 0..MOST_ROUNDS {
        let parties = 0..comparison.memory().party_count() as u32;
        let busy = |party: &u32| comparison.memory().party(*party).operation != 0;
        let under_way: Vec<u32> = parties.filter(busy).collect();
        if under_way.is_empty() {
            return match comparison.call(Call::TakeUp)? {
                PASSED => Ok(()),
                reply => Err(format!("take-up of a file at rest: {reply:?}")),
            };
        }
        for party in under_way {
            undamaged(comparison, Call::Step(party))?;
        }
    }
    Err(format!("no rest after {MOST_ROUNDS} rounds"))
}

/// A call on a file that only the calls have altered since it was formatted or taken up.
fn undamaged(comparison: &mut Comparison, call: Call) -> Outcome<()> {
    match comparison.call(call)? {
        [DAMAGE, ..] => Err(format!("{call:?}: damage in a file that was taken up")),
        _ => Ok(()),
    }
}

/// A copy with one to three words altered; one that passes is gone on from. Then the memory is as before.
fn altered(comparison: &mut Comparison, plan: &mut Plan, random: &mut Random) -> Outcome<()> {
    let kept = comparison.memory().clone();
    let mut image = kept.clone();
    for _ in 0..random.between(1, 3) {
        alter(&mut image, random);
    }
    comparison.lend(&image);
    if comparison.call(Call::TakeUp)? == PASSED && image != kept {
        comparison.coverage.count_gone_on();
        for _ in 0..random.between(1, 60) {
            let call = plan.call(comparison.memory(), random);
            undamaged(comparison, call)?;
        }
        rest(comparison)?;
    }
    comparison.lend(&kept);
    Ok(())
}

/// A copy with an alteration that one condition alone must refuse, where it can be made.
fn directed(
    comparison: &mut Comparison,
    condition: Condition,
    alteration: fn(&mut Image) -> bool,
) -> Outcome<()> {
    let kept = comparison.memory().clone();
    let mut image = kept.clone();
    if !alteration(&mut image) {
        return Ok(());
    }
    if failing(&image) != [condition] {
        let found = failing(&image);
        return Err(format!("{found:?} failed, and not {condition:?} alone"));
    }
    comparison.lend(&image);
    comparison.call(Call::TakeUp)?;
    comparison.lend(&kept);
    Ok(())
}

/// (level + 1, 0) written as (level, N × 2^level): every chain has the level that it has in both.
fn next_not_wrapped(image: &mut Image) -> bool {
    let mut root = image.root_record();
    if root.level == 0 || root.next != 0 {
        return false;
    }
    root.level -= 1;
    root.next = root.level_chains();
    image.set_root(root);
    true
}

/// The first free page is in no list any more.
fn first_free_lost(image: &mut Image) -> bool {
    let mut root = image.root_record();
    if root.free_count == 0 {
        return false;
    }
    root.first_free = image.page(root.first_free - 1)[LINK];
    root.free_count -= 1;
    image.set_root(root);
    true
}

/// Alters one word, of each part and of each kind of page now and then.
fn alter(image: &mut Image, random: &mut Random) {
    match random.below(13) {
        0..=1 => {
            let place = random.below(ROOT_WORDS as u32) as usize;
            image.root[place] = another(image.root[place], random);
        }
        2 => alter_any(&mut image.parties, random),
        3 => alter_any(&mut image.locks, random),
        4 => alter_any(&mut image.pages, random),
        5 => alter_any(&mut image.row, random),
        _ => alter_page(image, random),
    }
}

fn alter_any(words: &mut [u32], random: &mut Random) {
    let place = random.below(words.len() as u32) as usize;
    words[place] = another(words[place], random);
}

/// Alters a word of a page in a chain or of an overflow page: level, count or link, a key, a setting, or any.
fn alter_page(image: &mut Image, random: &mut Random) {
    let root = image.root_record();
    let pages = image.pages.len() as u32 / 16;
    let below = random.pick(&[1, 4, pages]).min(pages);
    let first = random.below(below);
    let links = random.pick(&[0, 0, 1, 2]);
    let lengths = [&image.locks, &image.pages, &image.row].map(|part| part.len());
    let [locks, page_words, row] = lengths;
    let fits =
        root.sizes_allowed() && root.lengths_fit(image.party_count(), locks, page_words, row);
    let number = image.follow(first, if fits { links } else { 0 });
    let records = FIRST_RECORD as u32;
    let choices = [
        random.between(0, 2),
        records,
        records + 1,
        records + 2,
        records + 3,
        random.below(16),
    ];
    let place = random.pick(&choices) as usize;
    let page = image.page_mut(number);
    page[place] = another(page[place], random);
}

/// A word near this one, a small one, or any.
fn another(word: u32, random: &mut Random) -> u32 {
    match random.below(6) {
        0 => word ^ 1 << random.below(32),
        1 => word.wrapping_add(1),
        2 => word.wrapping_sub(1),
        3 => random.below(16),
        4 => 0,
        _ => random.word(),
    }
}
