//! Puts a party before any step, with its locks held and its record fitting, whatever led there.

use super::alter::{alter, any_link};
use super::comparison::Comparison;
use crate::callee::Call;
use crate::image::Image;
use crate::part::Outcome;
use crate::random::Random;
use bead_port::memory::{
    Party, Root, DELETE, FIND, FIRST_RECORD, INSERT, LINK, LOCAL_LEVEL, RECORD_COUNT, RECORD_WORDS,
};
use bead_port::waiting::requested;

/// Forces a step on a copy of the memory, alters some words, makes some calls, and puts the memory back.
pub fn trial(comparison: &mut Comparison, random: &mut Random) -> Outcome<()> {
    let kept = comparison.memory().clone();
    let mut image = kept.clone();
    let party = random.below(image.party_count() as u32);
    if image.party(party).operation == 0 || random.one_in(2) {
        force(&mut image, party, random);
    }
    if random.one_in(2) {
        line_up(&mut image, random);
    }
    (0..random.pick(&[0, 1, 1, 2])).for_each(|_| alter(&mut image, party, random));
    comparison.lend(&image);
    if random.one_in(4) {
        comparison.call(Call::Withdraw(party))?;
    }
    if random.one_in(8) {
        comparison.call(Call::TakeUp)?;
    }
    for _ in 0..random.pick(&[1, 2, 6]) {
        comparison.call(Call::Step(party))?;
    }
    comparison.call(Call::Step(random.below(image.party_count() as u32)))?;
    comparison.lend(&kept);
    Ok(())
}

/// Who waits: some of those whose next step requests a lock, in any order.
fn line_up(image: &mut Image, random: &mut Random) {
    let root = image.root_record();
    let records = image.party_records();
    let mut waiting: Vec<u32> = (1..)
        .zip(&records)
        .filter(|(_, record)| requested(&root, record).is_some())
        .map(|(number, _)| number)
        .collect();
    random.shuffle(&mut waiting);
    waiting.truncate(random.below(waiting.len() as u32 + 1) as usize);
    image.row.fill(0);
    image.row[..waiting.len()].copy_from_slice(&waiting);
}

/// The steps, those that read chains and lists more often.
fn any_step(random: &mut Random) -> u32 {
    if random.one_in(2) {
        random.between(1, 30)
    } else {
        random.pick(&[6, 9, 10, 14, 17, 26, 29])
    }
}

fn force(image: &mut Image, number: u32, random: &mut Random) {
    let step = any_step(random);
    let party = fitting_record(image, step, random);
    image.set_party(number, party);
    if random.one_in(2) {
        image.locks.fill(0);
    }
    if !random.one_in(10) {
        hold_locks(image, number, &party);
    }
    if matches!(step, 9 | 11 | 18 | 28) && !random.one_in(8) {
        let page = *image.page(image.follow(party.chain, random.below(3)));
        let root = image.root_record();
        *image.page_mut(root.most_chains + root.overflow_pages + number) = page;
    }
}

fn fitting_record(image: &Image, step: u32, random: &mut Random) -> Party {
    let root = image.root_record();
    let operation = match step {
        1..=8 => random.between(1, 3),
        9 => FIND,
        10..=14 => random.between(2, 3),
        15..=22 => INSERT,
        _ => DELETE,
    };
    let (chain, other) = fitting_chains(&root, step, random);
    let local_level = image.page(chain)[LOCAL_LEVEL].min(9);
    let old_link = match random.below(4) {
        0 => image.page(chain)[LINK],
        1 => image.page(other)[LINK],
        _ => any_link(&root, random),
    };
    let answer = random.between(u32::from(step >= 12), 5);
    let (lev, owed) = (random.between(0, local_level), random.between(0, 3));
    Party {
        operation,
        key: fitting_key(image, chain, random),
        step,
        lev,
        chain,
        other,
        old_link,
        owed,
        answer,
        setting: random.word(),
    }
}

/// The chains of a split or merge where they can be told, else any two.
fn fitting_chains(root: &Root, step: u32, random: &mut Random) -> (u32, u32) {
    let chains = root.chains();
    if (17..=22).contains(&step) && chains < root.most_chains && !random.one_in(6) {
        return (root.next, chains);
    }
    if step >= 25 && chains > root.first_chains && !random.one_in(6) {
        return (root.merge_target(), chains - 1);
    }
    (
        random.below(root.most_chains),
        random.below(root.most_chains),
    )
}

/// A key of the chain, one beside it, or any.
fn fitting_key(image: &Image, chain: u32, random: &mut Random) -> u32 {
    let page = image.page(image.follow(chain, random.pick(&[0, 1, 2, 100])));
    let place = FIRST_RECORD + RECORD_WORDS * random.below(page[RECORD_COUNT].min(6)) as usize;
    match random.below(4) {
        0 => random.below(100),
        1 => random.word(),
        2 => page[place].wrapping_add(1),
        _ => page[place],
    }
}

const SELECTIVE: u32 = 16;
const EXCLUSIVE: u32 = 21;

/// Sets the holds that the operation has before the step.
fn hold_locks(image: &mut Image, number: u32, party: &Party) {
    let read = party.operation == FIND;
    let (chain, other) = (party.chain as usize + 1, party.other as usize + 1);
    let mut hold = |lock: usize, shift: u32| {
        let word = &mut image.locks[lock];
        *word = *word & !(31 << shift) | (number + 1) << shift;
    };
    match party.step {
        6..=12 if !read => hold(chain, SELECTIVE),
        14 | 25..=30 => hold(chain, EXCLUSIVE),
        17..=19 => hold(chain, SELECTIVE),
        _ => {}
    }
    match party.step {
        8 if !read => hold(other, SELECTIVE),
        26..=30 => hold(other, EXCLUSIVE),
        _ => {}
    }
    match party.step {
        16..=22 | 28..=30 => hold(0, SELECTIVE),
        24..=27 => hold(0, EXCLUSIVE),
        _ => {}
    }
    match party.step {
        2..=5 => image.locks[0] |= 1 << number,
        6 | 9 if read => image.locks[chain] |= 1 << number,
        8 if read => image.locks[other] |= 1 << number,
        _ => {}
    }
}
