//! Alters single words of a file under way, near what one party's next step reads.

use crate::image::Image;
use crate::random::Random;
use bead_port::memory::{Root, FIRST_RECORD, LINK, LOCAL_LEVEL, PARTY_WORDS, RECORD_COUNT};

/// Alters one word; the root record's sizes are allowed and the lengths fit.
pub fn alter(image: &mut Image, party: u32, random: &mut Random) {
    match random.below(18) {
        16..=17 => alter_row(image, random),
        0..=1 => alter_root(image, random),
        2..=4 => alter_record(image, party, random),
        5..=7 => alter_lock(image, party, random),
        8..=13 => alter_page(image, party, random),
        14 => alter_free_list(image, random),
        _ => alter_anything(image, random),
    }
}

/// A link word: none, an overflow page mostly, or one to no overflow page.
pub fn any_link(root: &Root, random: &mut Random) -> u32 {
    let (p, v, q) = (root.most_chains, root.overflow_pages, root.parties);
    match random.below(12) {
        0 => 0,
        1 => random.between(1, p),
        2 => random.between(p + v + 1, p + v + q + 1),
        3 => random.word(),
        4 => p + v,
        _ => random.between(p + 1, p + v),
    }
}

fn alter_root(image: &mut Image, random: &mut Random) {
    let mut root = image.root_record();
    let level_chains = root.first_chains << root.level.min(9);
    match random.below(8) {
        0 => root.level = random.between(0, 10),
        1 => root.level = random.word(),
        2 => root.next = random.between(0, level_chains + 1),
        3 => root.next = root.most_chains.saturating_sub(level_chains) + random.below(2),
        4 => root.next = random.word(),
        5 => root.first_free = any_link(&root, random),
        6 => root.free_count = random.between(0, root.overflow_pages + 1),
        _ => root.free_count = random.word(),
    }
    image.set_root(root);
}

fn alter_record(image: &mut Image, number: u32, random: &mut Random) {
    let root = image.root_record();
    let mut party = image.party(number);
    match random.below(10) {
        0 => party.operation = random.between(0, 5),
        1 => party.step = random.between(0, 32),
        2 => party.lev = random.between(0, 11),
        3 => party.owed = random.between(0, 4),
        4 => party.answer = random.between(0, 6),
        5 => party.chain = random.between(0, root.most_chains + 1),
        6 => party.other = random.between(0, root.most_chains + 1),
        7 => party.old_link = any_link(&root, random),
        8 => {
            party.key = if random.one_in(2) {
                random.word()
            } else {
                random.below(64)
            }
        }
        _ => {
            let place = PARTY_WORDS * number as usize + random.below(PARTY_WORDS as u32) as usize;
            image.parties[place] = random.word();
            return;
        }
    }
    image.set_party(number, party);
}

/// Alters the lock word of the root, of the party's chains, or any.
fn alter_lock(image: &mut Image, number: u32, random: &mut Random) {
    let (party, last) = (image.party(number), image.locks.len() as u32 - 1);
    let near = [
        0,
        party.chain.wrapping_add(1),
        party.other.wrapping_add(1),
        random.between(0, last),
    ];
    let lock = random.pick(&near).min(last) as usize;
    let choices = [number + 1, random.between(0, 31), 0];
    let holder = random.pick(&choices);
    let word = &mut image.locks[lock];
    *word = match random.below(7) {
        0 => *word ^ 1 << random.below(32),
        1 => 0,
        2 => *word & !(31 << 16) | holder << 16,
        3 => *word & !(31 << 21) | holder << 21,
        4 => *word ^ 1 << number,
        5 => *word | random.between(1, 63) << 26,
        _ => random.word(),
    };
}

/// A page that the party's step is likely to read.
fn near_page(image: &Image, number: u32, random: &mut Random) -> u32 {
    let (root, party) = (image.root_record(), image.party(number));
    let reads_scratch = matches!(party.step, 9 | 11 | 18 | 28);
    let first = match random.below(8) {
        0..=5 if reads_scratch => root.most_chains + root.overflow_pages + number,
        0..=2 => party.chain,
        3..=4 => party.other,
        5 => root.most_chains + root.overflow_pages + number,
        6 => party.old_link.wrapping_sub(1),
        _ => root.first_free.wrapping_sub(1),
    };
    if first >= root.most_chains + root.overflow_pages + root.parties {
        return party.chain.min(root.most_chains - 1);
    }
    let links = random.pick(&[0, 1, 2, 5, 400]);
    image.follow(first, links)
}

fn alter_page(image: &mut Image, party: u32, random: &mut Random) {
    let root = image.root_record();
    let number = near_page(image, party, random);
    let link = any_link(&root, random);
    let page = image.page_mut(number);
    let place = FIRST_RECORD + random.below(12) as usize;
    match random.below(10) {
        0..=1 => page[LOCAL_LEVEL] = random.between(0, 11),
        2 => page[RECORD_COUNT] = random.between(0, root.page_records + 1),
        3 => page[RECORD_COUNT] = random.between(0, 8),
        4..=5 => page[LINK] = link,
        6 => page[LINK] = number + 1,
        7 => page[place] = page[FIRST_RECORD + random.below(12) as usize],
        8 => page[place] = random.below(64),
        _ => page[random.below(16) as usize] = random.word(),
    }
}

/// Alters a link near the head of the free list: to an end, to itself or an earlier page, to no overflow page.
fn alter_free_list(image: &mut Image, random: &mut Random) {
    let root = image.root_record();
    if !root.links_overflow(root.first_free) {
        return;
    }
    let page = image.follow(root.first_free - 1, random.below(4));
    let choices = [
        0,
        page + 1,
        root.first_free,
        any_link(&root, random),
        random.between(1, root.most_chains),
    ];
    let link = random.pick(&choices);
    image.page_mut(page)[LINK] = link;
}

/// Alters a word of who waits: nobody, somebody mostly, one above Q.
fn alter_row(image: &mut Image, random: &mut Random) {
    let (parties, length) = (image.root_record().parties, image.row.len() as u32);
    let below = random.pick(&[1, 3, length]).min(length);
    let place = random.below(below) as usize;
    image.row[place] = match random.below(8) {
        0 => 0,
        1 => parties + 1,
        2 => random.word(),
        _ => random.between(1, parties),
    };
}

/// Alters any word but the sizes.
fn alter_anything(image: &mut Image, random: &mut Random) {
    let part = random.below(5) as usize;
    let words: &mut [u32] = image.parts_mut().into_iter().nth(part).expect("five parts");
    let first = if part == 0 { 5 } else { 0 };
    let place = random.between(first, words.len() as u32 - 1) as usize;
    words[place] = if random.one_in(2) {
        random.word()
    } else {
        random.below(16)
    };
}
