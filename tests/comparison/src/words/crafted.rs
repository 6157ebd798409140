//! Memory that no sequence of calls leaves: loosely packed chains, long ones, cycles, pages on two lists.

use super::comparison::Comparison;
use super::forced;
use crate::image::Image;
use crate::part::Outcome;
use crate::random::Random;
use crate::sizes;
use bead_port::memory::{Root, FIRST_RECORD, LINK, LOCAL_LEVEL, RECORD_COUNT, RECORD_WORDS};

/// One session: crafts a file and forces steps on it.
pub fn session(comparison: &mut Comparison, random: &mut Random) -> Outcome<()> {
    let image = craft(random);
    comparison.lend(&image);
    for _ in 0..random.between(4, 40) {
        forced::trial(comparison, random)?;
    }
    Ok(())
}

/// Sizes for a file with few chains and many overflow pages, or any.
fn crafted_sizes(random: &mut Random) -> [u32; 5] {
    if random.one_in(3) {
        return sizes::allowed(random);
    }
    let p = random.between(1, 6);
    let choices = [
        random.between(0, 10),
        random.between(10, 40),
        random.between(10, 40),
        random.between(300, 752),
    ];
    let v = random.pick(&choices);
    [
        random.between(1, p),
        random.between(1, 6),
        p,
        v,
        random.between(1, 4),
    ]
}

fn craft(random: &mut Random) -> Image {
    let sizes = crafted_sizes(random);
    let mut image = Image::for_sizes(sizes);
    image.set_root(root_for(sizes, random));
    let mut pool: Vec<u32> = (sizes[2]..sizes[2] + sizes[3]).collect();
    random.shuffle(&mut pool);
    craft_chains(&mut image, &mut pool, random);
    craft_free_list(&mut image, &pool, random);
    for _ in 0..random.pick(&[0, 1, 2, 3]) {
        twist(&mut image, &pool, random);
    }
    image
}

/// A root record with any number of chains from N to P.
fn root_for([n, b, p, v, q]: [u32; 5], random: &mut Random) -> Root {
    let choices = [n, p, random.between(n, p), random.between(n, p)];
    let chains = random.pick(&choices);
    let level = 31 - (chains / n).leading_zeros();
    Root::from_words([n, b, p, v, q, level, chains - (n << level), 0, 0])
}

/// Gives each chain none, some or all of the overflow pages left.
fn craft_chains(image: &mut Image, pool: &mut Vec<u32>, random: &mut Random) {
    for chain in 0..image.root_record().most_chains {
        let left = pool.len() as u32;
        let most = random.pick(&[0, 1, 3, left]).min(left);
        let count = if random.one_in(3) {
            most
        } else {
            random.between(0, most)
        };
        let pages = pool.split_off((left - count) as usize);
        craft_chain(image, chain, &pages, random);
    }
}

/// Writes a chain of so many overflow pages, packed, loose or nearly empty, its keys ascending.
fn craft_chain(image: &mut Image, chain: u32, overflow: &[u32], random: &mut Random) {
    let root = image.root_record();
    let split = chain < root.next || chain >= root.level_chains();
    let local_level = if random.one_in(8) {
        random.between(0, 9)
    } else {
        root.level + u32::from(split)
    };
    let stride = if random.one_in(2) {
        root.first_chains << local_level
    } else {
        random.between(1, 50)
    };
    let (loose, sparse) = (random.pick(&[0, 0, 4, 2, 1]), random.one_in(8));
    let mut key = if random.one_in(8) {
        u32::MAX - random.below(5000)
    } else {
        chain
    };
    let numbers = [&[chain], overflow].concat();
    for (place, number) in numbers.iter().enumerate() {
        let last = place + 1 == numbers.len();
        let full = root.page_records
            - u32::from(last && random.one_in(2)) * random.below(root.page_records);
        let count = if sparse {
            u32::from(random.one_in(4))
        } else if loose > 0 && random.one_in(loose) {
            random.between(0, root.page_records)
        } else {
            full
        };
        let page = image.page_mut(*number);
        page[LOCAL_LEVEL] = if place == 0 { local_level } else { 0 };
        page[LINK] = numbers.get(place + 1).map_or(0, |next| next + 1);
        key = fill_page(page, count, key, stride, random);
    }
}

/// Writes so many records of ascending keys, fewer where no number is left; answers the first for the next page.
fn fill_page(
    page: &mut [u32; 16],
    count: u32,
    first: u32,
    stride: u32,
    random: &mut Random,
) -> u32 {
    let (mut key, mut used) = (first, 0);
    while used < count && key < u32::MAX {
        let place = FIRST_RECORD + RECORD_WORDS * used as usize;
        page[place] = key;
        page[place + 1] = random.word();
        key = key.saturating_add(stride * random.between(1, 3));
        used += 1;
    }
    page[RECORD_COUNT] = used;
    key
}

/// Lists the pages as free; the count may say more or less than there are.
fn craft_free_list(image: &mut Image, pool: &[u32], random: &mut Random) {
    let mut root = image.root_record();
    let listed = pool.len() as u32;
    root.first_free = pool.first().map_or(0, |page| page + 1);
    let choices = [
        listed,
        listed,
        random.between(0, root.overflow_pages),
        root.overflow_pages,
        listed / 2,
    ];
    root.free_count = random.pick(&choices);
    image.set_root(root);
    for (place, number) in pool.iter().enumerate() {
        image.page_mut(*number)[LINK] = pool.get(place + 1).map_or(0, |next| next + 1);
    }
    if random.one_in(4) {
        pool.iter()
            .for_each(|number| image.page_mut(*number)[15] = random.word());
    }
}

/// Makes one list run into another, or into itself.
fn twist(image: &mut Image, pool: &[u32], random: &mut Random) {
    let root = image.root_record();
    let (one, two) = (any_chain(&root, random), any_chain(&root, random));
    let within = link_of(&root, image.follow(two, random.pick(&[1, 2, 3, 50])));
    let early = link_of(&root, image.follow(one, random.below(8)));
    let (end, free) = (image.follow(one, 1000), any_free(pool, one, random));
    let mut link = |page: u32, link: u32| image.page_mut(page)[LINK] = link;
    match random.below(8) {
        // The free list runs into a chain, comes back to itself, or begins in a chain.
        0 => link(free, within),
        1 => link(free, root.first_free),
        2 => image.set_root(Root {
            first_free: within,
            ..root
        }),
        // A chain runs on into the free list, into another chain, or into itself.
        3 => link(end, root.first_free),
        4 => link(end, within),
        5 => link(end, early),
        // The same, with no key in the way.
        6 => empty_cycle(image, one, random),
        // Two chains share all overflow pages.
        _ => image.page_mut(one)[LINK] = image.page(two)[LINK],
    }
}

fn any_chain(root: &Root, random: &mut Random) -> u32 {
    random.below(root.most_chains)
}

/// A free page, or the one given where there is none.
fn any_free(pool: &[u32], otherwise: u32, random: &mut Random) -> u32 {
    let place = random.below(pool.len() as u32) as usize;
    pool.get(place).copied().unwrap_or(otherwise)
}

/// The link to an overflow page, none to a primary page.
fn link_of(root: &Root, page: u32) -> u32 {
    if page < root.most_chains {
        0
    } else {
        page + 1
    }
}

/// Empties a chain's overflow pages and ends it in a cycle.
fn empty_cycle(image: &mut Image, chain: u32, random: &mut Random) {
    let length = random.between(1, 30);
    let first = image.follow(chain, 1);
    for links in 1..=length {
        let page = image.follow(chain, links);
        if page != chain {
            image.page_mut(page)[RECORD_COUNT] = 0;
        }
    }
    let last = image.follow(chain, length);
    if last != chain {
        image.page_mut(last)[LINK] = first + 1;
    }
}
