//! What the lent words say of a file at rest, and whether they are as document 01 ("The lent memory") has them: nobody holds a lock or waits, every record and scratch page is
//! zero, each chain is packed and ascends by its keys, which are at home, and every overflow page is in one chain or in the free list.

use crate::image::Image;
use crate::part::Outcome;
use bead_port::memory::{Page, Root, FIRST_RECORD, LINK, LOCAL_LEVEL, RECORD_COUNT, RECORD_WORDS};
use sequential::{AddressSpace, Record};
use std::ops::{Range, RangeInclusive};

/// Level, next, the free pages and every chain's records.
pub struct File {
    pub space: AddressSpace,
    pub free: u32,
    pub chains: Vec<Vec<Record>>,
}

/// The file, or the first thing that is not as it must be.
pub fn read(image: &Image, sizes: [u32; 5]) -> Outcome<File> {
    let root = image.root_record();
    let space = tested_space(&root, sizes)?;
    test_zero("a lock word", &image.locks)?;
    test_zero("a record", &image.parties)?;
    test_zero("who waits", &image.row)?;
    let mut owned = vec![false; root.overflow_pages as usize];
    let chains = (0..space.chains()).map(|chain| chain_records(image, &space, chain, &mut owned));
    let chains = chains.collect::<Outcome<Vec<_>>>()?;
    for page in (space.chains()..root.most_chains).chain(scratch_pages(&root)) {
        test_zero(&format!("page {page}"), image.page(page))?;
    }
    test_free_list(image, &root, &mut owned)?;
    match owned.iter().position(|owned| !owned) {
        Some(lost) => Err(format!(
            "overflow page {} is in no list",
            root.most_chains as usize + lost
        )),
        None => Ok(File {
            space,
            free: root.free_count,
            chains,
        }),
    }
}

/// Level and next of a root record with these sizes, within their bounds.
fn tested_space(root: &Root, sizes: [u32; 5]) -> Outcome<AddressSpace> {
    if root.words()[..5] != sizes {
        return Err(format!(
            "the root record has sizes {:?}, not {sizes:?}",
            &root.words()[..5]
        ));
    }
    let allowed =
        root.level <= 8 && root.next < root.level_chains() && root.chains() <= root.most_chains;
    if !allowed {
        return Err(format!("level {} and next {}", root.level, root.next));
    }
    Ok(AddressSpace {
        originals: root.first_chains,
        level: root.level,
        next: root.next,
    })
}

fn test_zero(what: &str, words: &[u32]) -> Outcome<()> {
    match words.iter().position(|word| *word != 0) {
        Some(place) => Err(format!(
            "{what} is not zero at rest: word {place} is {}",
            words[place]
        )),
        None => Ok(()),
    }
}

fn scratch_pages(root: &Root) -> Range<u32> {
    let first = root.most_chains + root.overflow_pages;
    first..first + root.parties
}

/// The records of a chain, every page of it tested and its overflow pages owned.
fn chain_records(
    image: &Image,
    space: &AddressSpace,
    chain: u32,
    owned: &mut [bool],
) -> Outcome<Vec<Record>> {
    let root = image.root_record();
    let mut records = Vec::new();
    let (mut number, mut level, mut counts) =
        (chain, space.local_level(chain), 0..=root.page_records);
    loop {
        let page = image.page(number);
        test_page(page, level, &counts)
            .map_err(|error| format!("page {number} of chain {chain}: {error}"))?;
        records.extend(records_on(page));
        if page[LINK] == 0 {
            break;
        }
        own(&root, page[LINK], owned)?;
        (number, level, counts) = (page[LINK] - 1, 0, 1..=root.page_records);
    }
    if records.windows(2).any(|pair| pair[0].key >= pair[1].key) {
        return Err(format!("chain {chain} does not ascend: {records:?}"));
    }
    let strayed = |record: &&Record| space.address(record.key) != chain;
    match records.iter().find(strayed) {
        Some(record) => Err(format!("{record:?} is in chain {chain}, not at home")),
        None => Ok(records),
    }
}

/// The records of a page that was tested, key first.
fn records_on(page: &Page) -> impl Iterator<Item = Record> + '_ {
    let pairs = page[FIRST_RECORD..].chunks_exact(RECORD_WORDS);
    pairs.take(page[RECORD_COUNT] as usize).map(|pair| Record {
        key: pair[0],
        setting: pair[1],
    })
}

/// A page has its level, as many records as it may have, all of them where another page follows, and zeros behind its records.
fn test_page(page: &Page, level: u32, counts: &RangeInclusive<u32>) -> Outcome<()> {
    let count = page[RECORD_COUNT];
    let packed = count == *counts.end() || page[LINK] == 0;
    if page[LOCAL_LEVEL] != level || !counts.contains(&count) || !packed {
        return Err(format!(
            "local level {}, {count} records, link {}",
            page[LOCAL_LEVEL], page[LINK]
        ));
    }
    test_zero(
        "its end",
        &page[FIRST_RECORD + RECORD_WORDS * count as usize..],
    )
}

/// Marks the overflow page that a link names as owned; it must not be owned yet.
fn own(root: &Root, link: u32, owned: &mut [bool]) -> Outcome<()> {
    if !root.links_overflow(link) {
        return Err(format!("link {link} names no overflow page"));
    }
    let place = &mut owned[(link - root.most_chains - 1) as usize];
    if std::mem::replace(place, true) {
        return Err(format!("page {} is in two lists", link - 1));
    }
    Ok(())
}

/// "A free page is zero except word 2"; there are as many as the root record says.
fn test_free_list(image: &Image, root: &Root, owned: &mut [bool]) -> Outcome<()> {
    let (mut link, mut length) = (root.first_free, 0);
    while link != 0 {
        own(root, link, owned)?;
        let mut page = *image.page(link - 1);
        link = std::mem::take(&mut page[LINK]);
        test_zero("a free page", &page)?;
        length += 1;
    }
    if length == root.free_count {
        return Ok(());
    }
    Err(format!("{length} free pages, counted {}", root.free_count))
}
