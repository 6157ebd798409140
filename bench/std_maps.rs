//! Rust's own maps as contenders (bench/map.h): HashMap with `--cfg hash`, BTreeMap with `--cfg tree`.
//! HashMap's hasher is the one it has by default, with fixed keys in place of random ones, so that its instructions are the same in every run.

#[cfg(hash)]
use std::collections::hash_map::Entry;
#[cfg(hash)]
type Map = std::collections::HashMap<
    u32,
    u32,
    std::hash::BuildHasherDefault<std::collections::hash_map::DefaultHasher>,
>;
#[cfg(hash)]
const NAME: &[u8] = b"Rust's HashMap\0";

#[cfg(tree)]
use std::collections::btree_map::Entry;
#[cfg(tree)]
type Map = std::collections::BTreeMap<u32, u32>;
#[cfg(tree)]
const NAME: &[u8] = b"Rust's BTreeMap\0";

/// The numbers of include/bead_index.h.
const FIND: u32 = 1;
const INSERT: u32 = 2;
const INSERTED: u32 = 1;
const PRESENT: u32 = 2;
const DELETED: u32 = 3;
const ABSENT: u32 = 4;
const FOUND: u32 = 6;

/// `struct answer` of bench/map.h.
#[repr(C)]
pub struct Answer {
    number: u32,
    setting: u32,
}

impl Answer {
    /// An answer without a setting.
    fn plain(number: u32) -> Answer {
        Answer { number, setting: 0 }
    }
}

static mut MAP: Option<Map> = None;

/// The map, made where there is none.
fn map() -> &'static mut Map {
    // SAFETY: the program has one thread, and no caller keeps what it is handed.
    unsafe { (*std::ptr::addr_of_mut!(MAP)).get_or_insert_with(Map::default) }
}

fn find(key: u32) -> Answer {
    match map().get(&key) {
        Some(&setting) => Answer {
            number: FOUND,
            setting,
        },
        None => Answer::plain(ABSENT),
    }
}

/// A key that is there keeps its setting.
fn insert(key: u32, setting: u32) -> u32 {
    match map().entry(key) {
        Entry::Occupied(_) => PRESENT,
        Entry::Vacant(place) => {
            place.insert(setting);
            INSERTED
        }
    }
}

fn delete(key: u32) -> u32 {
    match map().remove(&key) {
        Some(_) => DELETED,
        None => ABSENT,
    }
}

#[no_mangle]
pub extern "C" fn map_name() -> *const u8 {
    NAME.as_ptr()
}

#[no_mangle]
pub extern "C" fn map_locks() -> *const u8 {
    b"nothing\0".as_ptr()
}

#[no_mangle]
pub extern "C" fn map_empty() {
    *map() = Map::default();
}

#[no_mangle]
pub extern "C" fn map_perform(operation: u32, key: u32, setting: u32) -> Answer {
    match operation {
        FIND => find(key),
        INSERT => Answer::plain(insert(key, setting)),
        _ => Answer::plain(delete(key)),
    }
}
