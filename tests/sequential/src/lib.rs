//! A sequential model of the index: a linear hash file (Ellis 1987, section 2, uncontrolled splits)
//! with the sizes, page shortages and answers of document 01, each operation run alone.
//! It shares nothing with the crates, so that they can be compared with it.
//! Main types: `HashFile` (format, find, insert, delete) and `PlainMap` (what must be answered).

mod address_space;
mod hash_file;
mod mixing;
mod operation;
mod plain_map;
mod record;
mod sizes;

pub use address_space::AddressSpace;
pub use hash_file::HashFile;
pub use mixing::mixed;
pub use operation::{Answer, Operation, Outcome, Restructuring};
pub use plain_map::PlainMap;
pub use record::Record;
pub use sizes::Sizes;
