//! A file of 32-bit keys with their settings that up to sixteen parties share, taking turns in any order: a linear
//! hash file under Ellis's locks, proved for every order of turns and all words of memory.
//!
//! One [`File`] is enough for a map that is kept, saved and loaded:
//!
//! ```
//! use bead_index::{File, Sizes};
//!
//! # fn main() -> Result<(), bead_index::Error> {
//! let mut file = File::new(Sizes::new())?;
//! assert!(file.insert(1042, 40)?); // it was out, and is in
//! assert!(!file.insert(1042, 45)?); // it was in, and keeps its setting
//! assert_eq!(file.find(1042)?, Some(40));
//! assert!(file.delete(1042)?);
//! assert_eq!(file.records()?.count(), 0);
//! # Ok(())
//! # }
//! ```
//!
//! Parties share it step by step. A party [begins](File::begin) an operation, and each call of [`step`](File::step)
//! performs one step of it. The caller picks whose step is next; locks see to it that every order comes out right. Of
//! the parties that have an operation under way at least one can always move; nobody who comes later is granted a lock
//! ahead of one that waits for it, where the two do not go together; and each is done after at most as many steps that
//! do not wait as [`Sizes::most_calls`] says.
//!
//! ```
//! use bead_index::{Answer, File, Operation, Outcome, Sizes};
//!
//! # fn main() -> Result<(), bead_index::Error> {
//! let mut file = File::new(Sizes::new().parties(2))?;
//! file.begin(0, Operation::insert(7, 40))?;
//! file.begin(1, Operation::find(7))?;
//! let mut answers = Vec::new();
//! while answers.len() < 2 {
//!     for party in 0..2 {
//!         if file.under_way(party)?.is_none() {
//!             continue;
//!         }
//!         match file.step(party)? {
//!             Outcome::Waiting => println!("{}", file.wait(party).expect("a party waits for somebody")),
//!             Outcome::Moved => {}
//!             Outcome::Done { answer, .. } => answers.push((party, answer)),
//!         }
//!     }
//! }
//! // The find looked at the chain before the insert wrote it.
//! assert_eq!(answers, [(1, Answer::Absent), (0, Answer::Inserted)]);
//! # Ok(())
//! # }
//! ```
//!
//! An operation that nobody wants any more is [withdrawn](File::withdraw), up to its decisive step: the file is then
//! as if it had not been begun.
//!
//! [`FileRef`] is the same over memory that the caller owns, such as a mapped file. Nothing is kept elsewhere: the
//! words of a file are the file.
//!
//! # Saved files
//!
//! A file at rest is [saved](File::save) and [loaded](File::load), or [taken up](File::take_up) from its words: the
//! library tests every word, takes up nothing that is unsound, and always takes up what it left at rest. What is taken
//! up goes on as a file that was made. Words between two calls, in which operations are under way, are
//! [opened](FileRef::open); [settled](File::settle), they are at rest. [`File::flaw`] says why words are not taken up.
//!
//! # Threads
//!
//! One call at a time: parties that are threads share the file under a mutex, and lock it for a step.
//!
//! ```
//! use bead_index::{File, Operation, Sizes};
//! use std::{sync::Mutex, thread};
//!
//! let file = Mutex::new(File::new(Sizes::new().parties(4)).unwrap());
//! let step = |party| file.lock().unwrap().step(party).unwrap();
//! thread::scope(|scope| {
//!     for party in 0..4 {
//!         file.lock().unwrap().begin(party, Operation::insert(100 + party, 40)).unwrap();
//!         scope.spawn(move || while step(party).answer().is_none() {});
//!     }
//! });
//! assert_eq!(file.into_inner().unwrap().records().unwrap().len(), 4);
//! ```
//!
//! # What is proved, and what is not
//!
//! The library that this crate links is proved: what each call leaves in every word, and what that means for all
//! parties together. This crate is plain Rust over it. Its calls ([`File::begin`], [`File::step`], [`File::withdraw`],
//! making a file and taking one up) pass words on and turn numbers into names; what reads the words itself
//! ([`File::wait`], [`File::records`], [`File::flaw`], `Debug`) is tested.
//!
//! # Stack
//!
//! On chains of at most four pages no call was measured to take more than 1,888 bytes of stack (step 17); step 3,
//! which every operation performs, takes 744. On the longest chain that can be lent no call takes more than 314,416
//! bytes (step 17). docs/PERFORMANCE.md has every call.

#![deny(unsafe_code)]
#![warn(missing_docs)]

mod answers;
mod chains;
mod error;
mod file;
mod flaw;
mod memory;
mod mixing;
mod reading;
mod running;
mod saving;
mod sizes;
mod sys;
mod wait;

pub use answers::{Answer, Kind, Operation, Outcome, Restructuring, UnderWay};
pub use chains::Records;
pub use error::{Error, FileError, Refusal};
pub use file::{File, FileRef};
pub use flaw::{Flaw, PageFlaw, RootFlaw};
pub use memory::{Lent, Memory, Owned, PartyRecord, RootRecord, Words};
pub use sizes::Sizes;
pub use sys::words_of_bytes;
pub use wait::{Lock, Mode, Wait};

/// The example of README.md, which is run with those of the documentation.
#[cfg(doctest)]
#[doc = include_str!("../README.md")]
struct Readme;
