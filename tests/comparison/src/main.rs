//! Compares the compiled library that is linked with it: with stored transcripts, with the sequential model where operations run singly, with the book where
//! parties run in any order, and with the plain port word by word, as it does the C port. A line for each; exit status 1 at the first difference, or where something
//! was never met.
#![deny(unsafe_code)]

mod at_rest;
mod callee;
mod habits;
mod image;
mod library;
mod options;
mod part;
mod random;
mod schedules;
mod singly;
mod sizes;
mod transcripts;
mod words;
mod wrong;

use library::Library;
use options::Options;
use part::{Outcome, Part};
use schedules::Schedules;
use singly::Singly;
use std::process::ExitCode;
use words::Words;

fn main() -> ExitCode {
    let options = match Options::read(std::env::args().skip(1)) {
        Ok(options) => options,
        Err(error) => return fail(2, &error),
    };
    match replay(&options).and_then(|()| compare(&options)) {
        Ok(()) => ExitCode::SUCCESS,
        Err(difference) => fail(1, &difference),
    }
}

fn fail(code: u8, error: &str) -> ExitCode {
    eprintln!("comparison: {error}");
    ExitCode::from(code)
}

/// The stored transcripts, where a folder is given.
fn replay(options: &Options) -> Outcome<()> {
    if let Some(folder) = &options.transcripts {
        let agreed = transcripts::replay(folder, &mut Library::linked())?;
        println!(
            "transcripts: {} of {} lines and {} single calls agree",
            agreed.transcripts, agreed.lines, agreed.calls
        );
    }
    Ok(())
}

/// The parts asked for, each on a library of its own.
fn compare(options: &Options) -> Outcome<()> {
    let parts: [Box<dyn Part>; 3] = [
        Box::new(Singly::new(options.library())),
        Box::new(Schedules::new(options.library())),
        Box::new(Words::new(options.library(), options.c_port())),
    ];
    for mut part in parts {
        if options.wants(part.name()) {
            part::run(part.as_mut(), options)?;
        }
    }
    Ok(())
}
