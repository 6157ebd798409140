//! The command line of the comparison.

use crate::callee::Callee;
use crate::library::Library;
use crate::wrong::{Wrong, Wronged};
use std::path::PathBuf;

const USAGE: &str = "comparison [--transcripts DIR] [--part singly|schedules|words] [--seed N] [--calls N] [--session N] [--table yes]
    [--spoil root|parties|locks|pages|row|reply|answer|setting|wait|move|pass] [--spoil-c root|...]";

pub struct Options {
    pub transcripts: Option<PathBuf>,
    part: Option<String>,
    pub seed: u64,
    /// The calls of each part.
    pub calls: u64,
    /// The one session to run.
    pub session: Option<u64>,
    /// Whether all that was met is printed, a row each.
    pub table: bool,
    spoil: Option<Wrong>,
    spoil_c: Option<Wrong>,
}

impl Options {
    pub fn read(mut words: impl Iterator<Item = String>) -> Result<Options, String> {
        let mut options = Options {
            transcripts: None,
            part: None,
            seed: 1,
            calls: 1_000_000,
            session: None,
            table: false,
            spoil: None,
            spoil_c: None,
        };
        while let Some(name) = words.next() {
            let value = words.next().ok_or(USAGE)?;
            options.set(&name, value)?;
        }
        Ok(options)
    }

    fn set(&mut self, name: &str, value: String) -> Result<(), String> {
        let number = || {
            value
                .parse::<u64>()
                .map_err(|_| format!("{value} is no number"))
        };
        match name {
            "--transcripts" => self.transcripts = Some(PathBuf::from(value)),
            "--part" if ["singly", "schedules", "words"].contains(&value.as_str()) => {
                self.part = Some(value)
            }
            "--seed" => self.seed = number()?,
            "--calls" => self.calls = number()?,
            "--session" => self.session = Some(number()?),
            "--table" => self.table = value == "yes",
            "--spoil" => self.spoil = Some(Wrong::named(&value).ok_or(USAGE)?),
            "--spoil-c" => self.spoil_c = Some(Wrong::named(&value).ok_or(USAGE)?),
            _ => return Err(USAGE.to_string()),
        }
        Ok(())
    }

    /// Whether a part is to be run.
    pub fn wants(&self, part: &str) -> bool {
        self.part.as_deref().map_or(true, |wanted| wanted == part)
    }

    /// The library, with what is to be spoilt.
    pub fn library(&self) -> Box<dyn Callee> {
        self.spoilt(Library::linked(), self.spoil)
    }

    /// The C port, with what is to be spoilt.
    pub fn c_port(&self) -> Box<dyn Callee> {
        self.spoilt(Library::c_port(), self.spoil_c)
    }

    fn spoilt(&self, library: Library, wrong: Option<Wrong>) -> Box<dyn Callee> {
        match wrong {
            Some(wrong) => Box::new(Wronged::new(library, wrong, self.seed)),
            None => Box::new(library),
        }
    }
}
