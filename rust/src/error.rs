//! Why a call was refused, why an operation could not be run to its end, and why a file could not be saved or loaded.

use crate::answers::unknown;
use crate::wait::Wait;
use std::error;
use std::fmt;
use std::io;

/// Why a call was refused: the causes of the specification's table, with its numbers. A refused call alters nothing.
///
/// The causes are tested in this order, and the first one met is given.
///
/// ```
/// use bead_index::{File, Operation, Refusal, Sizes};
///
/// let mut file = File::new(Sizes::new().parties(2)).unwrap();
/// let refusal = file.begin(2, Operation::find(7)).unwrap_err();
/// assert_eq!(refusal, Refusal::Party);
/// assert_eq!(refusal.number(), 3);
/// assert_eq!(refusal.to_string(), "there is no such party (refusal 3)");
/// ```
#[derive(Clone, Copy, Debug, PartialEq, Eq, Hash)]
#[non_exhaustive]
pub enum Refusal {
    /// A size is outside its limits: of those given to make a file, else of the root record's.
    Size = 2,
    /// The memory lent is longer or shorter than the sizes ask for.
    Length = 1,
    /// Words are taken up that are no file at rest: an operation is under way, or a word is not as the library leaves
    /// it. Words between two calls are sound: open a copy of them, [`settle`](crate::File::settle) it and take it up.
    /// Where that is refused, or a call was cut in its middle, go back to the file that was saved last.
    Unsaved = 8,
    /// The party's number is not below the number of parties.
    Party = 3,
    /// An operation is begun for a party that has one under way.
    Busy = 4,
    /// A step or a withdraw is asked of a party that has no operation under way.
    Idle = 5,
    /// An operation is withdrawn that has taken its decisive step.
    Decided = 7,
    /// A number that the call needs is damaged. Where only the library wrote, that does not happen.
    Damage = 6,
}

impl Refusal {
    /// The number in the specification's table.
    #[must_use]
    pub const fn number(self) -> u32 {
        self as u32
    }

    /// What a number of the library means: 0 is no refusal.
    pub(crate) fn check(number: u32) -> Result<(), Refusal> {
        Err(match number {
            0 => return Ok(()),
            1 => Refusal::Length,
            2 => Refusal::Size,
            3 => Refusal::Party,
            4 => Refusal::Busy,
            5 => Refusal::Idle,
            6 => Refusal::Damage,
            7 => Refusal::Decided,
            8 => Refusal::Unsaved,
            _ => unknown("refusal", number),
        })
    }
}

impl fmt::Display for Refusal {
    fn fmt(&self, out: &mut fmt::Formatter<'_>) -> fmt::Result {
        let cause = match self {
            Refusal::Size => "a size is outside its limits",
            Refusal::Length => "the memory lent has another length than the sizes ask for",
            Refusal::Unsaved => "the words are no file at rest",
            Refusal::Party => "there is no such party",
            Refusal::Busy => "the party's last operation is not done",
            Refusal::Idle => "the party has no operation under way",
            Refusal::Decided => "the party's operation has taken its decisive step",
            Refusal::Damage => "a number in the file is damaged",
        };
        write!(out, "{cause} (refusal {})", self.number())
    }
}

impl error::Error for Refusal {}

/// Why an operation could not be run to its end, or the records not be listed.
#[derive(Clone, Debug, PartialEq, Eq)]
#[non_exhaustive]
pub enum Error {
    /// A call was refused.
    Refused(Refusal),
    /// The operation waits for other parties. It stays under way: step those, then call
    /// [`finish`](crate::File::finish), or [`withdraw`](crate::File::withdraw) it.
    Waits(Wait),
    /// The operation is done and changed nothing: too few overflow pages are free to write the chain anew.
    NoPage,
    /// The records are listed at rest alone, and this party has an operation under way.
    UnderWay {
        /// The first such party.
        party: u32,
    },
    /// The operation takes more steps than [`Sizes::most_calls`](crate::Sizes::most_calls) allows, as a find does in a
    /// circle of pages, which only something else than the library can have written. The operation stays under way.
    Circle {
        /// The party.
        party: u32,
    },
}

impl fmt::Display for Error {
    fn fmt(&self, out: &mut fmt::Formatter<'_>) -> fmt::Result {
        match self {
            Error::Refused(refusal) => refusal.fmt(out),
            Error::Waits(wait) => write!(out, "{wait}; the operation stays under way"),
            Error::NoPage => {
                out.write_str("too few overflow pages are free, and the key is as it was")
            }
            Error::UnderWay { party } => write!(
                out,
                "the file is not at rest: party {party} has an operation under way"
            ),
            Error::Circle { party } => write!(
                out,
                "party {party} takes more steps than any operation does, as in a circle of pages: the file is damaged"
            ),
        }
    }
}

impl error::Error for Error {}

impl From<Refusal> for Error {
    fn from(refusal: Refusal) -> Self {
        Error::Refused(refusal)
    }
}

/// Why a file could not be saved or loaded.
#[derive(Debug)]
#[non_exhaustive]
pub enum FileError {
    /// The output could not be written, or the input not be read.
    Io(io::Error),
    /// The file is not at rest, or what was read cannot be taken up.
    Index(Error),
}

impl fmt::Display for FileError {
    fn fmt(&self, out: &mut fmt::Formatter<'_>) -> fmt::Result {
        match self {
            FileError::Io(error) => error.fmt(out),
            FileError::Index(error) => error.fmt(out),
        }
    }
}

impl error::Error for FileError {
    fn source(&self) -> Option<&(dyn error::Error + 'static)> {
        match self {
            FileError::Io(error) => Some(error),
            FileError::Index(error) => Some(error),
        }
    }
}

impl From<io::Error> for FileError {
    fn from(error: io::Error) -> Self {
        FileError::Io(error)
    }
}

impl From<Error> for FileError {
    fn from(error: Error) -> Self {
        FileError::Index(error)
    }
}

impl From<Refusal> for FileError {
    fn from(refusal: Refusal) -> Self {
        FileError::Index(refusal.into())
    }
}

#[cfg(test)]
mod tests {
    use super::*;

    #[test]
    fn refusals_have_the_numbers_of_the_table() {
        for number in 1..=8 {
            assert_eq!(Refusal::check(number).unwrap_err().number(), number);
        }
        assert_eq!(Refusal::check(0), Ok(()));
    }

    #[test]
    fn errors_read_well() {
        assert_eq!(
            Error::from(Refusal::Busy).to_string(),
            "the party's last operation is not done (refusal 4)"
        );
        assert_eq!(
            Error::UnderWay { party: 3 }.to_string(),
            "the file is not at rest: party 3 has an operation under way"
        );
    }
}
