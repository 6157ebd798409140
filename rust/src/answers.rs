//! What a party can begin, what a step comes to, and what an operation answers.

use std::fmt;

/// What an operation does.
#[derive(Clone, Copy, Debug, PartialEq, Eq, Hash)]
pub enum Kind {
    /// Looks a key up: its setting.
    Find,
    /// Puts a key in, with a setting.
    Insert,
    /// Takes a key out.
    Delete,
}

impl Kind {
    /// The number by which the library knows it.
    pub(crate) const fn number(self) -> u32 {
        match self {
            Kind::Find => 1,
            Kind::Insert => 2,
            Kind::Delete => 3,
        }
    }

    /// The kind of a number in a party's record.
    pub(crate) const fn of(number: u32) -> Option<Kind> {
        match number {
            1 => Some(Kind::Find),
            2 => Some(Kind::Insert),
            3 => Some(Kind::Delete),
            _ => None,
        }
    }
}

impl fmt::Display for Kind {
    fn fmt(&self, out: &mut fmt::Formatter<'_>) -> fmt::Result {
        out.write_str(match self {
            Kind::Find => "find",
            Kind::Insert => "insert",
            Kind::Delete => "delete",
        })
    }
}

/// An operation on a key. Key and setting may be any numbers.
///
/// ```
/// use bead_index::{Kind, Operation};
///
/// let operation = Operation::insert(7, 40);
/// assert_eq!((operation.kind(), operation.key(), operation.setting()), (Kind::Insert, 7, Some(40)));
/// assert_eq!(operation.to_string(), "insert 7 with setting 40");
/// assert_eq!(Operation::find(7).setting(), None);
/// ```
#[derive(Clone, Copy, Debug, PartialEq, Eq, Hash)]
#[must_use]
pub struct Operation {
    kind: Kind,
    key: u32,
    /// An insert's, else 0.
    setting: u32,
}

impl Operation {
    /// Looks the key up: answers found, with its setting, or absent.
    pub const fn find(key: u32) -> Self {
        Operation::new(Kind::Find, key, 0)
    }

    /// Puts the key in with a setting: answers inserted, present or no page. A key that is in keeps the setting that
    /// it has.
    pub const fn insert(key: u32, setting: u32) -> Self {
        Operation::new(Kind::Insert, key, setting)
    }

    /// Takes the key out: answers deleted, absent or no page.
    pub const fn delete(key: u32) -> Self {
        Operation::new(Kind::Delete, key, 0)
    }

    /// The operation of the words in a party's record.
    pub(crate) const fn new(kind: Kind, key: u32, setting: u32) -> Self {
        Operation { kind, key, setting }
    }

    /// What it does.
    #[must_use]
    pub const fn kind(&self) -> Kind {
        self.kind
    }

    /// The key that it is about.
    #[must_use]
    pub const fn key(&self) -> u32 {
        self.key
    }

    /// The setting that an insert brings; none of a find or a delete.
    #[must_use]
    pub const fn setting(&self) -> Option<u32> {
        match self.kind {
            Kind::Insert => Some(self.setting),
            Kind::Find | Kind::Delete => None,
        }
    }
}

impl fmt::Display for Operation {
    fn fmt(&self, out: &mut fmt::Formatter<'_>) -> fmt::Result {
        write!(out, "{} {}", self.kind, self.key)?;
        match self.setting() {
            Some(setting) => write!(out, " with setting {setting}"),
            None => Ok(()),
        }
    }
}

/// An operation that a party has begun and that is not done.
#[derive(Clone, Copy, Debug, PartialEq, Eq, Hash)]
#[non_exhaustive]
pub struct UnderWay {
    /// The operation.
    pub operation: Operation,
    /// The number of its next step, 1 to 30.
    pub step: u32,
}

impl fmt::Display for UnderWay {
    fn fmt(&self, out: &mut fmt::Formatter<'_>) -> fmt::Result {
        write!(out, "{}, step {}", self.operation, self.step)
    }
}

/// What a step came to.
#[derive(Clone, Copy, Debug, PartialEq, Eq, Hash)]
#[must_use]
pub enum Outcome {
    /// Another party has the lock that the step needs, or came to wait for it earlier. The party is now among those who
    /// wait, and nothing else is altered; the same step is tried again by the next call.
    /// [`File::wait`](crate::File::wait) says for whom it waits.
    Waiting,
    /// The step is performed, and there are more.
    Moved,
    /// The operation is over, and the party idle.
    #[non_exhaustive]
    Done {
        /// What the operation answers.
        answer: Answer,
        /// What it made of the chains besides.
        restructuring: Restructuring,
    },
}

impl Outcome {
    /// The answer, where the operation is over.
    #[must_use]
    pub const fn answer(&self) -> Option<Answer> {
        match self {
            Outcome::Done { answer, .. } => Some(*answer),
            _ => None,
        }
    }
}

impl fmt::Display for Outcome {
    fn fmt(&self, out: &mut fmt::Formatter<'_>) -> fmt::Result {
        match self {
            Outcome::Waiting => out.write_str("waiting"),
            Outcome::Moved => out.write_str("moved"),
            Outcome::Done {
                answer,
                restructuring: Restructuring::None,
            } => write!(out, "done, {answer}"),
            Outcome::Done {
                answer,
                restructuring,
            } => write!(out, "done, {answer}, {restructuring}"),
        }
    }
}

/// What an operation answers once it is done.
#[derive(Clone, Copy, Debug, PartialEq, Eq, Hash)]
pub enum Answer {
    /// Of a find: the key was in.
    Found {
        /// The key's setting.
        setting: u32,
    },
    /// Of a find or a delete: the key was out.
    Absent,
    /// Of an insert: the key was out, and is in with the setting given.
    Inserted,
    /// Of an insert: the key was in, and keeps its setting.
    Present,
    /// Of a delete: the key was in and is out.
    Deleted,
    /// Of an insert or a delete: too few overflow pages are free to write the chain anew, and the key is as it was.
    NoPage,
}

impl Answer {
    /// The answer of a number of the library, with the setting beside it.
    pub(crate) fn of(number: u32, setting: u32) -> Answer {
        match number {
            1 => Answer::Inserted,
            2 => Answer::Present,
            3 => Answer::Deleted,
            4 => Answer::Absent,
            5 => Answer::NoPage,
            6 => Answer::Found { setting },
            _ => unknown("answer", number),
        }
    }

    /// The setting of a key that was found.
    #[must_use]
    pub const fn setting(&self) -> Option<u32> {
        match self {
            Answer::Found { setting } => Some(*setting),
            _ => None,
        }
    }
}

impl fmt::Display for Answer {
    fn fmt(&self, out: &mut fmt::Formatter<'_>) -> fmt::Result {
        out.write_str(match self {
            Answer::Found { setting } => return write!(out, "found with setting {setting}"),
            Answer::Absent => "absent",
            Answer::Inserted => "inserted",
            Answer::Present => "present",
            Answer::Deleted => "deleted",
            Answer::NoPage => "no page",
        })
    }
}

/// What an operation made of the file's chains besides.
#[derive(Clone, Copy, Debug, PartialEq, Eq, Hash)]
pub enum Restructuring {
    /// Nothing.
    None,
    /// An insert split a chain: there is one more.
    Split,
    /// An insert's split was skipped: there are as many chains as may be, or too few overflow pages are free.
    SplitSkipped,
    /// A delete merged two chains: there is one less.
    Merged,
    /// A delete's merge was skipped: only the original chains are left, or both chains' records do not fit one page.
    MergeSkipped,
}

impl Restructuring {
    /// The restructuring of a number of the library.
    pub(crate) fn of(number: u32) -> Restructuring {
        match number {
            0 => Restructuring::None,
            1 => Restructuring::Split,
            2 => Restructuring::SplitSkipped,
            3 => Restructuring::Merged,
            4 => Restructuring::MergeSkipped,
            _ => unknown("restructuring", number),
        }
    }
}

impl fmt::Display for Restructuring {
    fn fmt(&self, out: &mut fmt::Formatter<'_>) -> fmt::Result {
        out.write_str(match self {
            Restructuring::None => "none",
            Restructuring::Split => "split",
            Restructuring::SplitSkipped => "split skipped",
            Restructuring::Merged => "merged",
            Restructuring::MergeSkipped => "merge skipped",
        })
    }
}

/// Ends where the library answers a number that it does not have: another library was linked.
pub(crate) fn unknown(what: &str, number: u32) -> ! {
    panic!("the library answered {what} {number}, which this crate does not know")
}

#[cfg(test)]
mod tests {
    use super::*;

    #[test]
    fn kinds_have_the_numbers_of_the_records() {
        for kind in [Kind::Find, Kind::Insert, Kind::Delete] {
            assert_eq!(Kind::of(kind.number()), Some(kind));
        }
        assert_eq!((Kind::of(0), Kind::of(4)), (None, None));
    }

    #[test]
    fn outcomes_read_well() {
        let done = |answer, restructuring| Outcome::Done {
            answer,
            restructuring,
        };
        assert_eq!(Outcome::Waiting.to_string(), "waiting");
        for (outcome, words) in [
            (done(Answer::NoPage, Restructuring::None), "done, no page"),
            (
                done(Answer::Deleted, Restructuring::MergeSkipped),
                "done, deleted, merge skipped",
            ),
            (
                done(Answer::of(6, 40), Restructuring::None),
                "done, found with setting 40",
            ),
        ] {
            assert_eq!(outcome.to_string(), words);
        }
    }

    #[test]
    #[should_panic(expected = "answer 7, which this crate does not know")]
    fn an_unknown_answer_is_not_guessed() {
        let _ = Answer::of(7, 0);
    }
}
