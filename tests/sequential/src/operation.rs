//! Operations, and what a finished operation reports, printed in the words of document 01.

use std::fmt;

/// An operation with its key, and an insert's setting.
#[derive(Clone, Copy, Debug, PartialEq, Eq)]
pub enum Operation {
    Find(u32),
    /// Key and setting.
    Insert(u32, u32),
    Delete(u32),
}

#[derive(Clone, Copy, Debug, PartialEq, Eq)]
pub enum Answer {
    /// With the setting of the key.
    Found(u32),
    Absent,
    Inserted,
    Present,
    Deleted,
    NoPage,
}

#[derive(Clone, Copy, Debug, PartialEq, Eq)]
pub enum Restructuring {
    None,
    Split,
    SplitSkipped,
    Merged,
    MergeSkipped,
}

/// All that a finished operation reports.
#[derive(Clone, Copy, Debug, PartialEq, Eq)]
pub struct Outcome {
    pub answer: Answer,
    pub restructuring: Restructuring,
}

impl From<Answer> for Outcome {
    /// An answer without a restructuring.
    fn from(answer: Answer) -> Self {
        Outcome {
            answer,
            restructuring: Restructuring::None,
        }
    }
}

impl fmt::Display for Answer {
    fn fmt(&self, f: &mut fmt::Formatter) -> fmt::Result {
        f.write_str(match self {
            Answer::Found(setting) => return write!(f, "(found {setting})"),
            Answer::Absent => "absent",
            Answer::Inserted => "inserted",
            Answer::Present => "present",
            Answer::Deleted => "deleted",
            Answer::NoPage => "no-page",
        })
    }
}

impl fmt::Display for Restructuring {
    fn fmt(&self, f: &mut fmt::Formatter) -> fmt::Result {
        f.write_str(match self {
            Restructuring::None => "none",
            Restructuring::Split => "split",
            Restructuring::SplitSkipped => "split-skipped",
            Restructuring::Merged => "merged",
            Restructuring::MergeSkipped => "merge-skipped",
        })
    }
}

impl fmt::Display for Outcome {
    fn fmt(&self, f: &mut fmt::Formatter) -> fmt::Result {
        write!(f, "(done {} {})", self.answer, self.restructuring)
    }
}
