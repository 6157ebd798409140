//! What the calls return: refusals, and what a step that was not refused answers.

/// The causes of the refusal table.
#[derive(Clone, Copy, Debug, PartialEq, Eq)]
pub enum Refusal<D> {
    Length,
    Size,
    PartyNumber,
    NotIdle,
    Idle,
    Decided,
    Unsaved,
    Damaged(D),
}

impl<D> Refusal<D> {
    #[inline]
    pub fn number(self) -> u32 {
        match self {
            Refusal::Length => 1,
            Refusal::Size => 2,
            Refusal::PartyNumber => 3,
            Refusal::NotIdle => 4,
            Refusal::Idle => 5,
            Refusal::Decided => 7,
            Refusal::Unsaved => 8,
            Refusal::Damaged(_) => 6,
        }
    }
}

impl<D> From<D> for Refusal<D> {
    #[inline]
    fn from(damage: D) -> Refusal<D> {
        Refusal::Damaged(damage)
    }
}

/// Answers as numbers: those of a party's record, and found, which carries a setting.
pub const INSERTED: u32 = 1;
pub const PRESENT: u32 = 2;
pub const DELETED: u32 = 3;
pub const ABSENT: u32 = 4;
pub const NO_PAGE: u32 = 5;
pub const FOUND: u32 = 6;

/// The restructuring that "done" carries.
#[derive(Clone, Copy, Debug, PartialEq, Eq)]
pub enum Restructuring {
    None = 0,
    Split = 1,
    SplitSkipped = 2,
    Merged = 3,
    MergeSkipped = 4,
}

/// An answer: its number, and the setting of the key where it is found, else 0.
#[derive(Clone, Copy, Debug, PartialEq, Eq)]
pub struct Answer {
    pub number: u32,
    pub setting: u32,
}

impl Answer {
    /// An answer without a setting.
    #[inline]
    pub fn plain(number: u32) -> Answer {
        Answer { number, setting: 0 }
    }

    /// "Found answers the setting."
    #[inline]
    pub fn found(setting: u32) -> Answer {
        Answer {
            number: FOUND,
            setting,
        }
    }
}

/// "One call performs one step and answers waiting, moved, or done with the answer."
#[derive(Clone, Copy, Debug, PartialEq, Eq)]
pub enum Outcome {
    Waiting,
    Moved,
    Done(Answer, Restructuring),
}
