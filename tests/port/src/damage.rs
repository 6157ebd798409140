//! The causes of refusal 6, one for each that the specification lists, so that a comparison can tell which were met.

macro_rules! causes {
    ($($cause:ident $words:literal,)*) => {
        #[derive(Clone, Copy, Debug, PartialEq, Eq)]
        pub enum Cause { $($cause,)* }
        pub const CAUSES: &[(Cause, &str)] = &[$((Cause::$cause, $words),)*];
    };
}

causes! {
    LevelAbove8 "level above 8",
    NextNotBelow "next not below N x 2^level",
    ChainsAboveMost "n above P",
    FreeCountAbove "free count above V",
    OperationAbove3 "operation above 3",
    StepLacking "a step the operation lacks",
    LevAbove9 "lev above 9",
    OwedAbove3 "owed above 3",
    AnswerAbove5 "an answer above 5",
    AnswerMissing "an answer 0 from step 12 on",
    ChainNotBelow "a chain at or above P",
    OtherNotBelow "an other chain at or above P",
    CountAbovePage "a key count above b",
    LocalLevelAbove9 "a local level above 9",
    LocalLevelBelowLev "a local level below lev at 6",
    LinkAstray "a link to no overflow page",
    ChainTooLong "a chain of more than V overflow pages",
    FreeListEnds "a free list that ends",
    FreeListTwice "a free list that names a page twice",
    FreeListAstray "a free list that names no overflow page",
    RootLockNotHeld "a lock given up not held: root",
    ChainLockNotHeld "a lock given up not held: chain",
    OtherLockNotHeld "a lock given up not held: other chain",
    TurnedLockNotHeld "a lock turned selective not held",
    AddressNotBelow "a chain number worked out as P or more",
    OldLinkZero "an old link 0 where it does not pass",
    OldLinkAstray "an old link to no overflow page",
    KeysNotAscending "keys that do not strictly ascend",
    KeyInBothHalves "a key in both halves of a merge that fit a page",
    KeyInBothThatDoNotFit "a key in both halves of a merge that do not fit a page",
    FreeCountOverfull "a free count above V by giving back",
    NoChainLeftAt17 "n = P at 17",
    NothingToMergeAt26 "n = N at 26",
    NothingToMergeAt27 "n = N at 27",
    LocalLevel0At28 "local level 0 at 28",
    RowWordAbove "a word above Q among those who wait",
    RowTwice "a party twice among those who wait",
    RowGap "a gap among those who wait",
    RowNoRequest "one that requests no lock among those who wait",
}

/// What a damaged number leaves behind: its cause for the comparison, nothing for the C face.
pub trait Damage {
    fn of(cause: Cause) -> Self;
}

impl Damage for Cause {
    #[inline(always)]
    fn of(cause: Cause) -> Cause {
        cause
    }
}

/// Refuses for a cause.
#[inline(always)]
pub fn refuse_if<D: Damage>(damaged: bool, cause: Cause) -> Result<(), D> {
    if damaged {
        Err(D::of(cause))
    } else {
        Ok(())
    }
}

/// Damage whose cause nobody asks for.
#[derive(Clone, Copy, Debug, PartialEq, Eq)]
pub struct Unnamed;

impl Damage for Unnamed {
    #[inline(always)]
    fn of(_: Cause) -> Unnamed {
        Unnamed
    }
}
