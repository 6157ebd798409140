//! The file: making it, and the calls.

use crate::answers::{unknown, Answer, Operation, Outcome, Restructuring};
use crate::error::Refusal;
use crate::memory::{Lent, Memory, Owned, Room, Words};
use crate::sizes::Sizes;
use crate::sys;

/// A file of keys and their settings. It owns its memory, unless it is a [`FileRef`]; both do the same.
///
/// [`find`](File::find), [`insert`](File::insert) and [`delete`](File::delete) run an operation to its end.
/// [`begin`](File::begin) and [`step`](File::step) take one step at a time, for parties in any order, and
/// [`withdraw`](File::withdraw) takes back an operation that is no longer wanted. [`save`](File::save) and
/// [`load`](File::load) keep it between two runs of a program.
#[derive(Clone)]
pub struct File<M = Owned> {
    pub(crate) memory: M,
}

/// A file in memory that the caller owns, such as a mapped file.
///
/// ```
/// use bead_index::{FileRef, Sizes};
///
/// # fn main() -> Result<(), bead_index::Error> {
/// let sizes = Sizes::new().parties(2);
/// let mut memory = vec![0; sizes.words()];
/// FileRef::format(&mut memory, sizes)?.insert(7, 40)?;
///
/// let mut file = FileRef::take_up(&mut memory)?; // the words are the file
/// assert_eq!(file.find(7)?, Some(40));
/// # Ok(())
/// # }
/// ```
pub type FileRef<'a> = File<Lent<'a>>;

/// Making a file that owns its memory.
impl File {
    /// An empty file.
    ///
    /// # Errors
    /// [`Refusal::Size`] where a size is outside its limits.
    pub fn new(sizes: Sizes) -> Result<Self, Refusal> {
        sizes.check()?;
        let mut words = vec![0; sizes.words()];
        FileRef::format(&mut words, sizes)?;
        File::from_words(words)
    }

    /// The file that these words are, as [`words`](File::words) gave them between two calls. Operations may be under
    /// way in it, and go on. A file that was saved at rest is [taken up](File::take_up), which tests all its words.
    ///
    /// ```
    /// use bead_index::{Answer, File, Operation, Sizes};
    ///
    /// # fn main() -> Result<(), bead_index::Error> {
    /// let mut file = File::new(Sizes::new())?;
    /// file.begin(3, Operation::insert(7, 40))?;
    /// let _ = file.step(3)?;
    /// let mut copy = File::from_words(file.words().to_vec())?;
    /// assert_eq!(copy.finish(3)?, Answer::Inserted);
    /// # Ok(())
    /// # }
    /// ```
    ///
    /// # Errors
    /// [`Refusal::Size`] and [`Refusal::Length`]. Words that are damaged otherwise are found out when they are needed.
    pub fn from_words(words: Vec<u32>) -> Result<Self, Refusal> {
        Ok(File {
            memory: Owned::of_words(words)?,
        })
    }

    /// All words of the file, in the order that [`Sizes::words`] says.
    #[must_use]
    pub fn words(&self) -> &[u32] {
        self.memory.words()
    }

    /// The same, and the file is gone.
    #[must_use]
    pub fn into_words(self) -> Vec<u32> {
        self.memory.into_words()
    }
}

/// Making a file in memory that the caller owns.
impl<'a> FileRef<'a> {
    /// Makes an empty file in these words, whatever they were.
    ///
    /// # Errors
    /// [`Refusal::Size`]; [`Refusal::Length`] where there are not [`Sizes::words`] words.
    pub fn format(words: &'a mut [u32], sizes: Sizes) -> Result<Self, Refusal> {
        FileRef::format_parts(Lent::of_words(words, &sizes)?, sizes)
    }

    /// The file that these words are between two calls, such as a mapped file that another process works on too.
    /// Operations may be under way in it. A file that was saved at rest is [taken up](FileRef::take_up), which tests
    /// all its words; this tests their sizes and number alone.
    ///
    /// # Errors
    /// [`Refusal::Size`] where the words were never formatted, and [`Refusal::Length`]. Words that are damaged
    /// otherwise are found out when they are needed.
    pub fn open(words: &'a mut [u32]) -> Result<Self, Refusal> {
        Ok(File {
            memory: words.into_memory()?,
        })
    }

    /// As [`format`](FileRef::format), in five parts that stand in different places.
    ///
    /// # Errors
    /// [`Refusal::Size`] and [`Refusal::Length`].
    pub fn format_parts(mut parts: Lent<'a>, sizes: Sizes) -> Result<Self, Refusal> {
        Refusal::check(sys::format(parts.lent(), &sizes))?;
        Ok(File { memory: parts })
    }

    /// As [`open`](FileRef::open), in five parts that stand in different places.
    ///
    /// # Errors
    /// [`Refusal::Size`] and [`Refusal::Length`].
    pub fn open_parts(parts: Lent<'a>) -> Result<Self, Refusal> {
        parts.check()?;
        Ok(File { memory: parts })
    }
}

/// The calls.
impl<M: Memory> File<M> {
    /// Begins an operation for a party. Parties are numbered from 0.
    ///
    /// # Errors
    /// [`Refusal::Party`] where there is no such party, [`Refusal::Busy`] where it has an operation under way.
    pub fn begin(&mut self, party: u32, operation: Operation) -> Result<(), Refusal> {
        Refusal::check(sys::begin(
            self.memory.lent(),
            party,
            operation.kind().number(),
            operation.key(),
            operation.setting().unwrap_or(0),
        ))
    }

    /// Performs the next step of a party's operation. Where it waits, the party is among those who wait, first come
    /// first, until a step of it is performed or its operation is withdrawn, and nobody who comes later is granted a
    /// lock that does not go with the one it waits for.
    ///
    /// # Errors
    /// [`Refusal::Party`] where there is no such party, [`Refusal::Idle`] where it has no operation under way,
    /// [`Refusal::Damage`] where something else than the library wrote to the memory and the step met with it.
    pub fn step(&mut self, party: u32) -> Result<Outcome, Refusal> {
        let reply = sys::step(self.memory.lent(), party);
        Refusal::check(reply.refusal)?;
        Ok(match reply.outcome {
            0 => Outcome::Waiting,
            1 => Outcome::Moved,
            2 => Outcome::Done {
                answer: Answer::of(reply.answer, reply.setting),
                restructuring: Restructuring::of(reply.restructuring),
            },
            number => unknown("outcome", number),
        })
    }

    /// Withdraws a party's operation: takes back its [`begin`](File::begin). The locks that it holds are given up, the
    /// pages that it has built are free again, it waits no more, and the party is idle; there is no answer, and no key
    /// and no setting is altered. Where no other party's call came since the begin, every word of the file is what it
    /// was before it.
    ///
    /// Once it has taken its decisive step an operation cannot be withdrawn, and goes on to its end: a find when the
    /// number of its next step is 9, an insert or a delete when that is 12 or above.
    ///
    /// ```
    /// use bead_index::{Answer, Error, File, Operation, Refusal, Sizes};
    ///
    /// # fn main() -> Result<(), Error> {
    /// let mut file = File::new(Sizes::new().parties(2))?;
    /// file.insert(7, 40)?;
    /// let before = file.words().to_vec();
    /// file.begin(1, Operation::find(7))?;
    /// for _ in 0..5 {
    ///     let _ = file.step(1)?;
    /// }
    /// file.withdraw(1)?; // nobody waits for the answer any more
    /// assert_eq!(file.words(), before);
    ///
    /// file.begin(1, Operation::find(7))?;
    /// for _ in 0..6 {
    ///     let _ = file.step(1)?; // the sixth step reads the page on which the key stands or is missing
    /// }
    /// assert_eq!(file.withdraw(1), Err(Refusal::Decided));
    /// assert_eq!(file.finish(1)?, Answer::Found { setting: 40 });
    /// # Ok(())
    /// # }
    /// ```
    ///
    /// # Errors
    /// [`Refusal::Party`] where there is no such party, [`Refusal::Idle`] where it has no operation under way,
    /// [`Refusal::Decided`] where that has taken its decisive step, [`Refusal::Damage`] where something else than the
    /// library wrote to the memory and the withdraw met with it.
    #[doc(alias = "cancel")]
    pub fn withdraw(&mut self, party: u32) -> Result<(), Refusal> {
        Refusal::check(sys::withdraw(self.memory.lent(), party))
    }

    /// The same file for somebody else, for a while.
    pub fn lend(&mut self) -> FileRef<'_> {
        File {
            memory: self.memory.lent(),
        }
    }
}
