//! Files that outlive a program: saved, loaded and taken up, and brought to rest where operations are under way.

use crate::answers::{Answer, Outcome};
use crate::error::{Error, FileError, Refusal};
use crate::file::{File, FileRef};
use crate::memory::{sizes_of, Lent, Memory, Room, RootRecord, Words};
use crate::sys;
use std::io::{Read, Write};

/// The bytes of a word.
const WORD_BYTES: usize = 4;

/// Loading a file.
impl File {
    /// Reads a file that [`save`](File::save) wrote, to the end of the input, and takes it up.
    ///
    /// # Errors
    /// [`FileError::Io`] where the input cannot be read. [`FileError::Index`] where the file cannot be taken up:
    /// [`Refusal::Size`] (also for the words of a machine with the other byte order), [`Refusal::Length`] where the
    /// input is shorter or longer than its sizes ask for, [`Refusal::Unsaved`].
    pub fn load(mut input: impl Read) -> Result<Self, FileError> {
        let mut bytes = Vec::new();
        read_up_to(&mut input, WORD_BYTES * RootRecord::WORDS, &mut bytes)?;
        let sizes = sizes_of(&words_of(&bytes)?)?;
        sizes.check()?;
        let left = WORD_BYTES * (sizes.words() - RootRecord::WORDS);
        read_up_to(&mut input, left + 1, &mut bytes)?;
        Ok(File::take_up(words_of(&bytes)?)?)
    }
}

/// Reads so many bytes, or all that there are.
fn read_up_to(input: &mut impl Read, most: usize, bytes: &mut Vec<u8>) -> Result<(), FileError> {
    input.take(most as u64).read_to_end(bytes)?;
    Ok(())
}

/// The words of bytes, least byte first.
fn words_of(bytes: &[u8]) -> Result<Vec<u32>, Refusal> {
    let words = bytes.chunks_exact(WORD_BYTES);
    if !words.remainder().is_empty() {
        return Err(Refusal::Length);
    }
    let word = |bytes: &[u8]| u32::from_le_bytes(bytes.try_into().expect("four bytes"));
    Ok(words.map(word).collect())
}

/// Taking up a file in five parts.
impl<'a> FileRef<'a> {
    /// As [`take_up`](File::take_up), in five parts that stand in different places.
    ///
    /// # Errors
    /// As [`take_up`](File::take_up).
    pub fn take_up_parts(parts: Lent<'a>) -> Result<Self, Refusal> {
        Refusal::check(sys::take_up(parts.parts()))?;
        Ok(File { memory: parts })
    }
}

/// Taking up a file, saving it, and bringing it to rest.
impl<M: Memory> File<M> {
    /// The file that these words are, tested: it is at rest, as the library leaves one when no operation is under way.
    /// All that is said of a file that was made holds of it from here. This is the way in for words that were saved; a
    /// vector makes a file that owns it, words that are lent make a [`FileRef`]. Taken up or refused, no word is
    /// altered.
    ///
    /// A file at rest that only the library wrote always passes. Where words do not, [`flaw`](File::flaw) of the
    /// [opened](FileRef::open) words says why.
    ///
    /// ```
    /// use bead_index::{File, FileRef, Operation, Refusal, Sizes};
    ///
    /// # fn main() -> Result<(), bead_index::Error> {
    /// let mut file = File::new(Sizes::new())?;
    /// file.insert(7, 40)?;
    /// let mut saved = file.into_words();
    /// let mut again = File::take_up(saved.clone())?;
    /// assert_eq!(again.find(7)?, Some(40));
    ///
    /// let mut lent = FileRef::take_up(&mut saved)?;
    /// lent.begin(0, Operation::find(7))?;
    /// assert_eq!(File::take_up(saved).unwrap_err(), Refusal::Unsaved);
    /// # Ok(())
    /// # }
    /// ```
    ///
    /// # Errors
    /// [`Refusal::Size`], [`Refusal::Length`] and [`Refusal::Unsaved`], in this order.
    pub fn take_up<W: Words<Memory = M>>(words: W) -> Result<Self, Refusal> {
        let memory = words.into_memory()?;
        Refusal::check(sys::take_up(memory.parts()))?;
        Ok(File { memory })
    }

    /// Writes the file, at rest, for [`load`](File::load) to read: all its words in their order, the least byte of each
    /// first. Nothing is written where it could not be loaded.
    ///
    /// Write to a new file and rename it once it is whole, so that there is always a file to go back to:
    ///
    /// ```
    /// use bead_index::{File, FileError, Sizes};
    /// use std::fs;
    ///
    /// # fn main() -> Result<(), FileError> {
    /// # let folder = std::env::temp_dir().join(format!("bead-index-{}", std::process::id()));
    /// # fs::create_dir_all(&folder)?;
    /// # let (new, name) = (folder.join("wall.new"), folder.join("wall.beads"));
    /// let mut file = File::new(Sizes::new())?;
    /// file.insert(7, 40)?;
    /// let output = fs::File::create(&new)?;
    /// file.save(&output)?;
    /// output.sync_all()?;
    /// fs::rename(&new, &name)?;
    ///
    /// let mut again = File::load(fs::File::open(&name)?)?;
    /// assert_eq!(again.find(7)?, Some(40));
    /// # fs::remove_dir_all(&folder)?;
    /// # Ok(())
    /// # }
    /// ```
    ///
    /// # Errors
    /// [`FileError::Io`] where the output cannot be written. [`FileError::Index`]: [`Error::UnderWay`] while a party
    /// has an operation under way (end it, withdraw it, or [`settle`](File::settle) a copy), and [`Refusal::Unsaved`]
    /// where something else than the library wrote to the memory.
    pub fn save(&self, mut output: impl Write) -> Result<(), FileError> {
        let parts = self.memory.parts();
        if let Some(party) = parts.busy_party() {
            return Err(Error::UnderWay { party }.into());
        }
        Refusal::check(sys::take_up(parts))?;
        let bytes: Vec<u8> = sys::all_words(parts)
            .into_iter()
            .flatten()
            .flat_map(|word| word.to_le_bytes())
            .collect();
        Ok(output.write_all(&bytes)?)
    }

    /// Brings the file to rest: withdraws every operation that has decided nothing, and steps the others to their end,
    /// in turn. Gives the answers of those that came to an end, with their parties, in that order. In each turn of all
    /// somebody moves, and none moves more often than [`Sizes::most_calls`](crate::Sizes::most_calls) says.
    ///
    /// This is for words that were copied or mapped between two calls of a program that is gone: [open](FileRef::open)
    /// a copy of them, settle it, and [take it up](File::take_up). Where that fails, or a call was cut in its middle,
    /// go back to the file that was saved last.
    ///
    /// ```
    /// use bead_index::{Answer, File, Operation, Sizes};
    ///
    /// # fn main() -> Result<(), bead_index::Error> {
    /// let mut file = File::new(Sizes::new().parties(3))?;
    /// file.begin(0, Operation::insert(7, 40))?;
    /// while file.under_way(0)?.map_or(0, |operation| operation.step) != 12 {
    ///     let _ = file.step(0)?; // step 11 writes the key into the file
    /// }
    /// file.begin(1, Operation::insert(8, 40))?;
    /// let mut copy = File::from_words(file.words().to_vec())?; // what a killed program leaves
    /// assert_eq!(copy.settle()?, [(0, Answer::Inserted)]);
    /// let mut again = File::take_up(copy.into_words())?;
    /// assert_eq!((again.find(7)?, again.find(8)?), (Some(40), None));
    /// # Ok(())
    /// # }
    /// ```
    ///
    /// # Errors
    /// Only where something else than the library wrote to the memory, and operations may then be left under way:
    /// [`Refusal::Damage`], [`Error::Waits`] where nobody can move, [`Error::Circle`].
    pub fn settle(&mut self) -> Result<Vec<(u32, Answer)>, Error> {
        for party in self.busy_parties() {
            match self.withdraw(party) {
                Ok(()) | Err(Refusal::Decided) => {}
                Err(refusal) => return Err(refusal.into()),
            }
        }
        let most = self.sizes().most_calls_of_all() * self.sizes().parties;
        let mut answers = Vec::new();
        for _ in 0..most {
            let under_way = self.busy_parties();
            if under_way.is_empty() {
                return Ok(answers);
            }
            self.step_each(&under_way, &mut answers)?;
        }
        match self.busy_parties()[..] {
            [] => Ok(answers),
            [party, ..] => Err(Error::Circle { party }),
        }
    }

    /// One step of each of these parties, of whom one must move.
    fn step_each(
        &mut self,
        parties: &[u32],
        answers: &mut Vec<(u32, Answer)>,
    ) -> Result<(), Error> {
        let (mut moved, mut waits) = (false, None);
        for &party in parties {
            match self.step(party)? {
                Outcome::Waiting => waits = self.wait(party),
                Outcome::Moved => moved = true,
                Outcome::Done { answer, .. } => {
                    moved = true;
                    answers.push((party, answer));
                }
            }
        }
        match waits {
            Some(wait) if !moved => Err(Error::Waits(wait)),
            _ => Ok(()),
        }
    }

    /// The parties that have an operation under way.
    fn busy_parties(&self) -> Vec<u32> {
        let records = self.memory.parts().parties;
        (0..)
            .zip(records)
            .filter(|(_, record)| record.operation != 0)
            .map(|(party, _)| party)
            .collect()
    }
}
