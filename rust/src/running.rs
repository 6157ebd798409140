//! Operations run to their end.

use crate::answers::{Answer, Operation, Outcome};
use crate::error::Error;
use crate::file::File;
use crate::memory::Memory;

/// Operations run to their end, each in at most as many steps as [`Sizes::most_calls`](crate::Sizes::most_calls) says.
impl<M: Memory> File<M> {
    /// The setting of a key, as party 0; none where the key is out.
    ///
    /// # Errors
    /// As [`run`](File::run).
    #[doc(alias = "get")]
    pub fn find(&mut self, key: u32) -> Result<Option<u32>, Error> {
        self.find_as(0, key)
    }

    /// Puts a key in with a setting, as party 0: whether it was out. A key that is in keeps the setting that it has.
    ///
    /// # Errors
    /// As [`run`](File::run), and [`Error::NoPage`] where the file is too full.
    pub fn insert(&mut self, key: u32, setting: u32) -> Result<bool, Error> {
        self.insert_as(0, key, setting)
    }

    /// Takes a key out, as party 0: whether it was in.
    ///
    /// # Errors
    /// As [`run`](File::run), and [`Error::NoPage`] where too few overflow pages are free to write the chain anew.
    pub fn delete(&mut self, key: u32) -> Result<bool, Error> {
        self.delete_as(0, key)
    }

    /// As [`find`](File::find), for a party.
    ///
    /// # Errors
    /// As [`find`](File::find).
    pub fn find_as(&mut self, party: u32, key: u32) -> Result<Option<u32>, Error> {
        Ok(self.run(party, Operation::find(key))?.setting())
    }

    /// As [`insert`](File::insert), for a party.
    ///
    /// # Errors
    /// As [`insert`](File::insert).
    pub fn insert_as(&mut self, party: u32, key: u32, setting: u32) -> Result<bool, Error> {
        changed(self.run(party, Operation::insert(key, setting))?)
    }

    /// As [`delete`](File::delete), for a party.
    ///
    /// # Errors
    /// As [`delete`](File::delete).
    pub fn delete_as(&mut self, party: u32, key: u32) -> Result<bool, Error> {
        changed(self.run(party, Operation::delete(key))?)
    }

    /// Begins an operation for a party and runs it to its end, in at most as many steps as
    /// [`Sizes::most_calls`](crate::Sizes::most_calls) says.
    ///
    /// # Errors
    /// [`Error::Refused`] where a call is refused. [`Error::Waits`] where another party has a lock that the operation
    /// needs or came to wait for it earlier, which does not happen while no other has an operation under way: this one
    /// then stays under way, see [`finish`](File::finish).
    pub fn run(&mut self, party: u32, operation: Operation) -> Result<Answer, Error> {
        self.begin(party, operation)?;
        self.finish(party)
    }

    /// Runs a party's operation to its end, in at most as many steps as
    /// [`Sizes::most_calls`](crate::Sizes::most_calls) says, those that it has taken already among them.
    ///
    /// ```
    /// use bead_index::{Answer, Error, File, Operation, Sizes};
    ///
    /// # fn main() -> Result<(), Error> {
    /// let mut file = File::new(Sizes::new().parties(2))?;
    /// file.begin(1, Operation::insert(8, 40))?;
    /// for _ in 0..4 {
    ///     let _ = file.step(1)?; // the fourth step takes the chain
    /// }
    /// match file.insert(7, 40) {
    ///     Err(Error::Waits(wait)) => assert_eq!(wait.holders, [1]),
    ///     other => panic!("{other:?}"),
    /// }
    /// assert_eq!(file.finish(1)?, Answer::Inserted);
    /// assert_eq!(file.finish(0)?, Answer::Inserted); // the insert of 7 goes on where it waited
    /// # Ok(())
    /// # }
    /// ```
    ///
    /// # Errors
    /// [`Error::Refused`] and [`Error::Waits`], as [`run`](File::run). [`Error::Circle`] on damaged memory.
    pub fn finish(&mut self, party: u32) -> Result<Answer, Error> {
        for _ in 0..self.sizes().most_calls_of_all() {
            match self.step(party)? {
                Outcome::Waiting => {
                    return Err(Error::Waits(
                        self.wait(party).expect("a waiting party waits for a lock"),
                    ))
                }
                Outcome::Moved => {}
                Outcome::Done { answer, .. } => return Ok(answer),
            }
        }
        Err(Error::Circle { party })
    }
}

/// Whether an insert or a delete changed what it was begun for.
fn changed(answer: Answer) -> Result<bool, Error> {
    match answer {
        Answer::NoPage => Err(Error::NoPage),
        answer => Ok(matches!(answer, Answer::Inserted | Answer::Deleted)),
    }
}
