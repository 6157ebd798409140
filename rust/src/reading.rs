//! What stands in a file.

use crate::answers::UnderWay;
use crate::chains::Records;
use crate::error::{Error, Refusal};
use crate::file::File;
use crate::memory::Memory;
use crate::sizes::Sizes;
use crate::wait::{Lock, Mode, Wait};
use std::fmt;

/// What stands in the file.
impl<M: Memory> File<M> {
    /// The sizes that the file was made with.
    pub fn sizes(&self) -> Sizes {
        self.memory.parts().root.sizes()
    }

    /// How often the file has doubled.
    #[must_use]
    pub fn level(&self) -> u32 {
        self.memory.parts().root.level
    }

    /// The chain that splits next.
    #[must_use]
    pub fn next_to_split(&self) -> u32 {
        self.memory.parts().root.next
    }

    /// How many overflow pages are free.
    #[must_use]
    pub fn free_pages(&self) -> u32 {
        self.memory.parts().root.free
    }

    /// How many chains there are; a split or merge under way counts once the root record says so.
    ///
    /// # Errors
    /// [`Refusal::Damage`] where the root record is damaged.
    pub fn chain_count(&self) -> Result<u32, Refusal> {
        self.memory.parts().chain_count()
    }

    /// The operation that a party has under way, if it has one.
    ///
    /// # Errors
    /// [`Refusal::Party`] where there is no such party.
    pub fn under_way(&self, party: u32) -> Result<Option<UnderWay>, Refusal> {
        if party < self.sizes().parties {
            Ok(self.memory.parts().under_way(party))
        } else {
            Err(Refusal::Party)
        }
    }

    /// The lock that a party's next step asks for, granted or not; none where it asks for none.
    ///
    /// ```
    /// use bead_index::{File, Lock, Mode, Operation, Sizes};
    ///
    /// let mut file = File::new(Sizes::new())?;
    /// assert_eq!(file.wanted(0), None);
    /// file.begin(0, Operation::insert(7, 40))?;
    /// assert_eq!(file.wanted(0), Some((Lock::Root, Mode::Read)));
    /// # Ok::<(), bead_index::Refusal>(())
    /// ```
    #[must_use]
    pub fn wanted(&self, party: u32) -> Option<(Lock, Mode)> {
        self.memory.parts().wanted(party)
    }

    /// Why a party's next step would wait; none where it would not.
    #[must_use]
    pub fn wait(&self, party: u32) -> Option<Wait> {
        self.memory.parts().wait(party)
    }

    /// Whether no party has an operation under way.
    #[must_use]
    pub fn is_at_rest(&self) -> bool {
        self.memory.parts().is_at_rest()
    }

    /// Every key with its setting, chain by chain, keys ascending in each. While operations are under way a key may
    /// stand in two chains or be half in, so they are listed at rest alone.
    ///
    /// ```
    /// use bead_index::{Error, File, Operation, Sizes};
    ///
    /// # fn main() -> Result<(), Error> {
    /// let mut file = File::new(Sizes::new().original_chains(2).parties(2))?;
    /// for (key, setting) in [(9, 40), (4, 45), (5, 60)] {
    ///     file.insert(key, setting)?;
    /// }
    /// assert_eq!(file.records()?.len(), 3);
    /// assert_eq!(file.records()?.collect::<Vec<_>>(), [(5, 60), (4, 45), (9, 40)]); // chain 0: 5; chain 1: 4 and 9
    /// file.begin(1, Operation::find(4))?;
    /// assert!(matches!(file.records(), Err(Error::UnderWay { party: 1 })));
    /// # Ok(())
    /// # }
    /// ```
    ///
    /// # Errors
    /// [`Error::UnderWay`] while a party has an operation under way; [`Refusal::Damage`] where the chains cannot be
    /// walked.
    #[doc(alias = "iter")]
    #[doc(alias = "keys")]
    pub fn records(&self) -> Result<Records<'_>, Error> {
        self.memory.parts().records()
    }
}

/// Shows level, next, the free pages, each chain with its keys and their settings (a bar between pages), and what is
/// under way.
///
/// ```
/// use bead_index::{File, Sizes};
///
/// # fn main() -> Result<(), bead_index::Error> {
/// let mut file = File::new(Sizes::new().original_chains(2).records_a_page(2).most_chains(2).overflow_pages(4))?;
/// for (key, setting) in [(1, 40), (3, 45), (5, 40), (4, 60)] {
///     file.insert(key, setting)?;
/// }
/// assert_eq!(
///     format!("{file:?}"),
///     "File { sizes: N 2 b 2 P 2 V 4 Q 16, level: 0, next: 0, free: 3, \
///      chains: [0 (level 0): 1=40 3=45 | 5=40, 1 (level 0): 4=60], under_way: [] }"
/// );
/// # Ok(())
/// # }
/// ```
impl<M: Memory> fmt::Debug for File<M> {
    fn fmt(&self, out: &mut fmt::Formatter<'_>) -> fmt::Result {
        self.memory.parts().show(out)
    }
}
