//! Who waits for whom: the lock that a party's next step asks for, who holds it, and who came to wait for it earlier.

use crate::answers::{Kind, Operation, UnderWay};
use crate::memory::{Parts, PartyRecord};
use std::fmt;

/// What a lock is on.
#[derive(Clone, Copy, Debug, PartialEq, Eq, Hash)]
pub enum Lock {
    /// The root record.
    Root,
    /// The chain of this number.
    Chain(u32),
}

impl fmt::Display for Lock {
    fn fmt(&self, out: &mut fmt::Formatter<'_>) -> fmt::Result {
        match self {
            Lock::Root => out.write_str("the root"),
            Lock::Chain(chain) => write!(out, "chain {chain}"),
        }
    }
}

/// The three kinds of lock. A read lock goes with read locks and a selective one, a selective lock with read locks, an
/// exclusive lock with none.
#[derive(Clone, Copy, Debug, PartialEq, Eq, Hash)]
pub enum Mode {
    /// To read.
    Read,
    /// To change while others read.
    Selective,
    /// To be alone.
    Exclusive,
}

impl Mode {
    /// Whether two parties may hold these at once.
    fn goes_with(self, other: Mode) -> bool {
        matches!(
            (self, other),
            (Mode::Read, Mode::Read | Mode::Selective) | (Mode::Selective, Mode::Read)
        )
    }
}

impl fmt::Display for Mode {
    fn fmt(&self, out: &mut fmt::Formatter<'_>) -> fmt::Result {
        out.write_str(match self {
            Mode::Read => "read",
            Mode::Selective => "selective",
            Mode::Exclusive => "exclusive",
        })
    }
}

/// Why a party's next step would wait: the lock is held, or others came to wait for it earlier, in a way that does not
/// go with what the party asks for. One of them at least is not empty.
///
/// ```
/// use bead_index::{File, Mode, Operation, Sizes};
///
/// let mut file = File::new(Sizes::new().parties(2))?;
/// file.begin(0, Operation::insert(7, 40))?;
/// file.begin(1, Operation::insert(8, 40))?;
/// for step in 1..=4 {
///     let _ = file.step(0)?; // the fourth step takes the chain
/// }
/// for step in 1..=3 {
///     let _ = file.step(1)?;
/// }
/// let wait = file.wait(1).expect("one party at a time changes a chain");
/// assert_eq!((wait.mode, &wait.holders[..]), (Mode::Selective, &[0][..]));
/// assert_eq!(wait.to_string(), "party 1 waits for chain 0 (selective), held by party 0");
/// # Ok::<(), bead_index::Refusal>(())
/// ```
#[derive(Clone, Debug, PartialEq, Eq, Hash)]
#[non_exhaustive]
pub struct Wait {
    /// The party that waits.
    pub party: u32,
    /// What it asks for.
    pub lock: Lock,
    /// How it asks for it.
    pub mode: Mode,
    /// Who holds it in a way that does not go with this, ascending.
    pub holders: Vec<u32>,
    /// Who waits for it in a way that does not go with this, and came to wait earlier, first come first.
    pub behind: Vec<u32>,
}

impl fmt::Display for Wait {
    fn fmt(&self, out: &mut fmt::Formatter<'_>) -> fmt::Result {
        write!(
            out,
            "party {} waits for {} ({})",
            self.party, self.lock, self.mode
        )?;
        list(out, ", held by ", &self.holders)?;
        list(out, ", behind ", &self.behind)
    }
}

/// Parties after some words: "party 1", "parties 1, 2 and 4"; nothing where there is none.
fn list(out: &mut fmt::Formatter<'_>, words: &str, parties: &[u32]) -> fmt::Result {
    let (last, rest) = match parties {
        [] => return Ok(()),
        [party] => return write!(out, "{words}party {party}"),
        [rest @ .., last] => (last, rest),
    };
    let rest: Vec<String> = rest.iter().map(u32::to_string).collect();
    write!(out, "{words}parties {} and {last}", rest.join(", "))
}

impl Parts<'_> {
    fn record(&self, party: u32) -> Option<&PartyRecord> {
        self.parties.get(party as usize)
    }

    /// The operation that a party has under way.
    pub(crate) fn under_way(self, party: u32) -> Option<UnderWay> {
        let record = self.record(party)?;
        let kind = Kind::of(record.operation)?;
        Some(UnderWay {
            operation: Operation::new(kind, record.key, record.setting),
            step: record.step,
        })
    }

    /// The lock that a party's next step asks for.
    pub(crate) fn wanted(self, party: u32) -> Option<(Lock, Mode)> {
        let record = self.record(party)?;
        let shared = match Kind::of(record.operation)? {
            Kind::Find => Mode::Read,
            Kind::Insert | Kind::Delete => Mode::Selective,
        };
        let count = self.chain_count().ok()?;
        match record.step {
            1 => Some((Lock::Root, Mode::Read)),
            4 | 7 => Some((Lock::Chain(record.chain), shared)),
            13 => Some((Lock::Chain(record.chain), Mode::Exclusive)),
            15 => Some((Lock::Root, Mode::Selective)),
            16 if count < self.root.primaries => {
                Some((Lock::Chain(self.root.next), Mode::Selective))
            }
            23 => Some((Lock::Root, Mode::Exclusive)),
            24 if count > self.root.originals => {
                Some((Lock::Chain(self.merge_target()), Mode::Exclusive))
            }
            25 => Some((Lock::Chain(record.other), Mode::Exclusive)),
            _ => None,
        }
    }

    /// The chain that a merge joins the last chain to, where there are more chains than the original ones.
    fn merge_target(self) -> u32 {
        match self.root.next {
            0 => (self.root.originals << (self.root.level - 1)) - 1,
            next => next - 1,
        }
    }

    /// Why a party's next step would wait.
    pub(crate) fn wait(self, party: u32) -> Option<Wait> {
        let (lock, mode) = self.wanted(party)?;
        let word = match lock {
            Lock::Root => *self.locks.first()?,
            Lock::Chain(chain) => *self.locks.get(chain as usize + 1)?,
        };
        let (holders, behind) = (holders(word, mode), self.earlier(party, lock, mode));
        if holders.is_empty() && behind.is_empty() {
            None
        } else {
            Some(Wait {
                party,
                lock,
                mode,
                holders,
                behind,
            })
        }
    }

    /// Who came to wait earlier for a lock, in a way that does not go with this, first come first.
    fn earlier(self, party: u32, lock: Lock, mode: Mode) -> Vec<u32> {
        let waiting = self.waiting.iter().take_while(|word| **word != 0);
        waiting
            .map(|word| word - 1)
            .take_while(|other| *other != party)
            .filter(|other| {
                let theirs = self.wanted(*other);
                theirs.map_or(false, |(other, theirs)| {
                    other == lock && !mode.goes_with(theirs)
                })
            })
            .collect()
    }
}

/// Who holds a lock in a way that does not go with a request, ascending. In a lock word bits 0 to 15 are the readers,
/// bits 16 to 20 the selective holder plus one, bits 21 to 25 the exclusive holder plus one.
fn holders(word: u32, request: Mode) -> Vec<u32> {
    let (selective, exclusive) = (word >> 16 & 31, word >> 21 & 31);
    let is_reader = |party: u32| party < 16 && word >> party & 1 == 1;
    (0..31)
        .filter(|&party| match request {
            Mode::Read => exclusive == party + 1,
            Mode::Selective => exclusive == party + 1 || selective == party + 1,
            Mode::Exclusive => exclusive == party + 1 || selective == party + 1 || is_reader(party),
        })
        .collect()
}

#[cfg(test)]
mod tests {
    use super::*;

    #[test]
    fn holders_by_the_table() {
        let readers = 0b101;
        let selective = 4 << 16;
        let exclusive = 2 << 21;
        for (word, read, selective_request, exclusive_request) in [
            (0, vec![], vec![], vec![]),
            (readers, vec![], vec![], vec![0, 2]),
            (selective, vec![], vec![3], vec![3]),
            (readers | selective, vec![], vec![3], vec![0, 2, 3]),
            (exclusive, vec![1], vec![1], vec![1]),
            (0xfc00_0000, vec![], vec![], vec![]),
        ] {
            assert_eq!(holders(word, Mode::Read), read);
            assert_eq!(holders(word, Mode::Selective), selective_request);
            assert_eq!(holders(word, Mode::Exclusive), exclusive_request);
        }
    }

    #[test]
    fn modes_by_the_table() {
        let modes = [Mode::Read, Mode::Selective, Mode::Exclusive];
        let table = modes.map(|request| modes.map(|other| request.goes_with(other)));
        assert_eq!(
            table,
            [
                [true, true, false],
                [true, false, false],
                [false, false, false]
            ]
        );
    }

    #[test]
    fn a_wait_reads_well() {
        let wait = |holders: &[u32], behind: &[u32]| {
            let wait = Wait {
                party: 5,
                lock: Lock::Root,
                mode: Mode::Exclusive,
                holders: holders.to_vec(),
                behind: behind.to_vec(),
            };
            wait.to_string()
        };
        assert_eq!(
            wait(&[], &[3, 2]),
            "party 5 waits for the root (exclusive), behind parties 3 and 2"
        );
        assert_eq!(
            wait(&[0], &[3]),
            "party 5 waits for the root (exclusive), held by party 0, behind party 3"
        );
        assert_eq!(
            wait(&[1], &[]),
            "party 5 waits for the root (exclusive), held by party 1"
        );
        assert_eq!(
            wait(&[1, 2, 4], &[]),
            "party 5 waits for the root (exclusive), held by parties 1, 2 and 4"
        );
    }
}
