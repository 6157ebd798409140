//! Which operations, keys and settings the parties of a session choose: the file grows and shrinks by turns.

use crate::callee::Call;
use crate::random::Random;
use bead_port::memory::{DELETE, FIND, INSERT};

/// What a party begins.
#[derive(Clone, Copy, Debug)]
pub struct Choice {
    pub operation: u32,
    pub key: u32,
    pub setting: u32,
}

impl Choice {
    /// The begin of a party.
    pub fn begin(self, party: u32) -> Call {
        Call::Begin(party, self.operation, self.key, self.setting)
    }
}

pub struct Habits {
    /// Keys are first + stride × a number below the range.
    first: u32,
    stride: u32,
    range: u32,
    /// One choice in so many turns from growing to shrinking or back.
    turn: u32,
    growing: bool,
}

impl Habits {
    pub fn new([n, b, p, v, _]: [u32; 5], turn: u32, random: &mut Random) -> Habits {
        let room = (p + v) * b;
        Habits {
            first: if random.one_in(3) {
                u32::MAX - random.below(1000)
            } else {
                random.below(1000)
            },
            stride: random.pick(&[1, 1, 1, n, n << 3, 2_654_435_761]),
            range: random.pick(&[room / 3, room, 2 * room, 1 << 20]) + 2,
            turn,
            growing: true,
        }
    }

    /// The same with neighbouring keys, under which a file grows to all its chains.
    pub fn dense(self) -> Habits {
        Habits { stride: 1, ..self }
    }

    pub fn key(&self, random: &mut Random) -> u32 {
        self.first
            .wrapping_add(random.below(self.range).wrapping_mul(self.stride))
    }

    /// An operation, its key and a setting, which a find or a delete must not heed.
    pub fn choose(&mut self, random: &mut Random) -> Choice {
        if random.one_in(self.turn) {
            self.growing = !self.growing;
        }
        let (more, less) = if self.growing {
            (INSERT, DELETE)
        } else {
            (DELETE, INSERT)
        };
        let operation = match random.below(10) {
            0..=1 => FIND,
            2..=8 => more,
            _ => less,
        };
        Choice {
            operation,
            key: self.key(random),
            setting: random.word(),
        }
    }
}
