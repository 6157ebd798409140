//! A library with something wrong put into what it leaves or answers, so that each part of the comparison can be seen to fail.

use crate::callee::{Call, Callee, Reply};
use crate::image::{Image, PART_NAMES};
use crate::library::Library;
use crate::random::Random;
use bead_port::reply::FOUND;

/// What is wrong now and then.
#[derive(Clone, Copy)]
pub enum Wrong {
    /// A bit of one of the five lent parts.
    Memory(usize),
    /// A bit of the reply.
    Reply,
    /// The answer of an operation done.
    Answer,
    /// The setting of a key found.
    Setting,
    /// From some call on every operation under way waits, and joins the row.
    Wait,
    /// From some call on, with nobody in the row, every operation under way is answered moved, and nothing is altered.
    Move,
    /// The same with somebody in the row.
    Pass,
}

impl Wrong {
    pub fn named(name: &str) -> Option<Wrong> {
        match name {
            "reply" => Some(Wrong::Reply),
            "answer" => Some(Wrong::Answer),
            "setting" => Some(Wrong::Setting),
            "wait" => Some(Wrong::Wait),
            "move" => Some(Wrong::Move),
            "pass" => Some(Wrong::Pass),
            _ => PART_NAMES
                .iter()
                .position(|known| *known == name)
                .map(Wrong::Memory),
        }
    }
}

const WAITING: Reply = [0; 5];
const MOVED: Reply = [0, 1, 0, 0, 0];

/// A party joins the row, unless it is there or there is no room.
fn join(row: &mut [u32], party: u32) {
    if let (false, Some(free)) = (
        row.contains(&(party + 1)),
        row.iter().position(|word| *word == 0),
    ) {
        row[free] = party + 1;
    }
}

/// One call in so many goes wrong.
const ONE_IN: u32 = 1000;

pub struct Wronged {
    library: Library,
    wrong: Wrong,
    /// What every step of an operation under way is answered, once it is.
    stuck: Option<Reply>,
    random: Random,
}

impl Wronged {
    pub fn new(library: Library, wrong: Wrong, seed: u64) -> Wronged {
        Wronged {
            library,
            wrong,
            stuck: None,
            random: Random::new(seed),
        }
    }

    fn flip(&mut self, words: &mut [u32]) {
        if !words.is_empty() {
            words[self.random.below(words.len() as u32) as usize] ^= 1 << self.random.below(32);
        }
    }

    /// Whose step the call is, if it is one of an operation under way.
    fn stepping(image: &Image, call: Call) -> Option<u32> {
        match call {
            Call::Step(q)
                if (q as usize) < image.party_count() && image.party(q).operation != 0 =>
            {
                Some(q)
            }
            _ => None,
        }
    }

    /// From here on every step of an operation under way is answered so, where the time has come for it.
    fn get_stuck(&mut self, image: &Image) {
        let somebody = image.row.iter().any(|word| *word != 0);
        match self.wrong {
            Wrong::Wait => self.stuck = Some(WAITING),
            Wrong::Move if !somebody => self.stuck = Some(MOVED),
            Wrong::Pass if somebody => self.stuck = Some(MOVED),
            _ => {}
        }
    }
}

impl Callee for Wronged {
    fn call(&mut self, image: &mut Image, call: Call) -> Reply {
        let now = self.random.one_in(ONE_IN);
        if now && self.stuck.is_none() {
            self.get_stuck(image);
        }
        if let (Some(reply), Some(party)) = (self.stuck, Wronged::stepping(image, call)) {
            if reply == WAITING {
                join(&mut image.row, party);
            }
            return reply;
        }
        let mut reply = self.library.call(image, call);
        match self.wrong {
            Wrong::Memory(part) if now => {
                let words: &mut [u32] = image
                    .parts_mut()
                    .into_iter()
                    .nth(part)
                    .expect("one of five parts");
                self.flip(words);
            }
            Wrong::Reply if now => self.flip(&mut reply),
            Wrong::Answer if reply[1] == 2 && self.random.one_in(100) => {
                reply[2] = 1 + reply[2] % 6
            }
            Wrong::Setting if reply[2] == FOUND && self.random.one_in(100) => {
                reply[4] ^= 1 << self.random.below(32)
            }
            _ => {}
        }
        reply
    }
}
