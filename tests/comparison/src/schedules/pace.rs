//! How a schedule goes: long or short turns of a party, idle parties eager to begin or not, operations withdrawn often or seldom.

use crate::random::Random;

pub struct Pace {
    /// One call in so many turns to another party.
    burst: u32,
    /// An idle party begins in one of so many turns.
    pub eager: u32,
    /// An operation under way is withdrawn in one of so many turns.
    pub withdraws: u32,
    party: u32,
}

impl Pace {
    pub fn new(random: &mut Random) -> Pace {
        Pace {
            burst: random.pick(&[1, 1, 1, 3, 20]),
            eager: random.pick(&[1, 1, 4, 30]),
            withdraws: random.pick(&[20, 100, 100, 1000]),
            party: 0,
        }
    }

    pub fn next_party(&mut self, parties: u32, random: &mut Random) -> u32 {
        if random.one_in(self.burst) {
            self.party = random.below(parties);
        }
        self.party
    }
}
