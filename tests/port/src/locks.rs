//! Lock words: bit q marks party q as a reader, bits 16 to 20 hold the selective holder plus one, bits 21 to 25 the exclusive holder plus one.

const READERS: u32 = 0xffff;
const SELECTIVE_SHIFT: u32 = 16;
const SELECTIVE: u32 = 31 << SELECTIVE_SHIFT;
const EXCLUSIVE_SHIFT: u32 = 21;
const EXCLUSIVE: u32 = 31 << EXCLUSIVE_SHIFT;

#[derive(Clone, Copy, Debug, PartialEq, Eq)]
pub enum Mode {
    Read,
    Selective,
    Exclusive,
}

impl Mode {
    /// The bits that this party's hold sets.
    #[inline(always)]
    fn hold(self, party: u32) -> u32 {
        match self {
            Mode::Read => 1 << party,
            Mode::Selective => (party + 1) << SELECTIVE_SHIFT,
            Mode::Exclusive => (party + 1) << EXCLUSIVE_SHIFT,
        }
    }

    /// The bits that tell whether this party holds it.
    #[inline(always)]
    fn field(self, party: u32) -> u32 {
        match self {
            Mode::Read => 1 << party,
            Mode::Selective => SELECTIVE,
            Mode::Exclusive => EXCLUSIVE,
        }
    }

    /// The bits of holds that make a request wait.
    #[inline(always)]
    fn waits_for(self) -> u32 {
        match self {
            Mode::Read => EXCLUSIVE,
            Mode::Selective => SELECTIVE | EXCLUSIVE,
            Mode::Exclusive => READERS | SELECTIVE | EXCLUSIVE,
        }
    }
}

impl Mode {
    /// Whether Table I lets two parties hold these modes at once.
    #[inline(always)]
    pub fn beside(self, other: Mode) -> bool {
        self.waits_for() & other.field(0) == 0
    }
}

/// Requests a lock: sets the hold and says so, or changes nothing.
#[inline(always)]
pub fn request(word: &mut u32, mode: Mode, party: u32) -> bool {
    let granted = *word & mode.waits_for() == 0;
    if granted {
        *word |= mode.hold(party);
    }
    granted
}

#[inline(always)]
pub fn is_held(word: u32, mode: Mode, party: u32) -> bool {
    word & mode.field(party) == mode.hold(party)
}

#[inline(always)]
pub fn give_up(word: &mut u32, mode: Mode, party: u32) {
    *word &= !mode.field(party);
}

/// "Exclusive on root becomes selective", whatever stood in the selective field.
#[inline]
pub fn turn_selective(word: &mut u32, party: u32) {
    *word = *word & !(SELECTIVE | EXCLUSIVE) | Mode::Selective.hold(party);
}
