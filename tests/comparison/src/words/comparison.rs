//! Makes each call on the port and on every side held to it, on equal memory, and compares the reply and every word.

use super::coverage::Coverage;
use crate::callee::{failing, Call, Callee, Port, Reply};
use crate::image::{Image, PART_NAMES};
use crate::part::Outcome;
use bead_port::locks;
use bead_port::memory::PARTY_WORDS;
use bead_port::waiting::{requested, Request};

/// One that is held to the port: its name, what answers its calls, and its memory.
struct Side {
    name: &'static str,
    callee: Box<dyn Callee>,
    image: Image,
}

impl Side {
    /// One call: what differs from the port's reply and the memory that it left, in words.
    fn difference(&mut self, call: Call, reply: Reply, left: &Image) -> Option<String> {
        let name = self.name;
        let theirs = self.callee.call(&mut self.image, call);
        if reply != theirs {
            return Some(format!("{name}: reply {theirs:?}, port {reply:?}"));
        }
        let parts = self.image.parts().into_iter().zip(left.parts());
        parts.zip(PART_NAMES).find_map(|((theirs, ours), part)| {
            let (place, theirs, ours) = theirs.first_difference(ours)?;
            Some(format!(
                "{name}: {part} word {place}: {theirs}, port {ours}"
            ))
        })
    }
}

/// Whether the locks held permit what a party's next step requests.
fn is_permitted(image: &Image, party: u32) -> bool {
    let request = requested(&image.root_record(), &image.party(party));
    request.map_or(false, |Request { word, mode }| {
        let mut word = image.locks[word as usize];
        locks::request(&mut word, mode, party)
    })
}

/// Puts a party behind those who wait, unless it is there.
fn join(row: &mut [u32], party: u32) {
    let place = row.iter().position(|word| [0, party + 1].contains(word));
    if let Some(place) = place {
        row[place] = party + 1;
    }
}

/// The port with its memory, those held to it, and what was met.
pub struct Comparison {
    sides: Vec<Side>,
    port: Port,
    ours: Image,
    before: Image,
    pub coverage: Coverage,
    pub calls: u64,
}

impl Comparison {
    pub fn new(sides: Vec<(&'static str, Box<dyn Callee>)>) -> Comparison {
        let empty = Image::zero(0, 0, 0, 0);
        let side = |(name, callee)| Side {
            name,
            callee,
            image: empty.clone(),
        };
        Comparison {
            sides: sides.into_iter().map(side).collect(),
            port: Port::default(),
            ours: empty.clone(),
            before: empty.clone(),
            coverage: Coverage::new(),
            calls: 0,
        }
    }

    /// The memory, which all have alike.
    pub fn memory(&self) -> &Image {
        &self.ours
    }

    /// Lends all of them this memory.
    pub fn lend(&mut self, image: &Image) {
        self.ours.copy_from(image);
        for side in &mut self.sides {
            side.image.copy_from(image);
        }
    }

    /// One call on each.
    pub fn call(&mut self, call: Call) -> Outcome<Reply> {
        self.calls += 1;
        self.before.copy_from(&self.ours);
        let reply = self.port.call(&mut self.ours, call);
        self.count(call, reply);
        let left = &self.ours;
        let mut sides = self.sides.iter_mut();
        match sides.find_map(|side| side.difference(call, reply, left)) {
            Some(difference) => Err(format!("{call:?}: {difference}{}", self.told())),
            None => self.test_unchanged(call, reply),
        }
    }

    fn count(&mut self, call: Call, reply: Reply) {
        self.coverage
            .count(call, self.step_before(call), reply, self.port.cause);
        if let (Call::Step(party), [0, 1 | 2, ..]) = (call, reply) {
            self.coverage
                .situations
                .count(&self.before, &self.ours, party);
        }
        if let (Call::Step(party), [0, 0, ..]) = (call, reply) {
            if is_permitted(&self.before, party) {
                let step = self.before.party(party).step;
                self.coverage.count_behind(step);
            }
        }
        if let (Call::TakeUp, [8, ..]) = (call, reply) {
            self.coverage.count_unsaved(&failing(&self.before));
        }
    }

    /// The step number that the called party's record held before the call.
    fn step_before(&self, call: Call) -> u32 {
        match call {
            Call::Step(party) | Call::Withdraw(party)
                if (party as usize) < self.before.party_count() =>
            {
                self.before.party(party).step
            }
            _ => 0,
        }
    }

    /// "Left as it was: all lent memory" where refused; by take-up "nothing altered"; "only the first waiting call alters
    /// memory, and only this row".
    fn test_unchanged(&mut self, call: Call, reply: Reply) -> Outcome<Reply> {
        match call {
            Call::Step(party) if reply == [0; 5] => join(&mut self.before.row, party),
            _ if reply[0] == 0 && call != Call::TakeUp => return Ok(reply),
            _ => {}
        }
        if self.ours != self.before {
            return Err(format!(
                "{call:?}: memory changed by a call refused, waiting or looking{}",
                self.told()
            ));
        }
        Ok(reply)
    }

    /// The records before the call.
    fn told(&self) -> String {
        let records: Vec<&[u32]> = self.before.parties.chunks(PARTY_WORDS).collect();
        format!(
            "\n  before: root {:?}, parties {records:?}, who waits {:?}",
            &self.before.root[..],
            &self.before.row[..]
        )
    }
}
