//! A call, its reply, and the port as one that answers calls.

use crate::image::Image;
use bead_port::c_face::{code_of, pages_of, read_pages_of, BeadReply};
use bead_port::calls;
use bead_port::damage::Cause;
use bead_port::memory::{Party, Root};
use bead_port::reply::Refusal;
use bead_port::take_up::{Condition, Saved, CONDITIONS};

#[derive(Clone, Copy, Debug, PartialEq, Eq)]
pub enum Call {
    Format([u32; 5]),
    /// Party, operation, key and setting.
    Begin(u32, u32, u32, u32),
    Step(u32),
    Withdraw(u32),
    TakeUp,
}

/// The steps that request a lock, and so can wait.
pub const REQUESTING: [usize; 9] = [1, 4, 7, 13, 15, 16, 23, 24, 25];

/// The five words of a step's reply; any other call has its number in the first and zeros.
pub type Reply = [u32; 5];

pub fn code_reply(code: u32) -> Reply {
    [code, 0, 0, 0, 0]
}

pub fn step_reply(reply: BeadReply) -> Reply {
    [
        reply.refusal,
        reply.outcome,
        reply.answer,
        reply.restructuring,
        reply.setting,
    ]
}

/// Whatever answers calls on lent memory.
pub trait Callee {
    fn call(&mut self, image: &mut Image, call: Call) -> Reply;
}

/// The port, called from within; it remembers the cause of the last refusal 6.
#[derive(Default)]
pub struct Port {
    pub cause: Option<Cause>,
}

impl Callee for Port {
    fn call(&mut self, image: &mut Image, call: Call) -> Reply {
        self.cause = None;
        let mut root = image.root_record();
        let mut parties = image.party_records();
        let reply = self.call_on(&mut root, &mut parties, image, call);
        image.set_root(root);
        for (number, party) in (0..).zip(parties) {
            image.set_party(number, party);
        }
        reply
    }
}

/// The conditions of a saved file that fail, of allowed sizes and fitting lengths.
pub fn failing(image: &Image) -> Vec<Condition> {
    let saved = Saved {
        root: &image.root_record(),
        parties: &image.party_records(),
        locks: &image.locks,
        pages: read_pages_of(&image.pages),
        row: &image.row,
    };
    let conditions = CONDITIONS.iter().map(|(condition, _)| *condition);
    conditions
        .filter(|condition| !saved.meets(*condition))
        .collect()
}

impl Port {
    fn call_on(
        &mut self,
        root: &mut Root,
        parties: &mut [Party],
        image: &mut Image,
        call: Call,
    ) -> Reply {
        let (words, locks) = (image.pages.len(), &mut image.locks[..]);
        let row = &mut image.row[..];
        let pages = pages_of(&mut image.pages);
        match call {
            Call::Format(sizes) => code_reply(code_of(calls::format::<Cause>(
                root, parties, locks, pages, words, row, sizes,
            ))),
            Call::Begin(_, operation, ..) if !(1..=3).contains(&operation) => code_reply(255),
            Call::Begin(party, operation, key, setting) => {
                code_reply(code_of(calls::begin::<Cause>(
                    root, parties, locks, words, row, party, operation, key, setting,
                )))
            }
            Call::Step(party) => {
                let result = calls::step::<Cause>(root, parties, locks, pages, words, row, party);
                if let Err(Refusal::Damaged(cause)) = result {
                    self.cause = Some(cause);
                }
                step_reply(BeadReply::of(result))
            }
            Call::Withdraw(party) => {
                let result =
                    calls::withdraw::<Cause>(root, parties, locks, pages, words, row, party);
                if let Err(Refusal::Damaged(cause)) = result {
                    self.cause = Some(cause);
                }
                code_reply(code_of(result))
            }
            Call::TakeUp => code_reply(code_of(calls::take_up::<Cause>(
                root, parties, locks, pages, words, row,
            ))),
        }
    }
}
