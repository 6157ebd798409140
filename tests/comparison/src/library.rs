//! Libraries with the C face: the one that is linked, the C port of the benchmark, and the port's own. Holds this program's unsafe code.
#![allow(unsafe_code)]

use crate::callee::{code_reply, step_reply, Call, Callee, Reply};
use crate::image::Image;
use bead_port::c_face::BeadReply;
use bead_port::memory::{Party, Root};

type Format = unsafe extern "C" fn(
    *mut Root,
    *mut Party,
    usize,
    *mut u32,
    usize,
    *mut u32,
    usize,
    *mut u32,
    usize,
    u32,
    u32,
    u32,
    u32,
    u32,
) -> u32;
type Begin = unsafe extern "C" fn(
    *mut Root,
    *mut Party,
    usize,
    *mut u32,
    usize,
    *mut u32,
    usize,
    *mut u32,
    usize,
    u32,
    u32,
    u32,
    u32,
) -> u32;
type Step = unsafe extern "C" fn(
    *mut Root,
    *mut Party,
    usize,
    *mut u32,
    usize,
    *mut u32,
    usize,
    *mut u32,
    usize,
    u32,
) -> BeadReply;
type Withdraw = unsafe extern "C" fn(
    *mut Root,
    *mut Party,
    usize,
    *mut u32,
    usize,
    *mut u32,
    usize,
    *mut u32,
    usize,
    u32,
) -> u32;
type TakeUp = unsafe extern "C" fn(
    *const Root,
    *const Party,
    usize,
    *const u32,
    usize,
    *const u32,
    usize,
    *const u32,
    usize,
) -> u32;

/// Declares the calls of a C face by these names.
macro_rules! face {
    ($name:ident: $format:ident, $begin:ident, $step:ident, $withdraw:ident, $take_up:ident) => {
        mod $name {
            use super::{BeadReply, Party, Root};

            extern "C" {
                pub fn $format(
                    root: *mut Root,
                    parties: *mut Party,
                    np: usize,
                    locks: *mut u32,
                    nl: usize,
                    pages: *mut u32,
                    ng: usize,
                    row: *mut u32,
                    nr: usize,
                    n: u32,
                    b: u32,
                    p: u32,
                    v: u32,
                    q: u32,
                ) -> u32;
                pub fn $begin(
                    root: *mut Root,
                    parties: *mut Party,
                    np: usize,
                    locks: *mut u32,
                    nl: usize,
                    pages: *mut u32,
                    ng: usize,
                    row: *mut u32,
                    nr: usize,
                    party: u32,
                    operation: u32,
                    key: u32,
                    setting: u32,
                ) -> u32;
                pub fn $step(
                    root: *mut Root,
                    parties: *mut Party,
                    np: usize,
                    locks: *mut u32,
                    nl: usize,
                    pages: *mut u32,
                    ng: usize,
                    row: *mut u32,
                    nr: usize,
                    party: u32,
                ) -> BeadReply;
                pub fn $withdraw(
                    root: *mut Root,
                    parties: *mut Party,
                    np: usize,
                    locks: *mut u32,
                    nl: usize,
                    pages: *mut u32,
                    ng: usize,
                    row: *mut u32,
                    nr: usize,
                    party: u32,
                ) -> u32;
                pub fn $take_up(
                    root: *const Root,
                    parties: *const Party,
                    np: usize,
                    locks: *const u32,
                    nl: usize,
                    pages: *const u32,
                    ng: usize,
                    row: *const u32,
                    nr: usize,
                ) -> u32;
            }
        }
    };
}

face!(linked: bead_format, bead_begin, bead_step, bead_withdraw, bead_take_up);
face!(c_port: c_port_format, c_port_begin, c_port_step, c_port_withdraw, c_port_take_up);

/// The five calls of a C face.
pub struct Library {
    format: Format,
    begin: Begin,
    step: Step,
    withdraw: Withdraw,
    take_up: TakeUp,
}

impl Library {
    /// The library that is linked with this program.
    pub fn linked() -> Library {
        Library {
            format: linked::bead_format,
            begin: linked::bead_begin,
            step: linked::bead_step,
            withdraw: linked::bead_withdraw,
            take_up: linked::bead_take_up,
        }
    }

    /// The C port of the benchmark (bench/port.c).
    pub fn c_port() -> Library {
        Library {
            format: c_port::c_port_format,
            begin: c_port::c_port_begin,
            step: c_port::c_port_step,
            withdraw: c_port::c_port_withdraw,
            take_up: c_port::c_port_take_up,
        }
    }

    /// The port's own C face.
    #[cfg(test)]
    pub fn of_port() -> Library {
        use bead_port::c_face::{bead_begin, bead_format, bead_step, bead_take_up, bead_withdraw};
        Library {
            format: bead_format,
            begin: bead_begin,
            step: bead_step,
            withdraw: bead_withdraw,
            take_up: bead_take_up,
        }
    }
}

impl Callee for Library {
    fn call(&mut self, image: &mut Image, call: Call) -> Reply {
        let (np, nl, ng) = (image.party_count(), image.locks.len(), image.pages.len());
        let root = image.root.as_mut_ptr().cast::<Root>();
        let parties = image.parties.as_mut_ptr().cast::<Party>();
        let (locks, pages) = (image.locks.as_mut_ptr(), image.pages.as_mut_ptr());
        let (row, nr) = (image.row.as_mut_ptr(), image.row.len());
        // SAFETY: each pointer is valid for the length handed over beside it.
        unsafe {
            match call {
                Call::Format([n, b, p, v, q]) => code_reply((self.format)(
                    root, parties, np, locks, nl, pages, ng, row, nr, n, b, p, v, q,
                )),
                Call::Begin(party, operation, key, setting) => code_reply((self.begin)(
                    root, parties, np, locks, nl, pages, ng, row, nr, party, operation, key,
                    setting,
                )),
                Call::Step(party) => step_reply((self.step)(
                    root, parties, np, locks, nl, pages, ng, row, nr, party,
                )),
                Call::Withdraw(party) => code_reply((self.withdraw)(
                    root, parties, np, locks, nl, pages, ng, row, nr, party,
                )),
                Call::TakeUp => code_reply((self.take_up)(
                    root, parties, np, locks, nl, pages, ng, row, nr,
                )),
            }
        }
    }
}
