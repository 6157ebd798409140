//! The forms that turns reads, and as they are printed.

use bead_port::memory::{DELETE, FIND, INSERT};
use std::fmt;

#[derive(Clone, Copy)]
pub enum Form {
    Format([u32; 5]),
    /// Party, operation, key, and a setting, which an insert alone has.
    Begin(u32, u32, u32, u32),
    Step(u32),
    Withdraw(u32),
    TakeUp,
}

impl fmt::Display for Form {
    fn fmt(&self, out: &mut fmt::Formatter<'_>) -> fmt::Result {
        match *self {
            Form::Format([n, b, p, v, q]) => write!(out, "(format {n} {b} {p} {v} {q})"),
            Form::Begin(party, INSERT, key, setting) => {
                write!(out, "(begin {party} (insert {key} {setting}))")
            }
            Form::Begin(party, operation, key, _) => {
                let name = if operation == FIND { "find" } else { "delete" };
                write!(out, "(begin {party} ({name} {key}))")
            }
            Form::Step(party) => write!(out, "(step {party})"),
            Form::Withdraw(party) => write!(out, "(withdraw {party})"),
            Form::TakeUp => out.write_str(TAKE_UP),
        }
    }
}

/// The one form without a number.
const TAKE_UP: &str = "(take-up)";

/// Reads one line without its newline: one of the seven forms, single spaces, nothing before or after.
pub fn read(line: &str) -> Option<Form> {
    if line == TAKE_UP {
        return Some(Form::TakeUp);
    }
    let (name, rest) = line.strip_prefix('(')?.strip_suffix(')')?.split_once(' ')?;
    match name {
        "step" => Some(Form::Step(number(rest)?)),
        "withdraw" => Some(Form::Withdraw(number(rest)?)),
        "begin" => {
            let (party, operation) = rest.split_once(" (")?;
            let (name, words) = operation.strip_suffix(')')?.split_once(' ')?;
            let (operation, key, setting) = match name {
                "find" => (FIND, words, "0"),
                "insert" => {
                    let (key, setting) = words.split_once(' ')?;
                    (INSERT, key, setting)
                }
                "delete" => (DELETE, words, "0"),
                _ => return None,
            };
            let (party, key, setting) = (number(party)?, number(key)?, number(setting)?);
            Some(Form::Begin(party, operation, key, setting))
        }
        "format" => {
            let mut sizes = [0; 5];
            let mut words = rest.split(' ');
            for size in &mut sizes {
                *size = number(words.next()?)?;
            }
            words.next().is_none().then(|| Form::Format(sizes))
        }
        _ => None,
    }
}

/// "A number is one to ten digits, leading zeros read", up to 4294967295.
fn number(text: &str) -> Option<u32> {
    let digits = text.len() <= 10 && text.bytes().all(|byte| byte.is_ascii_digit());
    if digits {
        text.parse().ok()
    } else {
        None
    }
}
