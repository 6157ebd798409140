//! The forms of `turns`: a line read, and the reply printed.

use bead_index::{Answer, Operation, Outcome, Refusal, Sizes};
use std::fmt;

/// A form that is read.
#[derive(Clone, Copy, Debug, PartialEq, Eq)]
pub enum Form {
    Format(Sizes),
    Begin(u32, Operation),
    Step(u32),
    Withdraw(u32),
    TakeUp,
}

/// Reads one line without its newline. Single spaces, nothing before or after.
pub fn read(line: &[u8]) -> Option<Form> {
    if line == b"(take-up)" {
        return Some(Form::TakeUp);
    }
    let (name, rest) = inside(std::str::from_utf8(line).ok()?)?;
    match name {
        "format" => sizes(rest).map(Form::Format),
        "begin" => {
            let (party, nested) = rest.split_once(' ')?;
            Some(Form::Begin(number(party)?, operation(nested)?))
        }
        "step" => number(rest).map(Form::Step),
        "withdraw" => number(rest).map(Form::Withdraw),
        _ => None,
    }
}

/// The name of a bracketed form, and what follows it.
fn inside(text: &str) -> Option<(&str, &str)> {
    text.strip_prefix('(')?.strip_suffix(')')?.split_once(' ')
}

/// Five numbers: N b P V Q.
fn sizes(text: &str) -> Option<Sizes> {
    match numbers(text)?[..] {
        [originals, records, chains, pages, parties] => Some(
            Sizes::new()
                .original_chains(originals)
                .records_a_page(records)
                .most_chains(chains)
                .overflow_pages(pages)
                .parties(parties),
        ),
        _ => None,
    }
}

/// An operation with its key, and an insert with its setting.
fn operation(text: &str) -> Option<Operation> {
    let (name, rest) = inside(text)?;
    match (name, &numbers(rest)?[..]) {
        ("find", &[key]) => Some(Operation::find(key)),
        ("insert", &[key, setting]) => Some(Operation::insert(key, setting)),
        ("delete", &[key]) => Some(Operation::delete(key)),
        _ => None,
    }
}

/// Numbers with single spaces between them.
fn numbers(text: &str) -> Option<Vec<u32>> {
    text.split(' ').map(number).collect()
}

/// One to ten digits, up to 4294967295; leading zeros are read.
fn number(text: &str) -> Option<u32> {
    let digits = (1..=10).contains(&text.len()) && text.bytes().all(|byte| byte.is_ascii_digit());
    digits.then(|| text.parse().ok()).flatten()
}

/// The reply to a line.
#[derive(Clone, Copy, Debug)]
pub enum Reply {
    Unread,
    Format(Result<(), Refusal>),
    Begin(u32, Result<(), Refusal>),
    Step(u32, Result<Outcome, Refusal>),
    Withdraw(u32, Result<(), Refusal>),
    TakeUp(Result<(), Refusal>),
}

impl Reply {
    /// Why the call was refused, where it was.
    pub fn refusal(&self) -> Option<Refusal> {
        match *self {
            Reply::Unread => None,
            Reply::Format(result)
            | Reply::Begin(_, result)
            | Reply::Withdraw(_, result)
            | Reply::TakeUp(result) => result.err(),
            Reply::Step(_, result) => result.err(),
        }
    }

    /// One word for what the reply is.
    pub fn kind(&self) -> &'static str {
        match self {
            Reply::Unread => "unread",
            _ if self.refusal().is_some() => "refused",
            Reply::Format(_) => "formatted",
            Reply::Begin(..) => "begun",
            Reply::Withdraw(..) => "withdrawn",
            Reply::TakeUp(_) => "taken",
            Reply::Step(_, Ok(Outcome::Waiting)) => "waiting",
            Reply::Step(_, Ok(Outcome::Done { .. })) => "done",
            Reply::Step(..) => "moved",
        }
    }
}

impl fmt::Display for Reply {
    fn fmt(&self, out: &mut fmt::Formatter<'_>) -> fmt::Result {
        let refused = |refusal: Refusal| format!("(refused {})", refusal.number());
        let ok = |result: Result<(), Refusal>| result.map_or_else(refused, |()| "ok".to_string());
        match *self {
            Reply::Unread => out.write_str("(unread)"),
            Reply::Format(result) => write!(out, "(format {})", ok(result)),
            Reply::Begin(party, result) => write!(out, "(begin {party} {})", ok(result)),
            Reply::Withdraw(party, result) => write!(out, "(withdraw {party} {})", ok(result)),
            Reply::TakeUp(result) => write!(out, "(take-up {})", ok(result)),
            Reply::Step(party, result) => {
                write!(
                    out,
                    "(step {party} {})",
                    result.map_or_else(refused, outcome)
                )
            }
        }
    }
}

/// An outcome as `turns` prints it: found with its setting, two words joined by a hyphen.
fn outcome(outcome: Outcome) -> String {
    let hyphened = |words: String| words.replace(' ', "-");
    match outcome {
        Outcome::Done {
            answer,
            restructuring,
            ..
        } => {
            let answer = match answer {
                Answer::Found { setting } => format!("(found {setting})"),
                other => hyphened(other.to_string()),
            };
            format!("(done {answer} {})", hyphened(restructuring.to_string()))
        }
        other => other.to_string(),
    }
}

#[cfg(test)]
mod tests {
    use super::*;

    #[test]
    fn forms_are_read() {
        let sizes = Sizes::new()
            .records_a_page(1)
            .most_chains(2)
            .overflow_pages(0)
            .parties(1);
        assert_eq!(read(b"(format 1 1 2 0 1)"), Some(Form::Format(sizes)));
        assert_eq!(
            read(b"(begin 3 (delete 4294967295))"),
            Some(Form::Begin(3, Operation::delete(u32::MAX)))
        );
        assert_eq!(
            read(b"(begin 0 (insert 7 5))"),
            Some(Form::Begin(0, Operation::insert(7, 5)))
        );
        assert_eq!(read(b"(step 007)"), Some(Form::Step(7)));
        assert_eq!(read(b"(withdraw 3)"), Some(Form::Withdraw(3)));
        assert_eq!(read(b"(take-up)"), Some(Form::TakeUp));
    }

    #[test]
    fn other_lines_are_not() {
        for line in [
            "",
            "(step)",
            "(step 0) ",
            " (step 0)",
            "(step  0)",
            "(Step 0)",
            "(step +1)",
            "(step 0)\r",
            "step 0",
            "(format 1 1 2 0)",
            "(format 1 1 2 0 1 1)",
            "(step 4294967296)",
            "(step 00000000001)",
            "(begin 0 find 7)",
            "(begin 0 (look 7))",
            "(begin 0 (find 7)) ",
            "(begin 0 (insert 7))",
            "(begin 0 (insert 7 5 5))",
            "(begin 0 (insert 7  5))",
            "(begin 0 (find 7 5))",
            "(begin 0 (delete 7 5))",
            "(withdraw)",
            "(withdraw 0 7)",
            "(withdraw (0))",
            "(take-up 0)",
            "(take-up )",
            "(take up)",
        ] {
            assert_eq!(read(line.as_bytes()), None, "{line}");
        }
        assert_eq!(read(b"(step \xff)"), None);
    }
}
