//! Reads the forms of a script. Lines that cannot be read are known by their reply.

use sequential::{Operation, Sizes};

pub enum Form {
    Format(Sizes),
    Begin(u32, Operation),
    Step(u32),
    Withdraw(u32),
    TakeUp,
}

/// The form on a line that has one.
pub fn read_form(line: &str) -> Option<Form> {
    let words: Vec<&str> = line
        .split(|c| "() ".contains(c))
        .filter(|word| !word.is_empty())
        .collect();
    match words[..] {
        ["format", n, b, p, v, q] => Some(Form::Format(Sizes {
            originals: n.parse().ok()?,
            records_a_page: b.parse().ok()?,
            most_chains: p.parse().ok()?,
            overflow_pages: v.parse().ok()?,
            parties: q.parse().ok()?,
        })),
        ["begin", party, ref operation @ ..] => {
            Some(Form::Begin(party.parse().ok()?, read_operation(operation)?))
        }
        ["step", party] => Some(Form::Step(party.parse().ok()?)),
        ["withdraw", party] => Some(Form::Withdraw(party.parse().ok()?)),
        ["take-up"] => Some(Form::TakeUp),
        _ => None,
    }
}

fn read_operation(words: &[&str]) -> Option<Operation> {
    match words {
        ["find", key] => Some(Operation::Find(key.parse().ok()?)),
        ["insert", key, setting] => {
            Some(Operation::Insert(key.parse().ok()?, setting.parse().ok()?))
        }
        ["delete", key] => Some(Operation::Delete(key.parse().ok()?)),
        _ => None,
    }
}
