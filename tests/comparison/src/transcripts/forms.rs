//! The bracketed forms of the turns program: reading a line, and printing the answer to a call.

use crate::callee::{Call, Reply};
use bead_port::memory::INSERT;
use bead_port::reply::FOUND;

const OPERATIONS: [&str; 3] = ["find", "insert", "delete"];
const ANSWERS: [&str; 7] = [
    "", "inserted", "present", "deleted", "absent", "no-page", "found",
];
const RESTRUCTURINGS: [&str; 5] = ["none", "split", "split-skipped", "merged", "merge-skipped"];

/// Reads one line without its newline: one of the seven forms, single spaces, nothing before or after.
pub fn read(line: &str) -> Option<Call> {
    let inside = line.strip_prefix('(')?.strip_suffix(')')?;
    if inside == "take-up" {
        return Some(Call::TakeUp);
    }
    let (name, rest) = inside.split_once(' ')?;
    match name {
        "format" => {
            let sizes: Option<Vec<u32>> = rest.split(' ').map(number).collect();
            Some(Call::Format(sizes?.try_into().ok()?))
        }
        "begin" => {
            let (party, operation) = rest.split_once(' ')?;
            let inside = operation.strip_prefix('(')?.strip_suffix(')')?;
            let (name, words) = inside.split_once(' ')?;
            let operation = OPERATIONS.iter().position(|known| *known == name)? as u32 + 1;
            let (key, setting) = if operation == INSERT {
                words.split_once(' ')?
            } else {
                (words, "0")
            };
            let party = number(party)?;
            Some(Call::Begin(
                party,
                operation,
                number(key)?,
                number(setting)?,
            ))
        }
        "step" => Some(Call::Step(number(rest)?)),
        "withdraw" => Some(Call::Withdraw(number(rest)?)),
        _ => None,
    }
}

/// "A number is one to ten digits, leading zeros read", up to 4294967295.
fn number(text: &str) -> Option<u32> {
    let digits = (1..=10).contains(&text.len()) && text.bytes().all(|byte| byte.is_ascii_digit());
    if digits {
        text.parse().ok()
    } else {
        None
    }
}

/// The line that answers a call.
pub fn answer(call: Call, reply: Reply) -> String {
    match call {
        Call::Format(_) => format!("(format {})", code(reply[0], "ok")),
        Call::Begin(party, ..) => format!("(begin {party} {})", code(reply[0], "ok")),
        Call::Step(party) => format!("(step {party} {})", code(reply[0], &outcome(reply))),
        Call::Withdraw(party) => format!("(withdraw {party} {})", code(reply[0], "ok")),
        Call::TakeUp => format!("(take-up {})", code(reply[0], "ok")),
    }
}

fn code(number: u32, otherwise: &str) -> String {
    if number == 0 {
        otherwise.to_string()
    } else {
        format!("(refused {number})")
    }
}

fn outcome(reply: Reply) -> String {
    match reply[1] {
        0 => "waiting".to_string(),
        1 => "moved".to_string(),
        2 => done(reply),
        _ => "?".to_string(),
    }
}

/// Found carries its setting; a setting beside another answer is wrong.
fn done(reply: Reply) -> String {
    let [answer, restructuring] = report(reply);
    match (reply[2], reply[4]) {
        (FOUND, setting) => format!("(done (found {setting}) {restructuring})"),
        (_, 0) => format!("(done {answer} {restructuring})"),
        (_, setting) => format!("(done {answer} {restructuring}), setting {setting}"),
    }
}

/// The names of the answer and of the restructuring that a done reply carries.
pub fn report([_, _, answer, restructuring, _]: Reply) -> [&'static str; 2] {
    let word =
        |words: &[&'static str], place: u32| words.get(place as usize).copied().unwrap_or("?");
    [word(&ANSWERS, answer), word(&RESTRUCTURINGS, restructuring)]
}

#[cfg(test)]
mod tests {
    use super::*;

    #[test]
    fn forms_are_read() {
        assert_eq!(
            read("(format 1 1 2 0 1)"),
            Some(Call::Format([1, 1, 2, 0, 1]))
        );
        assert_eq!(read("(begin 0 (find 7))"), Some(Call::Begin(0, 1, 7, 0)));
        assert_eq!(
            read("(begin 3 (delete 4294967295))"),
            Some(Call::Begin(3, 3, u32::MAX, 0))
        );
        assert_eq!(
            read("(begin 0 (insert 7 5))"),
            Some(Call::Begin(0, 2, 7, 5))
        );
        assert_eq!(read("(step 007)"), Some(Call::Step(7)));
        assert_eq!(read("(withdraw 3)"), Some(Call::Withdraw(3)));
        assert_eq!(read("(take-up)"), Some(Call::TakeUp));
    }

    #[test]
    fn settings_are_printed() {
        let printed = |reply| answer(Call::Step(1), reply);
        assert_eq!(
            printed([0, 2, FOUND, 0, 5]),
            "(step 1 (done (found 5) none))"
        );
        assert_eq!(printed([0, 2, 1, 1, 0]), "(step 1 (done inserted split))");
        assert_ne!(printed([0, 2, 1, 1, 5]), printed([0, 2, 1, 1, 0]));
    }

    #[test]
    fn other_lines_are_not() {
        let lines = [
            "",
            "(step)",
            "(step 0) ",
            " (step 0)",
            "(step  0)",
            "(Step 0)",
            "(step +1)",
            "(step 0)\r",
            "step 0",
            "(withdraw)",
            "(withdraw 0 7)",
            "(withdraw 0",
            "(take-up 0)",
            "(take-up )",
            "(take up)",
        ];
        assert!(lines.iter().all(|line| read(line).is_none()));
        let lines = [
            "(format 1 1 2 0)",
            "(format 1 1 2 0 1 1)",
            "(step 4294967296)",
            "(step 00000000001)",
            "(step 1)x",
        ];
        assert!(lines.iter().all(|line| read(line).is_none()));
        let lines = [
            "(begin 0 find 7)",
            "(begin 0 (find))",
            "(begin 0 (look 7))",
            "(begin (find 7))",
            "(begin 0 (find 7)) ",
            "(begin 0 (find 7 5))",
            "(begin 0 (insert 7))",
            "(begin 0 (insert 7 5 3))",
            "(begin 0 (delete 7 5))",
        ];
        assert!(lines.iter().all(|line| read(line).is_none()));
    }
}
