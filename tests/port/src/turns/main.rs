//! turns over the plain port, in ordinary Rust: the measure of the proved program's speed, and where stored replies come from.
//!
//! With no argument it is turns. `--script LINES SEED N b P V Q KEYS [WITHDRAWS [TAKE-UPS]]` prints a script of forms
//! made at random, in which of WITHDRAWS turns of a party under way one is a withdraw, and of TAKE-UPS lines one is a
//! take-up. `--met SCRIPT..` prints how often scripts meet each wait, answer, restructuring, withdraw, take-up and
//! refusal.
#![deny(unsafe_code)]

mod file;
mod forms;
mod met;
mod script;

use file::File;
use std::io::{self, BufRead, BufReader, BufWriter, Write};

fn main() -> io::Result<()> {
    let words: Vec<String> = std::env::args().skip(1).collect();
    let input = BufReader::with_capacity(1 << 16, io::stdin().lock());
    let mut output = BufWriter::with_capacity(1 << 16, io::stdout().lock());
    match words.first().map(String::as_str) {
        None => answer(input, &mut output)?,
        Some("--met") => met::print(&words[1..], &mut output)?,
        Some("--script") => {
            let numbers: Vec<u32> = words[1..].iter().flat_map(|word| word.parse()).collect();
            match script::Plan::read(&numbers) {
                Some(plan) => script::print(&plan, &mut output)?,
                None => return usage(),
            }
        }
        _ => return usage(),
    }
    output.flush()
}

fn usage() -> io::Result<()> {
    let text =
        "plain-turns [--met SCRIPT.. | --script LINES SEED N b P V Q KEYS [WITHDRAWS [TAKE-UPS]]]";
    Err(io::Error::new(io::ErrorKind::InvalidInput, text))
}

/// Answers every line.
fn answer(mut input: impl BufRead, output: &mut impl Write) -> io::Result<()> {
    let mut file = File::default();
    let mut line = Vec::new();
    while input.read_until(b'\n', &mut line)? > 0 {
        if line.last() == Some(&b'\n') {
            line.pop();
        }
        match std::str::from_utf8(&line).ok().and_then(forms::read) {
            Some(form) => file.answer(form, output)?,
            None => output.write_all(b"(unread)\n")?,
        }
        line.clear();
    }
    Ok(())
}
