//! What scripts meet: each line is answered, and counted by its reply, by the step that waited or was withdrawn, and by how the root record's level moved.

use crate::file::File;
use crate::forms;
use bead_port::memory::{Party, FIND, INSERT};
use std::collections::BTreeMap;
use std::fs;
use std::io::{self, Write};

/// The steps that request a lock.
const REQUESTS: [u32; 9] = [1, 4, 7, 13, 15, 16, 23, 24, 25];
/// The step that writes the pages built into the file.
const WRITES: u32 = 11;

/// Reads scripts, each from zero memory, and prints a line for each thing that they meet, with its count.
pub fn print(scripts: &[String], out: &mut impl Write) -> io::Result<()> {
    let mut met: BTreeMap<String, u32> = BTreeMap::new();
    for step in REQUESTS {
        met.insert(format!("waits at {step:2}"), 0);
    }
    for thing in ["level raised", "level lowered", "unread"] {
        met.insert(thing.to_string(), 0);
    }
    for script in scripts {
        let mut file = File::default();
        for line in fs::read(script)?.split_inclusive(|byte| *byte == b'\n') {
            for thing in things(&mut file, line.strip_suffix(b"\n").unwrap_or(line))? {
                *met.entry(thing).or_insert(0) += 1;
            }
        }
    }
    for (thing, count) in met {
        writeln!(out, "{count:8} {thing}")?;
    }
    Ok(())
}

/// What one line meets.
fn things(file: &mut File, line: &[u8]) -> io::Result<Vec<String>> {
    let form = match std::str::from_utf8(line).ok().and_then(forms::read) {
        Some(form) => form,
        None => return Ok(vec!["unread".to_string()]),
    };
    let (record, level, free) = (file.record_of(form), file.level(), file.free_count());
    let step = record.step;
    let mut reply = Vec::new();
    file.answer(form, &mut reply)?;
    let reply = String::from_utf8_lossy(&reply);
    let words: Vec<&str> = reply
        .trim_matches(|c| "()\n".contains(c))
        .split(' ')
        .collect();
    let mut met = Vec::new();
    match words[..] {
        [_, _, "waiting"] => met.push(format!("waits at {step:2}")),
        [_, _, "(done", answer, .., made] => {
            met.push(format!("done {}", answer.trim_start_matches('(')));
            met.push(format!("done {made}"));
            met.push(format!("done at {step:2}"));
        }
        ["withdraw", _, "(refused", "7"] => {
            met.push("withdraw refused 7".to_string());
            met.push(format!("refused 7 at {step:2}"));
        }
        [_, .., "(refused", number] => met.push(format!("{} refused {number}", words[0])),
        ["take-up", "ok"] => met.push("take-up ok".to_string()),
        ["withdraw", _, "ok"] => met.extend(withdrawn(record, file.free_count() - free)),
        _ => {}
    }
    if words[0] == "step" && file.level() != level {
        let way = if level < file.level() {
            "raised"
        } else {
            "lowered"
        };
        met.push(format!("level {way}"));
    }
    Ok(met)
}

/// What a withdraw that was not refused meets: the operation and the step, and how many pages built went back.
fn withdrawn(record: Party, pages: u32) -> Vec<String> {
    let name = match record.operation {
        FIND => "find",
        INSERT => "insert",
        _ => "delete",
    };
    let mut met = vec![format!("{name} withdrawn at {:2}", record.step)];
    if record.step == WRITES {
        met.push(format!("pages built and given back: {pages}"));
    }
    met
}
