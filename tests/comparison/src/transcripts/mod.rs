//! Replays stored transcripts (NAME.in and NAME.out) and single calls (NAME.jsonl).

pub mod forms;
mod json;

use crate::callee::{Call, Callee};
use crate::image::{Image, Part};
use bead_port::memory::Root;
use json::Value;
use std::fs;
use std::path::{Path, PathBuf};

/// How many agreed.
#[derive(Debug, Default, PartialEq, Eq)]
pub struct Agreed {
    pub transcripts: usize,
    pub lines: usize,
    pub calls: usize,
}

/// Replays all of a folder; the first difference is an error.
pub fn replay(folder: &Path, callee: &mut dyn Callee) -> Result<Agreed, String> {
    let mut agreed = Agreed::default();
    for script in files(folder, "in")? {
        agreed.lines += replay_transcript(&script, callee)?;
        agreed.transcripts += 1;
    }
    for calls in files(folder, "jsonl")? {
        agreed.calls += replay_single_calls(&calls, callee)?;
    }
    Ok(agreed)
}

/// The files of a folder with an ending, in the order of their names.
fn files(folder: &Path, ending: &str) -> Result<Vec<PathBuf>, String> {
    let entries = fs::read_dir(folder).map_err(|error| format!("{}: {error}", folder.display()))?;
    let mut found: Vec<PathBuf> = entries.flatten().map(|entry| entry.path()).collect();
    found.retain(|path| path.extension() == Some(ending.as_ref()));
    found.sort();
    Ok(found)
}

fn load(path: &Path) -> Result<Vec<u8>, String> {
    fs::read(path).map_err(|error| format!("{}: {error}", path.display()))
}

/// Runs one script as turns does and compares what it prints byte for byte; answers the number of lines.
fn replay_transcript(script: &Path, callee: &mut dyn Callee) -> Result<usize, String> {
    let (given, expected) = (load(script)?, load(&script.with_extension("out"))?);
    let mut turns = Turns {
        image: Image::zero(0, 0, 0, 0),
        callee,
    };
    let lines: Vec<String> = given
        .split_inclusive(|byte| *byte == b'\n')
        .map(|line| turns.answer(line))
        .collect();
    let printed: String = lines.iter().map(|line| format!("{line}\n")).collect();
    if printed.as_bytes() == expected {
        return Ok(lines.len());
    }
    let wanted = String::from_utf8_lossy(&expected);
    let place = printed
        .lines()
        .zip(wanted.lines())
        .position(|(ours, theirs)| ours != theirs);
    Err(format!(
        "{}: differs at line {}",
        script.display(),
        place.map_or(0, |place| place + 1)
    ))
}

/// The turns program: memory that starts zero, and whatever answers the calls.
struct Turns<'a> {
    image: Image,
    callee: &'a mut dyn Callee,
}

impl Turns<'_> {
    fn answer(&mut self, line: &[u8]) -> String {
        let line = line.strip_suffix(b"\n").unwrap_or(line);
        match std::str::from_utf8(line).ok().and_then(forms::read) {
            Some(call) => self.perform(call),
            None => "(unread)".to_string(),
        }
    }

    /// A format of allowed sizes is lent fresh memory of the lengths they ask for.
    fn perform(&mut self, call: Call) -> String {
        if let Call::Format(sizes @ [n, b, p, v, q]) = call {
            if Root::from_words([n, b, p, v, q, 0, 0, 0, 0]).sizes_allowed() {
                self.image = Image::for_sizes(sizes);
            }
        }
        forms::answer(call, self.callee.call(&mut self.image, call))
    }
}

/// Replays every call of a file; answers their number.
fn replay_single_calls(path: &Path, callee: &mut dyn Callee) -> Result<usize, String> {
    let text = String::from_utf8(load(path)?).map_err(|error| error.to_string())?;
    for (number, line) in text.lines().enumerate() {
        let place = || format!("{}: line {}", path.display(), number + 1);
        let value = json::read(line).ok_or_else(|| format!("{}: not read", place()))?;
        replay_single_call(&value, callee).map_err(|error| format!("{}: {error}", place()))?;
    }
    Ok(text.lines().count())
}

fn replay_single_call(value: &Value, callee: &mut dyn Callee) -> Result<(), String> {
    let field = |name: &str| value.field(name).ok_or_else(|| format!("no {name}"));
    let mut image = image_of(field("before")?)?;
    let after = match field("after")? {
        Value::Null => image.clone(),
        after => image_of(after)?,
    };
    let call = field("call")?
        .text()
        .and_then(forms::read)
        .ok_or("no call")?;
    let answer = forms::answer(call, callee.call(&mut image, call));
    let expected = field("reply")?.text().ok_or("no reply")?;
    if answer != expected {
        return Err(format!("{answer} instead of {expected}"));
    }
    if image != after {
        return Err("other words afterwards".to_string());
    }
    Ok(())
}

fn image_of(value: &Value) -> Result<Image, String> {
    let part = |name: &str| {
        value
            .field(name)
            .map(|words| Part::new(&words.words()))
            .ok_or(format!("no {name}"))
    };
    Ok(Image {
        root: part("root")?,
        parties: part("parties")?,
        locks: part("locks")?,
        pages: part("pages")?,
        row: part("row")?,
    })
}

#[cfg(test)]
mod tests {
    use super::*;
    use crate::callee::{Port, Reply};
    use crate::library::Library;

    fn stored() -> PathBuf {
        Path::new(env!("CARGO_MANIFEST_DIR")).join("../transcripts")
    }

    #[test]
    fn the_port_agrees_with_the_stored_transcripts() {
        let agreed = replay(&stored(), &mut Port::default()).unwrap();
        assert!(agreed.transcripts > 0 && agreed.lines > 0 && agreed.calls > 0);
    }

    #[test]
    fn its_c_face_agrees_with_them() {
        let agreed = replay(&stored(), &mut Library::of_port()).unwrap();
        assert!(agreed.transcripts > 0 && agreed.lines > 0 && agreed.calls > 0);
    }

    /// The port with one word of its pages wrong after each call.
    struct WrongPages(Port);

    impl Callee for WrongPages {
        fn call(&mut self, image: &mut Image, call: Call) -> Reply {
            let reply = self.0.call(image, call);
            image.pages.iter_mut().take(2).for_each(|word| *word ^= 1);
            reply
        }
    }

    #[test]
    fn a_wrong_word_is_caught() {
        let mut wrong = WrongPages(Port::default());
        let [scripts, calls] = ["in", "jsonl"].map(|ending| files(&stored(), ending).unwrap());
        assert!(scripts
            .iter()
            .any(|script| replay_transcript(script, &mut wrong).is_err()));
        assert!(calls
            .iter()
            .all(|calls| replay_single_calls(calls, &mut wrong).is_err()));
    }
}
