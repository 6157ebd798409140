//! What the command line asks for.

use std::ffi::OsString;
use std::path::PathBuf;

/// How the command is called.
pub const USAGE: &str = include_str!("../usage.txt");

/// What is wanted.
#[derive(Debug, PartialEq, Eq)]
pub enum Wanted {
    /// How the command is called.
    Help,
    /// The page of a script.
    Page(PathBuf),
    /// One line of a script, counted from 1, as text.
    Line(usize, PathBuf),
}

/// The command line, read.
#[derive(Debug, PartialEq, Eq)]
pub struct Options {
    pub wanted: Wanted,
}

impl Options {
    /// Reads the arguments, or says what is wrong with them.
    pub fn read(arguments: impl Iterator<Item = OsString>) -> Result<Options, String> {
        let (mut line, mut scripts) = (None, Vec::new());
        let mut arguments = arguments;
        while let Some(argument) = arguments.next() {
            match argument.to_str() {
                Some("--help" | "-h") => {
                    return Ok(Options {
                        wanted: Wanted::Help,
                    })
                }
                Some("--line") => line = Some(line_number(arguments.next())?),
                Some(option) if option.starts_with("--") => {
                    return Err(wrong(&format!("there is no option {option}")))
                }
                _ => scripts.push(PathBuf::from(argument)),
            }
        }
        let script = match (scripts.pop(), scripts.is_empty()) {
            (Some(script), true) => script,
            (None, _) => return Err(wrong("which script? None is named")),
            _ => return Err(wrong("one script at a time")),
        };
        Ok(Options {
            wanted: match line {
                Some(number) => Wanted::Line(number, script),
                None => Wanted::Page(script),
            },
        })
    }
}

/// The number after `--line`.
fn line_number(argument: Option<OsString>) -> Result<usize, String> {
    let text = argument.unwrap_or_default();
    let number = text.to_str().and_then(|text| text.parse().ok());
    number
        .filter(|&number| number > 0)
        .ok_or_else(|| wrong("--line needs the number of a line, 1 for the first"))
}

fn wrong(what: &str) -> String {
    format!("{what}\n\n{}", USAGE.trim_end())
}

#[cfg(test)]
mod tests {
    use super::*;

    fn read(arguments: &[&str]) -> Result<Options, String> {
        Options::read(arguments.iter().map(OsString::from))
    }

    #[test]
    fn right_calls() {
        let wanted = |arguments: &[&str]| read(arguments).unwrap().wanted;
        assert_eq!(wanted(&["a.in"]), Wanted::Page("a.in".into()));
        let line = Wanted::Line(7, "a.in".into());
        assert_eq!(wanted(&["--line", "7", "a.in"]), line);
        assert_eq!(wanted(&["a.in", "--line", "7"]), line);
        assert_eq!(wanted(&["a.in", "--help"]), Wanted::Help);
    }

    #[test]
    fn wrong_calls() {
        for (arguments, said) in [
            (&[][..], "None is named"),
            (&["a", "b"][..], "one script"),
            (&["--lines", "a"][..], "no option --lines"),
            (&["a", "--line"][..], "needs the number"),
            (&["--line", "0", "a"][..], "needs the number"),
        ] {
            assert!(read(arguments).unwrap_err().contains(said), "{arguments:?}");
        }
    }
}
