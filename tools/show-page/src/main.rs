//! Shows a `turns` script line by line: as a page for the browser, or one line of it as text.

#![forbid(unsafe_code)]

mod cells;
mod changes;
mod forms;
mod json;
mod memory;
mod options;
mod page;
mod run;
mod script;
mod step_words;
mod text;
mod view;

use options::{Options, Wanted};
use std::io::{self, Write};
use std::process::ExitCode;

fn main() -> ExitCode {
    let options = match Options::read(std::env::args_os().skip(1)) {
        Ok(options) => options,
        Err(message) => return fail(2, &message),
    };
    let shown = match options.wanted {
        Wanted::Help => Ok(options::USAGE.to_string()),
        Wanted::Page(script) => script::open(&script).map(|script| page::of(&script)),
        Wanted::Line(number, script) => {
            script::open(&script).and_then(|script| text::of(&script, number))
        }
    };
    match shown {
        Ok(shown) => print(&shown),
        Err(message) => fail(1, &message),
    }
}

/// Prints all of it; a reader that has seen enough is no failure.
fn print(shown: &str) -> ExitCode {
    match io::stdout().lock().write_all(shown.as_bytes()) {
        Err(error) if error.kind() != io::ErrorKind::BrokenPipe => fail(1, &error.to_string()),
        _ => ExitCode::SUCCESS,
    }
}

fn fail(code: u8, message: &str) -> ExitCode {
    eprintln!("show: {message}");
    ExitCode::from(code)
}
