//! A script: its name and its lines, as bytes.

use std::fs;
use std::path::Path;

/// A script for `turns`.
pub struct Script {
    /// The name of its file.
    pub name: String,
    bytes: Vec<u8>,
}

/// Reads a script from a file.
pub fn open(path: &Path) -> Result<Script, String> {
    let bytes =
        fs::read(path).map_err(|error| format!("cannot read {}: {error}", path.display()))?;
    let name = path.file_name().unwrap_or(path.as_os_str());
    Ok(Script {
        name: legible(&name.to_string_lossy()),
        bytes,
    })
}

impl Script {
    /// The lines without their newlines. A last line without a newline is a line.
    pub fn lines(&self) -> impl Iterator<Item = &[u8]> {
        let whole = self.bytes.strip_suffix(b"\n").unwrap_or(&self.bytes);
        let count = if self.bytes.is_empty() { 0 } else { usize::MAX };
        whole.split(|&byte| byte == b'\n').take(count)
    }
}

/// The most characters of a line that are shown.
const MOST_SHOWN: usize = 200;

/// A line as it is shown: what cannot be printed is escaped, and a long line is cut.
pub fn shown(line: &[u8]) -> String {
    let text = String::from_utf8_lossy(&line[..line.len().min(4 * MOST_SHOWN)]);
    let mut shown: String = text.chars().take(MOST_SHOWN).collect();
    if line.len() > shown.len() {
        shown.push('…');
    }
    legible(&shown)
}

fn legible(text: &str) -> String {
    text.chars()
        .flat_map(|sign| {
            let escaped = sign.is_control().then(|| sign.escape_default().to_string());
            escaped
                .unwrap_or_else(|| sign.to_string())
                .chars()
                .collect::<Vec<_>>()
        })
        .collect()
}

#[cfg(test)]
mod tests {
    use super::*;

    fn lines(text: &str) -> Vec<String> {
        let script = Script {
            name: String::new(),
            bytes: text.as_bytes().to_vec(),
        };
        script.lines().map(shown).collect()
    }

    #[test]
    fn lines_of_a_script() {
        assert_eq!(lines("").len(), 0);
        assert_eq!(lines("\n"), [""]);
        assert_eq!(lines("a\nb"), ["a", "b"]);
        assert_eq!(lines("a\n\nb\n"), ["a", "", "b"]);
    }

    #[test]
    fn a_line_is_made_legible() {
        assert_eq!(shown(b"(step 0)\r"), "(step 0)\\r");
        assert_eq!(shown(b"\x1b[2J\xff"), "\\u{1b}[2J\u{fffd}");
        assert_eq!(shown(&[b'a'; 300]).chars().count(), MOST_SHOWN + 1);
    }
}
