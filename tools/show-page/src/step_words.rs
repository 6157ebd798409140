//! What each step does, in the words of docs/STEPS.md.

/// The table of the steps: a row `| NUMBER | WORDS | …` each.
const STEPS: &str = include_str!("../../../docs/STEPS.md");

/// The words of every step, by its number.
pub struct StepWords {
    words: Vec<&'static str>,
}

impl StepWords {
    pub fn read() -> Self {
        let mut words = vec![""];
        for line in STEPS.lines() {
            let mut fields = line.split(" | ");
            if fields.next() == Some(&format!("| {}", words.len())) {
                words.extend(fields.next());
            }
        }
        StepWords { words }
    }

    /// What the step of a number does.
    pub fn of(&self, step: u32) -> &'static str {
        self.words.get(step as usize).copied().unwrap_or("")
    }
}

#[cfg(test)]
mod tests {
    use super::*;

    #[test]
    fn every_step_has_words() {
        let steps = StepWords::read();
        assert!((1..=30).all(|step| !steps.of(step).is_empty()));
        assert_eq!(steps.of(1), "request read on root");
        assert_eq!(steps.of(30), "give up all, done");
        assert_eq!((steps.of(0), steps.of(99)), ("", ""));
    }
}
