//! Every call on the library, on the C port and on the plain port, on equal memory that may be sound, altered or crafted: the reply and every word are compared.

mod alter;
mod comparison;
mod coverage;
mod crafted;
mod forced;
mod refused;
mod situations;
mod sound;
mod take_ups;

use crate::callee::Callee;
use crate::part::{Outcome, Part, Row};
use crate::random::Random;
use comparison::Comparison;

/// One session in so many is a long one on a large file.
const LARGE_EVERY: u64 = 2500;

pub struct Words {
    comparison: Comparison,
}

impl Words {
    pub fn new(library: Box<dyn Callee>, c_port: Box<dyn Callee>) -> Words {
        let sides = vec![("library", library), ("C port", c_port)];
        Words {
            comparison: Comparison::new(sides),
        }
    }
}

impl Part for Words {
    fn name(&self) -> &'static str {
        "words"
    }

    /// The sessions by turns: sound memory, altered memory, saved files, crafted memory, wrong sizes and lengths.
    fn session(&mut self, number: u64, random: &mut Random) -> Outcome<()> {
        let comparison = &mut self.comparison;
        if number % LARGE_EVERY == LARGE_EVERY - 1 {
            return sound::large_session(comparison, number / LARGE_EVERY, random);
        }
        match number % 40 {
            0 => sound::session(comparison, random, 0),
            1 => sound::session(comparison, random, 4),
            2 => take_ups::session(comparison, random),
            3..=24 => crafted::session(comparison, random),
            _ => refused::session(comparison, random),
        }
    }

    fn calls(&self) -> u64 {
        self.comparison.calls
    }

    fn rows(&self) -> Vec<Row> {
        self.comparison.coverage.rows()
    }

    fn told(&self) -> String {
        let rows = self.rows();
        let rarest = rows.iter().min_by_key(|(_, count)| *count);
        let rarest = rarest.map_or(String::new(), |(what, count)| format!("{what} ({count})"));
        format!(
            "library and C port as the port, {}; {} things met, the rarest {rarest}",
            self.comparison.coverage.told(),
            rows.len()
        )
    }
}
