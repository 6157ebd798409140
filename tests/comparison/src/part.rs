//! What the three parts of the comparison share: sessions from a seed, a count of what was met, and the line that each prints.

use crate::options::Options;
use crate::random::Random;

/// What was found to differ, in words.
pub type Outcome<T> = Result<T, String>;

/// A thing that must be met, and how often it was.
pub type Row = (String, u64);

/// A part of the comparison.
pub trait Part {
    fn name(&self) -> &'static str;

    /// One session; what it does follows from its number and the random numbers.
    fn session(&mut self, number: u64, random: &mut Random) -> Outcome<()>;

    /// The calls compared so far.
    fn calls(&self) -> u64;

    /// Everything that must have been met.
    fn rows(&self) -> Vec<Row>;

    /// What the line says after seed and calls.
    fn told(&self) -> String;
}

/// Runs sessions until enough calls were compared, or the one session asked for; then prints the line.
pub fn run(part: &mut dyn Part, options: &Options) -> Outcome<()> {
    if let Some(number) = options.session {
        return session(part, options.seed, number);
    }
    let mut sessions = 0;
    while part.calls() < options.calls {
        session(part, options.seed, sessions)?;
        sessions += 1;
    }
    println!(
        "{}: seed {}, {} calls in {sessions} sessions; {}",
        part.name(),
        options.seed,
        part.calls(),
        part.told()
    );
    judge(part, options.table)
}

fn session(part: &mut dyn Part, seed: u64, number: u64) -> Outcome<()> {
    let before = part.calls();
    let mut random = Random::new(
        seed.wrapping_mul(0x5851_f42d_4c95_7f2d)
            .wrapping_add(number),
    );
    part.session(number, &mut random).map_err(|difference| {
        format!(
            "{}: seed {seed}, session {number}, its call {}: {difference}\n  again: --part {} --seed {seed} --session {number}",
            part.name(),
            part.calls() - before,
            part.name()
        )
    })
}

/// Something never met is a failure.
fn judge(part: &dyn Part, table: bool) -> Outcome<()> {
    let rows = part.rows();
    if table {
        rows.iter()
            .for_each(|(what, count)| println!("{count:10}  {what}"));
    }
    let missing: Vec<&str> = rows
        .iter()
        .filter(|(_, count)| *count == 0)
        .map(|(what, _)| what.as_str())
        .collect();
    if missing.is_empty() {
        return Ok(());
    }
    Err(format!(
        "{}: never met: {}",
        part.name(),
        missing.join("; ")
    ))
}

/// Counts of things named beforehand.
pub struct Tally {
    rows: Vec<Row>,
}

impl Tally {
    pub fn new(names: impl IntoIterator<Item = String>) -> Tally {
        Tally {
            rows: names.into_iter().map(|name| (name, 0)).collect(),
        }
    }

    /// Counts a thing once; one that was not named is no row and not counted.
    pub fn add(&mut self, name: &str) {
        if let Some((_, count)) = self.rows.iter_mut().find(|(known, _)| known == name) {
            *count += 1;
        }
    }

    pub fn rows(&self) -> Vec<Row> {
        self.rows.clone()
    }

    /// All rows in one line.
    pub fn told(&self) -> String {
        let rows: Vec<String> = self
            .rows
            .iter()
            .map(|(name, count)| format!("{name} {count}"))
            .collect();
        rows.join(", ")
    }
}
