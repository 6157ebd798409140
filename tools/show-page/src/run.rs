//! A script run line by line: what each line is replied, what that means, and how the file then stands.

use crate::cells::View;
use crate::forms::{self, Form, Reply};
use crate::memory::Memory;
use crate::script::{self, Script};
use crate::step_words::StepWords;
use crate::view;
use bead_index::{Outcome, PartyRecord, Refusal};

/// A line and what came of it.
pub struct Turn {
    /// The line as it is shown.
    pub form: String,
    /// What `turns` prints.
    pub reply: String,
    /// One word for what the reply is.
    pub kind: &'static str,
    /// What it means.
    pub meaning: String,
    /// How the file stands after it.
    pub view: View,
}

/// The file before the first line.
pub fn start() -> View {
    Run::new().view()
}

/// The turns of a script, one a line.
pub fn turns(script: &Script) -> impl Iterator<Item = Turn> + '_ {
    let mut run = Run::new();
    script.lines().map(move |line| run.turn(line))
}

struct Run {
    memory: Memory,
    words: StepWords,
}

/// A party before a call: its record, whether it is among those who wait, the locks that it holds, and the new pages
/// behind its scratch page.
#[derive(Default)]
struct Party {
    record: PartyRecord,
    waits: bool,
    held: Vec<String>,
    built: Vec<String>,
}

impl Party {
    /// What its withdraw means: the locks given up, and the pages in the order in which they go back.
    fn withdrawn(&self, party: u32) -> String {
        let operation = view::operation(&self.record);
        let locks = match self.held[..] {
            [] => "It held no lock".to_string(),
            _ => format!("It gives up {}", self.held.join(" and ")),
        };
        let pages: Vec<&str> = self.built.iter().rev().map(String::as_str).collect();
        let pages = match pages[..] {
            [] => String::new(),
            [page] => format!(", and page {page} goes back"),
            _ => format!(", and pages {} go back", pages.join(", ")),
        };
        let step = self.record.step;
        let waits = if self.waits {
            ", and waits no more"
        } else {
            ""
        };
        format!(
            "Party {party} ({operation}) is withdrawn before step {step}{waits}. {locks}{pages}."
        )
    }
}

impl Run {
    fn new() -> Self {
        Run {
            memory: Memory::default(),
            words: StepWords::read(),
        }
    }

    fn view(&mut self) -> View {
        let requests = self.memory.requests();
        view::of(&self.memory, &requests, &self.words)
    }

    fn turn(&mut self, line: &[u8]) -> Turn {
        let form = forms::read(line);
        let before = form.and_then(|form| self.party_of(form));
        let reply = form.map_or(Reply::Unread, |form| self.memory.call(form));
        Turn {
            form: script::shown(line),
            reply: reply.to_string(),
            kind: reply.kind(),
            meaning: self.meaning(form, reply, &before.unwrap_or_default()),
            view: self.view(),
        }
    }

    /// The party that a form names, as it stands.
    fn party_of(&self, form: Form) -> Option<Party> {
        match form {
            Form::Format(_) | Form::TakeUp => None,
            Form::Begin(party, _) | Form::Step(party) | Form::Withdraw(party) => Some(Party {
                record: *self.memory.parties.get(party as usize)?,
                waits: self.memory.waiting().any(|other| other == party),
                held: view::held_by(&self.memory, party),
                built: view::new_pages(&self.memory, party)
                    .iter()
                    .map(|page| page.number.to_string())
                    .collect(),
            }),
        }
    }

    /// What a reply means, in words; the party is as before the call.
    fn meaning(&mut self, form: Option<Form>, reply: Reply, before: &Party) -> String {
        if let Some(refusal) = reply.refusal() {
            let flaw = self.memory.flaw();
            let why = flaw.filter(|_| refusal == Refusal::Unsaved);
            let why = why.map_or(String::new(), |flaw| format!(": {flaw}"));
            return format!("Refused: {refusal}{why}. Nothing is altered.");
        }
        match (form, reply) {
            (None, _) => "Not a form that turns reads. Nothing is altered.".to_string(),
            (Some(Form::Format(sizes)), _) => match sizes.original_chains {
                1 => "An empty file of one chain.".to_string(),
                chains => format!("An empty file of {chains} chains."),
            },
            (Some(Form::Begin(party, operation)), _) => {
                format!("Party {party} begins: {operation}.")
            }
            (Some(Form::Step(party)), Reply::Step(_, Ok(outcome))) => {
                self.step_meaning(party, outcome, before)
            }
            (Some(Form::Step(_)), _) => String::new(),
            (Some(Form::Withdraw(party)), _) => before.withdrawn(party),
            (Some(Form::TakeUp), _) => self.taken_up(),
        }
    }

    /// What a take-up found.
    fn taken_up(&mut self) -> String {
        let counted = |count: usize, what: &str| match count {
            1 => format!("one {what}"),
            _ => format!("{count} {what}s"),
        };
        let keys = counted(self.memory.key_count(), "key");
        let chains = counted(self.memory.chain_count() as usize, "chain");
        let free = counted(self.memory.root.free as usize, "page");
        format!("A file at rest, which is taken up: {keys} in {chains}, {free} free. Nothing is altered.")
    }

    fn step_meaning(&mut self, party: u32, outcome: Outcome, before: &Party) -> String {
        let record = &before.record;
        let (step, words) = (record.step, self.words.of(record.step));
        let who = format!("Party {party} ({})", view::operation(record));
        match outcome {
            Outcome::Waiting => {
                let requests = self.memory.requests();
                let wait = requests.get(party as usize).and_then(|it| it.wait.as_ref());
                let why = wait.map_or(String::new(), |wait| format!(": {wait}"));
                let altered = if before.waits {
                    "Nothing is altered"
                } else {
                    "It is among those who wait, and nothing else is altered"
                };
                format!("{who} tried step {step}: {words}. Waiting{why}. {altered}.")
            }
            Outcome::Moved => format!("{who} performed step {step}: {words}."),
            done => format!("{who} performed step {step}: {words}. It is {done}."),
        }
    }
}

#[cfg(test)]
mod tests {
    use super::*;

    /// What a script's last line means.
    fn meaning(lines: &[&str]) -> String {
        let mut run = Run::new();
        let turns = lines.iter().map(|line| run.turn(line.as_bytes()));
        turns.last().map_or(String::new(), |turn| turn.meaning)
    }

    /// An insert of a third key, begun and stepped so often, then withdrawn.
    fn withdrawn_after(steps: usize) -> String {
        let mut lines = vec!["(format 1 1 1 4 1)"];
        for begin in ["(begin 0 (insert 1 5))", "(begin 0 (insert 2 5))"] {
            lines.push(begin);
            lines.extend(["(step 0)"; 12]);
        }
        lines.push("(begin 0 (insert 3 5))");
        lines.extend(vec!["(step 0)"; steps]);
        lines.push("(withdraw 0)");
        meaning(&lines)
    }

    #[test]
    fn a_take_up_says_what_was_found() {
        let mut lines = vec!["(take-up)"];
        let refused = |why: &str| format!("Refused: {why}. Nothing is altered.");
        assert_eq!(
            meaning(&lines),
            refused("a size is outside its limits (refusal 2)")
        );
        lines.extend(["(format 1 1 2 3 2)", "(take-up)"]);
        assert_eq!(
            meaning(&lines),
            "A file at rest, which is taken up: 0 keys in one chain, 3 pages free. Nothing is altered."
        );
        lines.extend(["(begin 1 (insert 7 5))", "(take-up)"]);
        let unsaved = "the words are no file at rest (refusal 8)";
        assert_eq!(
            meaning(&lines),
            refused(&format!("{unsaved}: party 1 has an operation under way"))
        );
        lines.extend(["(step 1)"; 12]);
        lines.push("(take-up)");
        assert_eq!(
            meaning(&lines),
            "A file at rest, which is taken up: one key in one chain, 3 pages free. Nothing is altered."
        );
    }

    #[test]
    fn one_that_waits_is_among_those_who_do() {
        let mut lines = vec!["(format 1 1 1 4 2)", "(begin 0 (insert 1 5))"];
        lines.extend(["(step 0)"; 4]);
        lines.push("(begin 1 (insert 2 5))");
        lines.extend(["(step 1)"; 4]);
        let why = "Waiting: party 1 waits for chain 0 (selective), held by party 0";
        assert!(meaning(&lines).ends_with(&format!(
            "{why}. It is among those who wait, and nothing else is altered."
        )));
        lines.push("(step 1)");
        assert!(meaning(&lines).ends_with(&format!("{why}. Nothing is altered.")));
        lines.push("(withdraw 1)");
        assert_eq!(
            meaning(&lines),
            "Party 1 (insert 2=5) is withdrawn before step 4, and waits no more. It gives up root read."
        );
    }

    #[test]
    fn a_withdraw_says_what_is_given_up() {
        for (steps, said) in [
            (0, "step 1. It held no lock."),
            (1, "step 2. It gives up root read."),
            (4, "step 5. It gives up root read and chain 0 selective."),
            (6, "step 10. It gives up chain 0 selective."),
            (
                7,
                "step 11. It gives up chain 0 selective, and pages 3, 2 go back.",
            ),
        ] {
            let said = format!("Party 0 (insert 3=5) is withdrawn before {said}");
            assert_eq!(withdrawn_after(steps), said);
        }
        assert_eq!(
            withdrawn_after(8),
            "Refused: the party's operation has taken its decisive step (refusal 7). Nothing is altered."
        );
    }
}
