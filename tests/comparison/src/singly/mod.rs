//! Operations run singly against the sequential model: the answer and the restructuring of each, and level, next, free pages and every chain after it.

mod met;

use crate::at_rest;
use crate::callee::{Call, Callee, Reply};
use crate::habits::{Choice, Habits};
use crate::image::Image;
use crate::part::{Outcome, Part, Row};
use crate::random::Random;
use crate::sizes;
use crate::transcripts::forms;
use bead_port::memory::{FIND, INSERT};
use met::Met;
use sequential::{HashFile, Operation, Sizes};

/// More steps than any operation that runs alone can take.
const MOST_STEPS: u32 = 2000;

pub struct Singly {
    library: Box<dyn Callee>,
    image: Image,
    calls: u64,
    met: Met,
}

impl Singly {
    pub fn new(library: Box<dyn Callee>) -> Singly {
        Singly {
            library,
            image: Image::zero(0, 0, 0, 0),
            calls: 0,
            met: Met::new(),
        }
    }

    fn call(&mut self, call: Call) -> Reply {
        self.calls += 1;
        self.library.call(&mut self.image, call)
    }

    /// Formats memory that held anything.
    fn format(&mut self, sizes: [u32; 5], random: &mut Random) -> Outcome<()> {
        self.image = Image::for_sizes(sizes);
        for part in self.image.parts_mut() {
            part.fill(random.word());
        }
        match self.call(Call::Format(sizes)) {
            [0, 0, 0, 0, 0] => Ok(()),
            reply => Err(format!("format {sizes:?}: {reply:?}")),
        }
    }

    /// Begins an operation and makes its steps until it ends: each but the last moves.
    fn run_alone(&mut self, party: u32, choice: Choice) -> Outcome<Reply> {
        let begun = self.call(choice.begin(party));
        if begun != [0; 5] {
            return Err(format!("begin: {begun:?}"));
        }
        for _ in 0..MOST_STEPS {
            match self.call(Call::Step(party)) {
                [0, 1, 0, 0, 0] => {}
                reply @ [0, 2, ..] => return Ok(reply),
                reply => return Err(format!("a step of an operation alone: {reply:?}")),
            }
        }
        Err(format!("no end after {MOST_STEPS} steps"))
    }

    /// One operation in the library and in the model.
    fn operation(&mut self, model: &mut HashFile, party: u32, choice: Choice) -> Outcome<()> {
        let before = model.space();
        let due = model.perform(operation_of(choice));
        let reply = self.run_alone(party, choice)?;
        let (got, due_words) = (
            forms::answer(Call::Step(party), reply),
            format!("(step {party} {due})"),
        );
        if got != due_words {
            return Err(format!("{got}, the model {due_words}"));
        }
        self.met.count(model, before, choice.operation, due);
        self.compare(model)
    }

    /// The whole memory against the model.
    fn compare(&self, model: &HashFile) -> Outcome<()> {
        let sizes = model.sizes();
        let file = at_rest::read(
            &self.image,
            [
                sizes.originals,
                sizes.records_a_page,
                sizes.most_chains,
                sizes.overflow_pages,
                sizes.parties,
            ],
        )?;
        if file.space != model.space() {
            return Err(format!("{:?}, the model {:?}", file.space, model.space()));
        }
        if file.free as usize != model.free_pages() {
            return Err(format!(
                "{} free pages, the model {}",
                file.free,
                model.free_pages()
            ));
        }
        let differing = file
            .chains
            .iter()
            .zip(model.chains())
            .position(|(ours, due)| ours != due);
        match differing {
            Some(chain) => Err(format!(
                "chain {chain} is {:?}, the model's {:?}",
                file.chains[chain],
                model.chains()[chain]
            )),
            None => Ok(()),
        }
    }
}

fn operation_of(choice: Choice) -> Operation {
    let key = choice.key;
    match choice.operation {
        FIND => Operation::Find(key),
        INSERT => Operation::Insert(key, choice.setting),
        _ => Operation::Delete(key),
    }
}

/// One session in so many has the largest sizes.
const LARGE_EVERY: u64 = 16;

/// The sizes of a session and how many operations it has: tiny ones often, the largest seldom and long.
fn plan(number: u64, random: &mut Random) -> ([u32; 5], u32) {
    let turn = number / LARGE_EVERY;
    match number % LARGE_EVERY {
        0..=7 => {
            let p = random.between(1, 8);
            let (n, b) = (random.between(1, p.min(3)), random.between(1, 3));
            ([n, b, p, random.between(0, 10), random.between(1, 3)], 300)
        }
        8..=13 => (sizes::allowed(random), 300),
        14 => {
            let (p, b) = (random.between(1, 256), 1 + turn as u32 % 6);
            let n = random.between(1, p);
            (
                [n, b, p, random.between(0, 752), random.between(1, 16)],
                600,
            )
        }
        _ => (sizes::largest(turn), 3000),
    }
}

/// The operation and key chosen; every other find or delete is of a key that is there.
fn choose(habits: &mut Habits, model: &HashFile, random: &mut Random) -> Choice {
    let choice = habits.choose(random);
    let chain = &model.chains()[random.below(model.space().chains()) as usize];
    if choice.operation == INSERT || chain.is_empty() || random.one_in(2) {
        return choice;
    }
    let key = random.pick(chain).key;
    Choice { key, ..choice }
}

impl Part for Singly {
    fn name(&self) -> &'static str {
        "singly"
    }

    fn session(&mut self, number: u64, random: &mut Random) -> Outcome<()> {
        let (sizes, operations) = plan(number, random);
        let [originals, records_a_page, most_chains, overflow_pages, parties] = sizes;
        let mut model = HashFile::format(Sizes {
            originals,
            records_a_page,
            most_chains,
            overflow_pages,
            parties,
        })
        .ok_or("sizes outside their limits")?;
        self.met.count_sizes(sizes);
        self.format(sizes, random)?;
        self.compare(&model)?;
        let mut habits = Habits::new(sizes, operations / 4, random);
        if number % LARGE_EVERY == LARGE_EVERY - 1 {
            habits = habits.dense();
        }
        for place in 1..=operations {
            let (party, choice) = (random.below(parties), choose(&mut habits, &model, random));
            self.operation(&mut model, party, choice).map_err(|error| {
                format!(
                    "sizes {sizes:?}, operation {place} (party {party}: {:?}): {error}",
                    operation_of(choice)
                )
            })?;
        }
        Ok(())
    }

    fn calls(&self) -> u64 {
        self.calls
    }

    fn rows(&self) -> Vec<Row> {
        self.met.rows()
    }

    fn told(&self) -> String {
        self.met.told()
    }
}
