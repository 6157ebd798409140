//! Random schedules of up to sixteen parties against the book: every answer is the book's note, calls are refused where
//! they must be and nowhere else, some operation under way can always move, nobody is overtaken at a lock, none takes
//! more calls than the sizes allow, take-up passes exactly where none is under way, and at rest the records in the
//! chains are the book's map.

mod book;
mod counted;
mod pace;
mod replaced;
mod restored;
mod waits;

use crate::at_rest;
use crate::callee::{Call, Callee, Reply, REQUESTING};
use crate::habits::{Choice, Habits};
use crate::image::Image;
use crate::part::{Outcome, Part, Row, Tally};
use crate::random::Random;
use crate::sizes;
use crate::transcripts::forms;
use bead_port::memory::{FIND, INSERT};
use bead_port::reply::FOUND;
use book::Book;
use counted::LONGEST;
use pace::Pace;
use restored::{RESTORED, RESTORED_PAGES};
use waits::{request_of, Waits};

/// One session in so many has the largest sizes.
const LARGE_EVERY: u64 = 40;

/// One turn in so many has a look whether the file could be taken up.
const TAKE_UP_EVERY: u32 = 20;

/// Calls within which the operations of a round come to an end.
const MOST_CALLS_TO_REST: u32 = 200_000;

pub struct Schedules {
    library: Box<dyn Callee>,
    image: Image,
    /// A copy on which parties try to move.
    trial: Image,
    sizes: [u32; 5],
    book: Book,
    /// Who waits.
    waits: Waits,
    /// The calls that each party's operation has taken.
    taken: Vec<u32>,
    calls: u64,
    operations: u64,
    trials: u64,
    met: Tally,
}

/// What must be met beside a wait at each requesting step.
const NAMES: [&str; 24] = [
    "found",
    "absent",
    "inserted",
    "present",
    "deleted",
    "no-page",
    "none",
    "split",
    "split-skipped",
    "merged",
    "merge-skipped",
    STALE,
    STALE_SETTING,
    LONGEST,
    FULL,
    "refused 3",
    "refused 4",
    "refused 5",
    "refused 7",
    "refused 8",
    TAKEN_UP,
    WITHDRAWN,
    RESTORED,
    RESTORED_PAGES,
];
const STALE: &str = "answers of a find no longer true when given";
const STALE_SETTING: &str = "settings found that were replaced by then";
const FULL: &str = "begins with fifteen others under way";
const WITHDRAWN: &str = "withdrawn";
const TAKEN_UP: &str = "taken up at rest";

/// Whether the decisive step has been taken: "a find at 9, a change at 12 or later".
fn is_decided(operation: u32, step: u32) -> bool {
    if operation == FIND {
        step == 9
    } else {
        step >= 12
    }
}

impl Schedules {
    pub fn new(library: Box<dyn Callee>) -> Schedules {
        let waits = REQUESTING.map(|step| format!("waits at {step}"));
        let names = waits.into_iter().chain(NAMES.map(String::from));
        Schedules {
            library,
            image: Image::zero(0, 0, 0, 0),
            trial: Image::zero(0, 0, 0, 0),
            sizes: [0; 5],
            book: Book::new(0),
            waits: Waits::default(),
            taken: Vec::new(),
            calls: 0,
            operations: 0,
            trials: 0,
            met: Tally::new(names),
        }
    }

    fn call(&mut self, call: Call) -> Reply {
        self.calls += 1;
        self.library.call(&mut self.image, call)
    }

    /// Any call: it is refused where party or book say so, and nowhere else.
    fn perform(&mut self, call: Call) -> Outcome<()> {
        let number = match call {
            Call::Step(party) | Call::Begin(party, ..) | Call::Withdraw(party)
                if party >= self.sizes[4] =>
            {
                return self.test_refused(call, 3)
            }
            Call::Step(party) | Call::Withdraw(party) if self.book.entry(party).is_none() => {
                return self.test_refused(call, 5)
            }
            Call::Begin(party, ..) if self.book.entry(party).is_some() => {
                return self.test_refused(call, 4)
            }
            Call::Step(party) | Call::Withdraw(party) => self.image.party(party).step,
            _ => 0,
        };
        if let Call::Withdraw(party) = call {
            return self.withdraw(party, number);
        }
        if let Call::Begin(..) = call {
            self.test_progress()?;
        }
        let request = match call {
            Call::Step(party) => request_of(&self.image, party),
            _ => None,
        };
        match (call, self.call(call)) {
            (Call::Format(sizes), [0, 0, 0, 0, 0]) => self.formatted(sizes[4]),
            (Call::Begin(party, operation, key, setting), [0, 0, 0, 0, 0]) => {
                self.begun(party, operation, key, setting)
            }
            (Call::Step(party), [0, 0, 0, 0, 0]) => {
                self.waited(number)?;
                self.waits.waited(party, request)?;
            }
            (Call::Step(party), [0, 1, 0, 0, 0]) => {
                self.waits.performed(party, request)?;
                self.count(party, true)?;
                self.book.performed(party, number)
            }
            (Call::Step(party), reply @ [0, 2, ..]) => {
                self.waits.performed(party, request)?;
                self.ended(party, number, reply)?;
            }
            (_, reply) => return Err(format!("{call:?}: {reply:?} at step {number}")),
        }
        self.waits.test_row(&self.image.row)
    }

    /// A withdraw of an operation under way is refused 7 once its decisive step is taken, and else accepted.
    fn withdraw(&mut self, party: u32, step: u32) -> Outcome<()> {
        let call = Call::Withdraw(party);
        let operation = self.book.entry(party).map_or(FIND, |entry| entry.operation);
        if is_decided(operation, step) {
            return self.test_refused(call, 7);
        }
        match self.call(call) {
            [0, 0, 0, 0, 0] => {
                self.met.add(WITHDRAWN);
                self.book.withdrawn(party);
                self.waits.left(party);
                self.waits.test_row(&self.image.row)?;
                self.test_progress()
            }
            reply => Err(format!("{call:?}: {reply:?} at step {step}")),
        }
    }

    /// Take-up passes where nobody is under way, and is refused 8 elsewhere; it alters nothing.
    fn test_take_up(&mut self) -> Outcome<()> {
        self.trial.copy_from(&self.image);
        if self.book.under_way().is_empty() {
            self.met.add(TAKEN_UP);
            match self.call(Call::TakeUp) {
                [0, 0, 0, 0, 0] => {}
                reply => return Err(format!("take-up at rest: {reply:?}")),
            }
        } else {
            self.test_refused(Call::TakeUp, 8)?;
        }
        if self.trial == self.image {
            return Ok(());
        }
        Err("take-up altered memory".to_string())
    }

    fn test_refused(&mut self, call: Call, due: u32) -> Outcome<()> {
        self.met.add(&format!("refused {due}"));
        match self.call(call) {
            [code, 0, 0, 0, 0] if code == due => Ok(()),
            reply => Err(format!("{call:?}: {reply:?}, not refused {due}")),
        }
    }

    fn formatted(&mut self, parties: u32) {
        self.book = Book::new(parties);
        self.waits = Waits::default();
        self.taken = vec![0; parties as usize];
    }

    fn begun(&mut self, party: u32, operation: u32, key: u32, setting: u32) {
        if self.book.under_way().len() == 15 {
            self.met.add(FULL);
        }
        self.book.begun(party, operation, key, setting);
        self.taken[party as usize] = 0;
    }

    /// Somebody under way can move, and only a step that requests a lock may wait.
    fn waited(&mut self, step: u32) -> Outcome<()> {
        self.test_progress()?;
        if !REQUESTING.contains(&(step as usize)) {
            return Err(format!("step {step} waits"));
        }
        self.met.add(&format!("waits at {step}"));
        Ok(())
    }

    fn ended(&mut self, party: u32, step: u32, reply: Reply) -> Outcome<()> {
        self.count(party, false)?;
        self.book.performed(party, step);
        let entry = self.book.ended(party, reply[2], reply[4])?;
        self.operations += 1;
        let [answer, restructuring] = forms::report(reply);
        self.met.add(answer);
        self.met.add(restructuring);
        let there = self.book.settings().get(&entry.key);
        if entry.operation == FIND && (reply[2] == FOUND) != there.is_some() {
            self.met.add(STALE);
        }
        if reply[2] == FOUND && there.map_or(false, |setting| *setting != reply[4]) {
            self.met.add(STALE_SETTING);
        }
        Ok(())
    }

    /// "If operations are under way, at least one would answer moved or done if its step came next": tried on a copy. A state that a step leaves by moving shows it itself, so
    /// this is asked where a call waits or begins.
    fn test_progress(&mut self) -> Outcome<()> {
        let under_way = self.book.under_way();
        self.trial.copy_from(&self.image);
        for &party in &under_way {
            self.trials += 1;
            self.trial.row.copy_from(&self.image.row);
            if let [0, 1 | 2, ..] = self.library.call(&mut self.trial, Call::Step(party)) {
                return Ok(());
            }
        }
        if under_way.is_empty() {
            return Ok(());
        }
        let steps: Vec<u32> = under_way
            .iter()
            .map(|party| self.image.party(*party).step)
            .collect();
        Err(format!(
            "no operation under way can move: parties {under_way:?} at steps {steps:?}"
        ))
    }

    /// What to begin; every other find or delete is of a key that is in the book's map.
    fn choose(&self, habits: &mut Habits, random: &mut Random) -> Choice {
        let choice = habits.choose(random);
        if choice.operation == INSERT || random.one_in(2) {
            return choice;
        }
        let near = self.book.settings().range(choice.key..).next();
        let key = near.map_or(choice.key, |(key, _)| *key);
        Choice { key, ..choice }
    }

    /// Calls in random order; idle parties begin.
    fn round(&mut self, calls: u32, habits: &mut Habits, random: &mut Random) -> Outcome<()> {
        let mut pace = Pace::new(random);
        for _ in 0..calls {
            let party = pace.next_party(self.sizes[4], random);
            if random.one_in(TAKE_UP_EVERY) {
                self.test_take_up()?;
            }
            if random.one_in(100) {
                let party = random.between(0, self.sizes[4]);
                let odd = [
                    Call::Step(party),
                    Call::Begin(party, FIND, habits.key(random), random.word()),
                    Call::Withdraw(party),
                ];
                self.perform(random.pick(&odd))?;
            } else if self.book.entry(party).is_some() {
                let withdraws = random.one_in(pace.withdraws);
                let calls = [Call::Step(party), Call::Withdraw(party)];
                self.perform(calls[usize::from(withdraws)])?;
            } else if random.one_in(pace.eager) {
                let choice = self.choose(habits, random);
                if random.one_in(8) {
                    self.test_restored(party, choice, random)?;
                }
                self.perform(choice.begin(party))?;
            }
        }
        Ok(())
    }

    /// Steps until every operation has ended; then the file passes take-up, and the records in the chains are the
    /// book's.
    fn come_to_rest(&mut self, random: &mut Random) -> Outcome<()> {
        for _ in 0..MOST_CALLS_TO_REST {
            let under_way = self.book.under_way();
            if under_way.is_empty() {
                self.test_take_up()?;
                return self.test_map();
            }
            self.perform(Call::Step(random.pick(&under_way)))?;
        }
        Err(format!("no rest after {MOST_CALLS_TO_REST} calls"))
    }

    fn test_map(&self) -> Outcome<()> {
        let mut records = at_rest::read(&self.image, self.sizes)?.chains.concat();
        records.sort_unstable_by_key(|record| record.key);
        let pairs = records.iter().map(|record| (&record.key, &record.setting));
        if pairs.eq(self.book.settings()) {
            return Ok(());
        }
        Err(format!(
            "at rest the records are {records:?}, the book's {:?}",
            self.book.settings()
        ))
    }
}

impl Part for Schedules {
    fn name(&self) -> &'static str {
        "schedules"
    }

    fn session(&mut self, number: u64, random: &mut Random) -> Outcome<()> {
        let large = number % LARGE_EVERY == LARGE_EVERY - 1;
        self.sizes = if large {
            sizes::largest(number / LARGE_EVERY)
        } else {
            sizes::allowed(random)
        };
        self.image = Image::for_sizes(self.sizes);
        self.perform(Call::Format(self.sizes))?;
        let (turn, calls) = if large {
            (400, 10_000)
        } else {
            (random.pick(&[5, 20, 60]), random.between(100, 1500))
        };
        let mut habits = Habits::new(self.sizes, turn, random);
        self.replace_setting(habits.key(random), random)
            .map_err(|error| format!("sizes {:?}: {error}", self.sizes))?;
        for _ in 0..3 {
            self.round(calls, &mut habits, random)
                .and_then(|()| self.come_to_rest(random))
                .map_err(|error| format!("sizes {:?}: {error}", self.sizes))?;
        }
        Ok(())
    }

    fn calls(&self) -> u64 {
        self.calls
    }

    fn rows(&self) -> Vec<Row> {
        self.met.rows()
    }

    fn told(&self) -> String {
        format!(
            "{} operations as the book, {} trials that somebody can move: {}",
            self.operations,
            self.trials,
            self.met.told()
        )
    }
}
