//! A slicing session on one file: two nozzles lay a wall bead by bead, a preview looks at it while it grows, and an
//! export writes it down once all are at rest and the preview is closed. A key is a bead's place: its course times 100
//! plus its column. Its setting is the nozzle's, from 1 to 9: how far it stood open.

use bead_index::{Answer, Error, File, Operation, Outcome, Refusal, Sizes};
use std::collections::{HashMap, VecDeque};

const COURSES: u32 = 3;
const COLUMNS: u32 = 24;

fn bead(course: u32, column: u32) -> u32 {
    course * 100 + column
}

/// How far a nozzle opens for a bead: wide for the course at the foot, and for a rib in every sixth column.
fn setting(course: u32, column: u32) -> u32 {
    let rib = if column % 6 == 0 { 3 } else { 0 };
    rib + if course == 0 { 5 } else { 3 }
}

/// The insert of a bead with its setting.
fn laid(course: u32, column: u32) -> Operation {
    Operation::insert(bead(course, column), setting(course, column))
}

/// The mark of a bead: its setting, or a dot where there is none.
fn mark(setting: Option<u32>) -> char {
    setting
        .and_then(|setting| char::from_digit(setting, 10))
        .unwrap_or('.')
}

/// Somebody at work on the file: a party, what it has yet to do, and how often it had to wait.
struct Worker {
    name: &'static str,
    party: u32,
    plan: VecDeque<Operation>,
    waits: u32,
}

impl Worker {
    fn new(name: &'static str, party: u32) -> Self {
        Worker {
            name,
            party,
            plan: VecDeque::new(),
            waits: 0,
        }
    }

    fn is_done(&self, file: &File) -> Result<bool, Refusal> {
        Ok(self.plan.is_empty() && file.under_way(self.party)?.is_none())
    }

    /// One step of the operation under way, or of the next one planned: the operation and its answer, once it is done.
    fn turn(&mut self, file: &mut File) -> Result<Option<(Operation, Answer)>, Refusal> {
        if file.under_way(self.party)?.is_none() {
            match self.plan.pop_front() {
                Some(next) => file.begin(self.party, next)?,
                None => return Ok(None),
            }
        }
        let under_way = file.under_way(self.party)?;
        let outcome = file.step(self.party)?;
        self.waits += u32::from(outcome == Outcome::Waiting);
        Ok(under_way.map(|it| it.operation).zip(outcome.answer()))
    }
}

/// A preview of a course: a mark for each bead.
struct Preview {
    worker: Worker,
    course: u32,
    row: String,
}

impl Preview {
    /// Looks at a course next, where the last look is over.
    fn look(&mut self, file: &File, course: u32) -> Result<(), Refusal> {
        if self.worker.is_done(file)? {
            self.course = course;
            self.worker
                .plan
                .extend((0..COLUMNS).map(|column| Operation::find(bead(course, column))));
        }
        Ok(())
    }

    /// One turn; shows the row once it is whole.
    fn turn(&mut self, file: &mut File) -> Result<(), Refusal> {
        if let Some((_, answer)) = self.worker.turn(file)? {
            self.row.push(mark(answer.setting()));
        }
        if self.row.len() == COLUMNS as usize {
            println!("  preview  course {}  {}", self.course, self.row);
            self.row.clear();
        }
        Ok(())
    }

    /// Closes the preview: nobody wants its answers any more. A find that has taken its decisive step ends first.
    fn close(&mut self, file: &mut File) -> Result<(), Error> {
        self.worker.plan.clear();
        let party = self.worker.party;
        if let Some(under_way) = file.under_way(party)? {
            let operation = under_way.operation;
            match file.withdraw(party) {
                Ok(()) => println!("the preview is closed: {operation} is withdrawn"),
                Err(Refusal::Decided) => {
                    println!(
                        "the preview is closed after {operation}: {}",
                        file.finish(party)?
                    )
                }
                Err(refusal) => return Err(refusal.into()),
            }
        }
        Ok(())
    }
}

/// What both nozzles do for a course.
fn plan(nozzles: &mut [Worker; 2], course: u32) {
    println!("course {course}");
    let [left, right] = nozzles;
    let half = COLUMNS / 2;
    left.plan
        .extend((0..half).map(|column| laid(course, column)));
    right
        .plan
        .extend((half..COLUMNS).map(|column| laid(course, column)));
    if course == 1 {
        println!("  the right nozzle spits: the bead in column 15 comes out at setting 9, has to come off, and is laid again last");
        right.plan[3] = Operation::insert(bead(course, 15), 9);
        right.plan.insert(6, Operation::delete(bead(course, 15)));
        right.plan.push_back(laid(course, 15));
    }
}

/// Both nozzles lay a course, and the preview looks on.
fn lay(
    file: &mut File,
    nozzles: &mut [Worker; 2],
    preview: &mut Preview,
    course: u32,
) -> Result<(), Refusal> {
    plan(nozzles, course);
    while !(nozzles[0].is_done(file)? && nozzles[1].is_done(file)?) {
        for nozzle in nozzles.iter_mut() {
            match nozzle.turn(file)? {
                None | Some((_, Answer::Inserted)) => {}
                Some((operation, answer)) => {
                    println!("  the {}: {operation}, {answer}", nozzle.name)
                }
            }
        }
        // The preview is quicker than clay.
        for _ in 0..5 {
            preview.look(file, course)?;
            preview.turn(file)?;
        }
    }
    Ok(())
}

/// The wall as the file has it, the top course first.
fn export(file: &File) -> Result<(), Error> {
    let beads: HashMap<u32, u32> = file.records()?.collect();
    println!(
        "export: {} beads, in {} chains",
        beads.len(),
        file.chain_count()?
    );
    for course in (0..COURSES).rev() {
        let row = (0..COLUMNS).map(|column| mark(beads.get(&bead(course, column)).copied()));
        println!("           course {course}  {}", row.collect::<String>());
    }
    Ok(())
}

fn main() -> Result<(), Error> {
    let sizes = Sizes::new()
        .original_chains(2)
        .records_a_page(4)
        .most_chains(32)
        .overflow_pages(24)
        .parties(3);
    let mut file = File::new(sizes)?;
    println!(
        "a wall of {COURSES} courses of {COLUMNS} beads, in a file of {} chains",
        file.chain_count()?
    );
    let mut nozzles = [
        Worker::new("left nozzle", 0),
        Worker::new("right nozzle", 1),
    ];
    let mut preview = Preview {
        worker: Worker::new("preview", 2),
        course: 0,
        row: String::new(),
    };
    for course in 0..COURSES {
        lay(&mut file, &mut nozzles, &mut preview, course)?;
    }
    if let Err(error) = export(&file) {
        println!("no export yet: {error}");
    }
    preview.close(&mut file)?;
    for worker in nozzles.iter().chain([&preview.worker]) {
        println!("the {} waited {} times", worker.name, worker.waits);
    }
    export(&file)
}
