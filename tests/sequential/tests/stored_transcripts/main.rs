//! Compares the model with the stored transcripts: each script from a format on, for as long as
//! one party at a time is under way. A withdrawn operation is none of the model's.

mod forms;

use std::fs;
use std::path::Path;

use forms::{read_form, Form};
use sequential::{HashFile, Operation};

/// A script being followed.
#[derive(Default)]
struct Follower {
    /// The file, from a format until two parties are under way at once.
    file: Option<HashFile>,
    /// The party under way, with its operation.
    under_way: Option<(u32, Operation)>,
    /// The operations compared so far.
    compared: usize,
}

impl Follower {
    /// Goes on by one line and its reply. An error says what the reply should have been.
    fn follow(&mut self, line: &str, reply: &str) -> Result<(), String> {
        if reply == "(unread)" {
            return Ok(());
        }
        match read_form(line).ok_or("(unread)")? {
            Form::Format(sizes) => match HashFile::format(sizes) {
                None => expect("(format (refused 2))", reply),
                file => {
                    self.file = file;
                    self.under_way = None;
                    expect("(format ok)", reply)
                }
            },
            Form::TakeUp => self.follow_take_up(reply),
            _ if reply.contains("(refused ") => Ok(()),
            Form::Begin(party, operation) => {
                if self.under_way.replace((party, operation)).is_some() {
                    self.file = None;
                }
                Ok(())
            }
            Form::Step(party) => self.follow_step(party, reply),
            Form::Withdraw(party) => self.follow_withdraw(party),
        }
    }

    /// A step that was not refused: alone, a party moves until it is done with the model's answer.
    fn follow_step(&mut self, party: u32, reply: &str) -> Result<(), String> {
        let (file, operation) = match (&mut self.file, self.under_way) {
            (None, _) => return Ok(()),
            (Some(file), Some((same, operation))) if same == party => (file, operation),
            _ => return Err(format!("(step {party} (refused 5))")),
        };
        if !reply.contains("(done ") {
            return expect(&format!("(step {party} moved)"), reply);
        }
        self.under_way = None;
        self.compared += 1;
        let outcome = file.perform(operation);
        expect(&format!("(step {party} {outcome})"), reply)
    }

    /// A take-up of a file that is followed passes where nobody is under way.
    fn follow_take_up(&self, reply: &str) -> Result<(), String> {
        match (&self.file, self.under_way) {
            (None, _) => Ok(()),
            (Some(_), None) => expect("(take-up ok)", reply),
            (Some(_), Some(_)) => expect("(take-up (refused 8))", reply),
        }
    }

    /// A withdraw that was not refused: the operation under way is never performed.
    fn follow_withdraw(&mut self, party: u32) -> Result<(), String> {
        match (&self.file, self.under_way) {
            (Some(_), Some((same, _))) if same == party => self.under_way = None,
            (Some(_), _) => return Err(format!("(withdraw {party} (refused 5))")),
            (None, _) => {}
        }
        Ok(())
    }
}

fn expect(due: &str, reply: &str) -> Result<(), String> {
    if due == reply {
        Ok(())
    } else {
        Err(due.into())
    }
}

/// The operations of a script that run singly, each compared; or the first difference.
fn compare(script: &str, replies: &str) -> Result<usize, String> {
    if script.lines().count() != replies.lines().count() {
        return Err("not one reply for each line".into());
    }
    let mut follower = Follower::default();
    for (number, (line, reply)) in (1..).zip(script.lines().zip(replies.lines())) {
        follower
            .follow(line, reply)
            .map_err(|due| format!("line {number}: {reply} should be {due}"))?;
    }
    Ok(follower.compared)
}

#[test]
fn operations_run_singly_report_as_the_model() {
    let folder = Path::new(env!("CARGO_MANIFEST_DIR")).join("../transcripts");
    let mut compared = 0;
    for entry in fs::read_dir(&folder).expect("the folder of transcripts") {
        let path = entry.expect("an entry of the folder").path();
        if path.extension() == Some("in".as_ref()) {
            let script = fs::read_to_string(&path).expect("a script");
            let replies = fs::read_to_string(path.with_extension("out")).expect("its replies");
            compared += compare(&script, &replies)
                .unwrap_or_else(|difference| panic!("{}: {difference}", path.display()));
        }
    }
    println!("{compared} operations of the transcripts compared");
    assert!(compared >= 100, "only {compared} operations run singly");
}

/// Compares lines that stand beside their replies.
fn compare_lines(lines: &[[&str; 2]]) -> Result<usize, String> {
    let [script, replies] = [0, 1].map(|column| {
        let column: Vec<&str> = lines.iter().map(|line| line[column]).collect();
        column.join("\n")
    });
    compare(&script, &replies)
}

#[test]
fn altered_replies_are_noticed() {
    let due = "(step 0 (done absent none))";
    for (altered, due) in [
        ("(step 0 (done (found 0) none))", due),
        ("(step 0 (done absent merged))", due),
        ("(step 0 waiting)", "(step 0 moved)"),
    ] {
        let script = [
            ["(format 1 1 2 0 1)", "(format ok)"],
            ["(begin 0 (find 7))", "(begin 0 ok)"],
            ["(step 0)", "(step 0 moved)"],
            ["(step 0)", altered],
        ];
        let difference = format!("line 4: {altered} should be {due}");
        assert_eq!(compare_lines(&script), Err(difference));
    }
    let sizes = [["(format 1 7 2 0 1)", "(format ok)"]];
    assert!(compare_lines(&sizes).is_err());
    let idle = [
        ["(format 1 1 2 0 1)", "(format ok)"],
        ["(withdraw 0)", "(withdraw 0 ok)"],
    ];
    let difference = "line 2: (withdraw 0 ok) should be (withdraw 0 (refused 5))";
    assert_eq!(compare_lines(&idle), Err(difference.to_string()));
    let at_rest = [
        ["(format 1 1 2 0 1)", "(format ok)"],
        ["(take-up)", "(take-up (refused 8))"],
    ];
    let difference = "line 2: (take-up (refused 8)) should be (take-up ok)";
    assert_eq!(compare_lines(&at_rest), Err(difference.to_string()));
}

#[test]
fn only_operations_run_singly_are_compared() {
    let script = [
        ["(format 1 1 2 0 2)", "(format ok)"],
        ["(begin 0 (insert 7 5))", "(begin 0 ok)"],
        ["(begin 0 (find 7))", "(begin 0 (refused 4))"],
        ["(step 1)", "(step 1 (refused 5))"],
        ["(step)", "(unread)"],
        ["(step 0)", "(step 0 (done inserted none))"],
        ["(begin 1 (find 7))", "(begin 1 ok)"],
        ["(begin 0 (delete 7))", "(begin 0 ok)"],
        ["(step 0)", "(step 0 (done deleted merge-skipped))"],
        ["(step 1)", "(step 1 (done (found 5) none))"],
        ["(format 2 1 2 0 2)", "(format ok)"],
        ["(begin 1 (find 7))", "(begin 1 ok)"],
        ["(step 1)", "(step 1 (done absent none))"],
    ];
    assert_eq!(compare_lines(&script), Ok(2));
}

#[test]
fn a_file_is_taken_up_where_nobody_is_under_way() {
    let script = [
        ["(take-up)", "(take-up (refused 2))"],
        ["(format 1 1 2 0 2)", "(format ok)"],
        ["(take-up)", "(take-up ok)"],
        ["(begin 0 (insert 7 5))", "(begin 0 ok)"],
        ["(take-up)", "(take-up (refused 8))"],
        ["(step 0)", "(step 0 (done inserted none))"],
        ["(take-up)", "(take-up ok)"],
    ];
    assert_eq!(compare_lines(&script), Ok(1));
}

#[test]
fn a_withdrawn_operation_is_not_performed() {
    let script = [
        ["(format 1 1 2 0 2)", "(format ok)"],
        ["(begin 0 (insert 7 5))", "(begin 0 ok)"],
        ["(step 0)", "(step 0 moved)"],
        ["(withdraw 0)", "(withdraw 0 ok)"],
        ["(withdraw 0)", "(withdraw 0 (refused 5))"],
        ["(begin 1 (find 7))", "(begin 1 ok)"],
        ["(withdraw 1)", "(withdraw 1 (refused 7))"],
        ["(step 1)", "(step 1 (done absent none))"],
    ];
    assert_eq!(compare_lines(&script), Ok(1));
}
