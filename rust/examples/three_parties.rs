//! Three parties take turns on a small file, one step a turn: who moves, who waits for whom, and what is left.

use bead_index::{File, Operation, Refusal, Sizes};

/// One turn of a party: a line that says what it came to. Where the party is idle it begins the next operation of its
/// plan; where that is empty there is no line.
fn turn(file: &mut File, party: u32, plan: &mut Vec<Operation>) -> Result<Option<String>, Refusal> {
    if file.under_way(party)?.is_none() && !plan.is_empty() {
        file.begin(party, plan.remove(0))?;
    }
    let under_way = match file.under_way(party)? {
        Some(under_way) => under_way,
        None => return Ok(None),
    };
    let wait = file.wait(party);
    let outcome = file.step(party)?;
    let words = wait.map_or(outcome.to_string(), |wait| wait.to_string());
    Ok(Some(format!(
        "party {party}, {:<34} {words}",
        format!("{under_way}:")
    )))
}

fn main() -> Result<(), bead_index::Error> {
    let sizes = Sizes::new()
        .original_chains(1)
        .records_a_page(2)
        .most_chains(4);
    let mut file = File::new(sizes.overflow_pages(6).parties(3))?;
    for (key, setting) in [(4, 40), (7, 45)] {
        file.insert(key, setting)?;
    }
    println!("{file:#?}");

    let mut plans = [
        vec![Operation::insert(9, 60)],
        vec![Operation::delete(4)],
        vec![Operation::find(7), Operation::find(9), Operation::find(4)],
    ];
    loop {
        println!();
        for (party, plan) in (0..).zip(&mut plans) {
            if let Some(line) = turn(&mut file, party, plan)? {
                println!("{line}");
            }
        }
        if file.is_at_rest() && plans.iter().all(Vec::is_empty) {
            break;
        }
    }
    println!("\n{file:#?}");
    Ok(())
}
