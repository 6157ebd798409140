//! Who waits, from the calls, their answers and what each step requests: nobody is overtaken, what one waits for stays, and
//! the row in memory is this list.

use crate::image::Image;
use crate::part::Outcome;
use bead_port::waiting::{requested, Request};

/// The parties that wait with what they wait for, first come first.
#[derive(Default)]
pub(super) struct Waits {
    entries: Vec<(u32, Request)>,
}

/// What a party's next step requests.
pub(super) fn request_of(image: &Image, party: u32) -> Option<Request> {
    requested(&image.root_record(), &image.party(party))
}

impl Waits {
    fn place(&self, party: u32) -> Option<usize> {
        self.entries.iter().position(|(other, _)| *other == party)
    }

    /// A step that requests this was answered waiting.
    pub fn waited(&mut self, party: u32, request: Option<Request>) -> Outcome<()> {
        let known = self.place(party).map(|place| self.entries[place].1);
        match (known, request) {
            (None, Some(request)) => self.entries.push((party, request)),
            (Some(before), Some(now)) if before == now => {}
            _ => {
                return Err(format!(
                    "party {party} waits for {request:?}, not {known:?}"
                ))
            }
        }
        Ok(())
    }

    /// A step that requests this, or nothing, was performed: no earlier request that waits conflicts with it.
    pub fn performed(&mut self, party: u32, request: Option<Request>) -> Outcome<()> {
        let place = self.place(party);
        let mut earlier = self.entries[..place.unwrap_or(self.entries.len())].iter();
        let overtaken = |(_, theirs): &&(u32, Request)| {
            request.map_or(false, |request| request.conflicts_with(*theirs))
        };
        if let Some((other, _)) = earlier.find(overtaken) {
            return Err(format!("party {party} overtakes party {other}"));
        }
        self.left(party);
        Ok(())
    }

    /// A party's wait is over.
    pub fn left(&mut self, party: u32) {
        self.entries.retain(|(other, _)| *other != party);
    }

    /// The row has these parties, each plus one, and then zeros.
    pub fn test_row(&self, row: &[u32]) -> Outcome<()> {
        let mut due: Vec<u32> = self.entries.iter().map(|(party, _)| party + 1).collect();
        due.resize(row.len(), 0);
        if row == due {
            return Ok(());
        }
        Err(format!("the row of who waits is {row:?}, not {due:?}"))
    }
}
