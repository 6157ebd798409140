//! A plain map of keys to settings: what an operation must answer wherever the answer is not no page.

use std::collections::BTreeMap;

use crate::{Answer, Operation};

#[derive(Clone, Debug, Default, PartialEq, Eq)]
pub struct PlainMap {
    settings: BTreeMap<u32, u32>,
}

impl PlainMap {
    /// The setting of each key that is in.
    pub fn settings(&self) -> &BTreeMap<u32, u32> {
        &self.settings
    }

    /// Performs an operation and gives its answer. An insert of a present key keeps its setting.
    pub fn perform(&mut self, operation: Operation) -> Answer {
        match operation {
            Operation::Find(key) => match self.settings.get(&key) {
                Some(&setting) => Answer::Found(setting),
                None => Answer::Absent,
            },
            Operation::Insert(key, _) if self.settings.contains_key(&key) => Answer::Present,
            Operation::Insert(key, setting) => {
                self.settings.insert(key, setting);
                Answer::Inserted
            }
            Operation::Delete(key) => match self.settings.remove(&key) {
                Some(_) => Answer::Deleted,
                None => Answer::Absent,
            },
        }
    }
}
