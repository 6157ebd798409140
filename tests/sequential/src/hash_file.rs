//! The linear hash file: bucket chains as lists of records, and each operation as a whole.
//! A chain that changes is built anew in free pages before its old pages are free again.

use crate::{AddressSpace, Answer, Operation, Outcome, Record, Restructuring, Sizes};

#[derive(Clone, Debug, PartialEq, Eq)]
pub struct HashFile {
    sizes: Sizes,
    space: AddressSpace,
    /// The records of each chain, their keys ascending.
    chains: Vec<Vec<Record>>,
}

impl HashFile {
    /// An empty file; none where a size is outside its limits.
    pub fn format(sizes: Sizes) -> Option<Self> {
        if !sizes.within_limits() {
            return None;
        }
        Some(HashFile {
            sizes,
            space: AddressSpace::new(sizes.originals),
            chains: vec![Vec::new(); sizes.originals as usize],
        })
    }

    pub fn sizes(&self) -> Sizes {
        self.sizes
    }

    pub fn space(&self) -> AddressSpace {
        self.space
    }

    pub fn chains(&self) -> &[Vec<Record>] {
        &self.chains
    }

    /// The overflow pages in no chain.
    pub fn free_pages(&self) -> usize {
        let pages = self.chains.iter().map(|records| self.pages_for(records));
        let used: usize = pages.sum();
        self.sizes.overflow_pages as usize - used
    }

    pub fn perform(&mut self, operation: Operation) -> Outcome {
        match operation {
            Operation::Find(key) => self.find(key),
            Operation::Insert(key, setting) => self.insert(Record { key, setting }),
            Operation::Delete(key) => self.delete(key),
        }
    }

    pub fn find(&self, key: u32) -> Outcome {
        let records = &self.chains[self.home(key)];
        match place_of(records, key) {
            Ok(place) => Answer::Found(records[place].setting).into(),
            Err(_) => Answer::Absent.into(),
        }
    }

    /// Inserts a record whose key is missing; splits where its chain has more overflow pages than
    /// before. A present key keeps its setting.
    pub fn insert(&mut self, record: Record) -> Outcome {
        let home = self.home(record.key);
        let mut records = self.chains[home].clone();
        match place_of(&records, record.key) {
            Ok(_) => return Answer::Present.into(),
            Err(place) => records.insert(place, record),
        }
        let old_pages = self.pages_for(&self.chains[home]);
        let new_pages = self.pages_for(&records);
        if new_pages > self.free_pages() {
            return Answer::NoPage.into();
        }
        self.chains[home] = records;
        let restructuring = if new_pages > old_pages {
            self.split()
        } else {
            Restructuring::None
        };
        Outcome {
            answer: Answer::Inserted,
            restructuring,
        }
    }

    /// Deletes a key with its setting; merges where its chain is left empty.
    pub fn delete(&mut self, key: u32) -> Outcome {
        let home = self.home(key);
        let mut records = self.chains[home].clone();
        match place_of(&records, key) {
            Ok(place) => records.remove(place),
            Err(_) => return Answer::Absent.into(),
        };
        if self.pages_for(&records) > self.free_pages() {
            return Answer::NoPage.into();
        }
        let emptied = records.is_empty();
        self.chains[home] = records;
        let restructuring = if emptied {
            self.merge()
        } else {
            Restructuring::None
        };
        Outcome {
            answer: Answer::Deleted,
            restructuring,
        }
    }

    /// Divides chain `next` between itself and a new last chain; skipped at P chains, or where both
    /// halves need more pages than are free.
    fn split(&mut self) -> Restructuring {
        let AddressSpace { level, next, .. } = self.space;
        if self.space.chains() == self.sizes.most_chains {
            return Restructuring::SplitSkipped;
        }
        let records = self.chains[next as usize].iter();
        let (staying, going): (Vec<Record>, Vec<Record>) =
            records.partition(|record| self.space.hash(level + 1, record.key) == next);
        if self.pages_for(&staying) + self.pages_for(&going) > self.free_pages() {
            return Restructuring::SplitSkipped;
        }
        self.chains[next as usize] = staying;
        self.chains.push(going);
        self.space = self.space.after_split();
        Restructuring::Split
    }

    /// Joins the last chain to its target; skipped at N chains, or where the joined records do not
    /// fit a page.
    fn merge(&mut self) -> Restructuring {
        let target = match self.space.merge_target() {
            Some(target) => target,
            None => return Restructuring::MergeSkipped,
        };
        let partner = self.chains.len() - 1;
        let pair = [&self.chains[target as usize][..], &self.chains[partner]];
        let mut joined = pair.concat();
        joined.sort_unstable_by_key(|record| record.key);
        if joined.len() > self.sizes.records_a_page as usize {
            return Restructuring::MergeSkipped;
        }
        self.chains.pop();
        self.chains[target as usize] = joined;
        self.space = self.space.after_merge(target);
        Restructuring::Merged
    }

    fn home(&self, key: u32) -> usize {
        self.space.address(key) as usize
    }

    fn pages_for(&self, records: &[Record]) -> usize {
        self.sizes.overflow_pages_for(records.len())
    }
}

/// Where the record of a key stands, or where it would go.
fn place_of(records: &[Record], key: u32) -> Result<usize, usize> {
    records.binary_search_by_key(&key, |record| record.key)
}
