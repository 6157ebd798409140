//! The bucket chains that a file has and the chain that a key belongs to, from N, level and next.

use crate::mixing::mixed;

/// The address space of the chains; level and next are those of Ellis.
#[derive(Clone, Copy, Debug, PartialEq, Eq)]
pub struct AddressSpace {
    /// N.
    pub originals: u32,
    pub level: u32,
    pub next: u32,
}

impl AddressSpace {
    /// The N chains of an empty file.
    pub fn new(originals: u32) -> Self {
        AddressSpace {
            originals,
            level: 0,
            next: 0,
        }
    }

    /// h_i(k) = k mod (2^i N), of a mixed key.
    fn hash_of(&self, i: u32, mixed: u32) -> u32 {
        mixed % (self.originals << i)
    }

    /// h_i of a key.
    pub fn hash(&self, i: u32, key: u32) -> u32 {
        self.hash_of(i, mixed(key))
    }

    /// The chain that a mixed key belongs to.
    pub fn address_of(&self, mixed: u32) -> u32 {
        let chain = self.hash_of(self.level, mixed);
        if chain < self.next {
            self.hash_of(self.level + 1, mixed)
        } else {
            chain
        }
    }

    /// The chain that a key belongs to.
    pub fn address(&self, key: u32) -> u32 {
        self.address_of(mixed(key))
    }

    /// N 2^level, the chains at the start of the present round of splits.
    fn round(&self) -> u32 {
        self.originals << self.level
    }

    /// n, the number of chains.
    pub fn chains(&self) -> u32 {
        self.round() + self.next
    }

    /// The i whose h_i places the keys of a chain: level + 1 for a chain already split or made in
    /// this round, else level.
    pub fn local_level(&self, chain: u32) -> u32 {
        if chain < self.next || chain >= self.round() {
            self.level + 1
        } else {
            self.level
        }
    }

    /// The address space after chain `next` is split.
    pub fn after_split(&self) -> Self {
        let next = (self.next + 1) % self.round();
        let level = if next == 0 {
            self.level + 1
        } else {
            self.level
        };
        AddressSpace {
            level,
            next,
            ..*self
        }
    }

    /// The chain that takes the keys of the last chain in a merge; none where n = N.
    pub fn merge_target(&self) -> Option<u32> {
        if self.chains() == self.originals {
            None
        } else if self.next == 0 {
            Some(self.round() / 2 - 1)
        } else {
            Some(self.next - 1)
        }
    }

    /// The address space after the last chain is merged into the target given.
    pub fn after_merge(&self, target: u32) -> Self {
        let level = if self.next == 0 {
            self.level - 1
        } else {
            self.level
        };
        AddressSpace {
            level,
            next: target,
            ..*self
        }
    }
}
