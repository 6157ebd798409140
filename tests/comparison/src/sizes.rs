//! Random sizes within the limits.

use crate::random::Random;

/// Sizes mostly small, so that splits, merges, shortages and waits are frequent.
pub fn allowed(random: &mut Random) -> [u32; 5] {
    let (b, p, v, q) = match random.below(20) {
        0..=9 => (
            random.between(1, 4),
            random.between(1, 8),
            random.between(0, 12),
            random.between(1, 4),
        ),
        10..=13 => (
            random.between(1, 6),
            random.between(2, 40),
            random.between(0, 60),
            random.between(1, 16),
        ),
        14..=18 => (
            random.between(1, 3),
            random.between(4, 32),
            random.between(4, 60),
            16,
        ),
        _ => (
            random.between(1, 6),
            random.between(1, 256),
            random.between(0, 752),
            random.between(1, 16),
        ),
    };
    let n = if random.one_in(2) {
        1
    } else {
        random.between(1, p.min(1 + p / 2))
    };
    [n, b, p, v, q]
}

/// Small sizes whose chains at most are the original ones doubled a few times.
pub fn doubled(random: &mut Random) -> [u32; 5] {
    let n = random.between(1, 4);
    let p = n << random.between(1, 4);
    let (b, v, q) = (
        random.between(1, 3),
        random.between(0, 30),
        random.between(1, 4),
    );
    [n, b, p, v, q]
}

/// N, b, P and V where at least one is at its limit.
const LARGEST: [[u32; 4]; 10] = [
    [1, 1, 256, 752],
    [1, 2, 256, 752],
    [1, 6, 256, 752],
    [3, 2, 256, 752],
    [5, 3, 256, 400],
    [100, 5, 200, 752],
    [128, 4, 256, 752],
    [255, 1, 256, 752],
    [256, 1, 256, 0],
    [256, 6, 256, 752],
];

/// The largest sizes by turns, with all parties.
pub fn largest(turn: u64) -> [u32; 5] {
    let [n, b, p, v] = LARGEST[turn as usize % LARGEST.len()];
    [n, b, p, v, 16]
}
