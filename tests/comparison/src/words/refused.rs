//! Calls with sizes, lengths and party numbers that must be refused.

use super::comparison::Comparison;
use crate::callee::Call;
use crate::image::Image;
use crate::part::Outcome;
use crate::random::Random;
use crate::sizes::allowed;

/// Sizes of which one or more may be outside its limits, or at them.
fn any(random: &mut Random) -> [u32; 5] {
    let limits = [
        [0, 1, 2, 256, 257],
        [0, 1, 6, 7, 12],
        [0, 1, 256, 257, 9],
        [0, 1, 752, 753, 20],
        [0, 1, 16, 17, 3],
    ];
    let mut sizes = allowed(random);
    for (size, choices) in sizes.iter_mut().zip(limits) {
        if random.one_in(4) {
            *size = if random.one_in(8) {
                random.word()
            } else {
                random.pick(&choices)
            };
        }
    }
    sizes
}

/// Lengths for sizes, which need not be allowed; one or more may be wrong by a little.
fn memory(sizes: [u32; 5], random: &mut Random) -> Image {
    let [_, _, p, v, q] = sizes.map(|size| size.min(800) as usize);
    let mut lengths = [q, p + 1, 16 * (p + v + q), q];
    if random.one_in(2) {
        let place = random.below(4) as usize;
        let wrong = [
            lengths[place] + 1,
            lengths[place].saturating_sub(1),
            lengths[place] + 16,
            0,
        ];
        lengths[place] = random.pick(&wrong);
    }
    let [parties, locks, pages, row] = lengths;
    Image::zero(parties, locks, pages, row)
}

/// Calls on memory whose sizes and lengths are as likely wrong as right.
pub fn session(comparison: &mut Comparison, random: &mut Random) -> Outcome<()> {
    let sizes = any(random);
    let mut image = memory(sizes, random);
    for part in image.parts_mut() {
        let fill = if random.one_in(2) { random.word() } else { 0 };
        part.fill(fill);
    }
    comparison.lend(&image);
    comparison.call(Call::Format(sizes))?;
    calls(comparison, sizes, random)
}

/// Calls for parties that are there or not, idle or not, some with a size of the root record altered.
fn calls(comparison: &mut Comparison, sizes: [u32; 5], random: &mut Random) -> Outcome<()> {
    for _ in 0..random.between(1, 12) {
        let choices = [
            0,
            sizes[4].wrapping_sub(1),
            sizes[4],
            random.below(17),
            u32::MAX,
        ];
        let party = random.pick(&choices);
        let call = match random.below(9) {
            0 => Call::Format(any(random)),
            1..=3 => Call::Begin(party, random.below(5), random.word(), random.word()),
            4 => Call::Withdraw(party),
            5 => Call::TakeUp,
            _ => Call::Step(party),
        };
        comparison.call(call)?;
        if random.one_in(6) {
            let mut image = comparison.memory().clone();
            let place = random.below(5) as usize;
            image.root[place] = any(random)[random.below(5) as usize];
            comparison.lend(&image);
        }
    }
    Ok(())
}
