//! Times of several things, taken in turns in one run. Of each the shortest time counts: whatever else runs on the machine can only add to it, and
//! it disturbs all of them alike.

use std::hint::black_box;
use std::time::{Duration, Instant};

/// How often a thing is timed.
#[derive(Clone, Copy, PartialEq)]
pub enum Effort {
    /// Once.
    Quick,
    /// At least `LEAST` times, then until `ENOUGH` is over.
    Full,
}

const LEAST: usize = 12;
const ENOUGH: Duration = Duration::from_millis(300);
/// The sides that are slow, and close to no goal, take their turn in one round of so many.
const SELDOM: usize = 4;

/// A side times itself at item i.
pub type Side<'a> = &'a mut dyn FnMut(usize) -> f64;

/// Nanoseconds of one call.
pub fn timed<T>(run: impl FnOnce() -> T) -> f64 {
    let begun = Instant::now();
    black_box(run());
    begun.elapsed().as_secs_f64() * 1e9
}

/// The sum over the items of the shortest times.
fn sums<const N: usize>(shortest: &[[f64; N]]) -> [f64; N] {
    std::array::from_fn(|side| shortest.iter().map(|times| times[side]).sum())
}

/// For each side the shortest time that it measures of itself at each item, in nanoseconds, summed up over the items. At each item the sides take
/// turns, another one first in each round.
pub fn best<const N: usize, const M: usize>(effort: Effort, items: usize, often: [Side; N], seldom: [Side; M]) -> ([f64; N], [f64; M]) {
    let (mut fast, mut slow) = (vec![[f64::MAX; N]; items], vec![[f64::MAX; M]; items]);
    let (mut rounds, begun) = (0, Instant::now());
    loop {
        for item in 0..items {
            for side in (0..N).map(|turn| (turn + rounds) % N) {
                fast[item][side] = fast[item][side].min(often[side](item));
            }
            for side in (0..M).filter(|_| rounds.is_multiple_of(SELDOM)) {
                slow[item][side] = slow[item][side].min(seldom[side](item));
            }
        }
        rounds += 1;
        if effort == Effort::Quick || (rounds >= LEAST && begun.elapsed() > ENOUGH) {
            return (sums(&fast), sums(&slow));
        }
    }
}
