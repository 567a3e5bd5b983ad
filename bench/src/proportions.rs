//! The exact proportion against u128, on triples within 01's limits.

use crate::batches::{timed, Times};
use binding::exports;
use comparison::generate::random::Random;
use reckoning::rules::codec::MOST_CENTS;
use std::hint::black_box;
use std::time::Duration;

const TRIPLES: usize = 1_000_000;
/// Calls of a batch, which is timed as a whole.
const BATCH: usize = 1_000;
/// How often all triples are gone through.
const PASSES: usize = 7;

/// amount, part and whole, part at most whole.
type Triple = [u64; 3];

/// A function of its own, so that both proportions are calls.
#[inline(never)]
extern "C" fn on_u128(amount: u64, part: u64, whole: u64) -> u64 {
    (u128::from(amount) * u128::from(part) / u128::from(whole)) as u64
}

fn uniform(random: &mut Random) -> Triple {
    let whole = random.between(1, MOST_CENTS);
    [random.between(1, MOST_CENTS), random.between(0, whole), whole]
}

/// From 1 to the most, of every number of bits as often.
fn of_any_size(random: &mut Random, most: u64) -> u64 {
    let bits = u64::from(most.ilog2());
    let least = 1 << random.between(0, bits);
    random.between(least, (2 * least - 1).min(most))
}

fn mixed(random: &mut Random) -> Triple {
    let whole = of_any_size(random, MOST_CENTS);
    [of_any_size(random, MOST_CENTS), of_any_size(random, whole), whole]
}

/// The time of a batch of calls, made alike for both.
#[inline(never)]
fn batch(triples: &[Triple], proportion: impl Fn(u64, u64, u64) -> u64) -> Duration {
    timed(|| {
        let mut sum = 0u64;
        for &[amount, part, whole] in triples {
            sum = sum.wrapping_add(proportion(amount, part, whole));
        }
        black_box(sum);
    })
}

fn compare(name: &str, triple: fn(&mut Random) -> Triple) {
    let mut random = Random::new(TRIPLES as u64);
    let triples: Vec<Triple> = (0..TRIPLES).map(|_| triple(&mut random)).collect();
    for &[amount, part, whole] in &triples {
        let (ours, theirs) =
            (exports::proportion(amount, part, whole), on_u128(amount, part, whole));
        assert_eq!(ours, theirs, "{amount} x {part} / {whole}");
    }
    let mut times = Times::default();
    for _ in 0..PASSES {
        for some in triples.chunks(BATCH) {
            times.take(
                || batch(some, exports::proportion),
                || batch(some, |a, p, w| on_u128(a, p, w)),
            );
        }
    }
    times.print(name, BATCH);
}

pub fn measure() {
    compare("proportion, uniform", uniform);
    compare("proportion, of mixed sizes", mixed);
}
