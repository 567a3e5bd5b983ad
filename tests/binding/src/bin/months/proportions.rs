//! Proportions through the library and on u128, in order and not.

use crate::compare::Count;
use binding::exports;
use comparison::generate::random::Random;
use reckoning::rules::codec::MOST_CENTS;

/// Random triples of each of the three kinds.
const TRIPLES: u64 = 200_000;
/// Amounts and divisors below this are in order.
const LIMIT: u64 = 1 << 44;
/// About these, triples are put in every combination: 0, the bounds, and where digits end.
const EDGES: [u64; 7] = [0, 1 << 15, 1 << 30, MOST_CENTS, LIMIT, 1 << 59, u64::MAX];

fn reckoned(amount: u64, part: u64, whole: u64) -> u64 {
    let in_order = whole > 0 && part <= whole && whole < LIMIT && amount < LIMIT;
    if !in_order {
        return u64::MAX;
    }
    let quotient = u128::from(amount) * u128::from(part) / u128::from(whole);
    quotient.try_into().expect("at most the amount")
}

/// A number of at most so many bits, and of every number of them as often.
fn of_bits(random: &mut Random, most: u64) -> u64 {
    random.any() >> (64 - random.between(1, most))
}

/// Three numbers: in order and large, in order and of all sizes, or of any size.
fn any_triple(random: &mut Random, kind: u64) -> [u64; 3] {
    let [amount, part, whole] = match kind {
        0 => [(); 3].map(|()| random.below(LIMIT)),
        1 => [(); 3].map(|()| of_bits(random, 44)),
        _ => return [(); 3].map(|()| of_bits(random, 64)),
    };
    let whole = whole.max(1);
    [amount, part % (whole + 1), whole]
}

impl Count {
    fn proportion(&mut self, [amount, part, whole]: [u64; 3]) {
        let (wanted, found) =
            (reckoned(amount, part, whole), exports::proportion(amount, part, whole));
        // A name is made for a difference alone: there are many triples.
        if wanted != found {
            self.number(&format!("proportion {amount} {part} {whole}"), wanted, found);
        }
    }

    /// How many triples were put to the export.
    pub fn proportions(&mut self) -> u64 {
        let near = |edge: u64| [edge.saturating_sub(1), edge, edge.saturating_add(1)];
        let edges: Vec<u64> = EDGES.into_iter().flat_map(near).collect();
        let mut count = 0;
        for &amount in &edges {
            for &part in &edges {
                edges.iter().for_each(|&whole| self.proportion([amount, part, whole]));
                count += edges.len() as u64;
            }
        }
        let mut random = Random::new(44);
        for turn in 0..3 * TRIPLES {
            let triple = any_triple(&mut random, turn % 3);
            self.proportion(triple);
        }
        count + 3 * TRIPLES
    }
}
