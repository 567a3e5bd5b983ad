//! Wrong versions of 02, b: the energy amount, and what 11 tests of it. Washups stay right.

use crate::selftest::mutants::{adding, testing, wrong, Wrong};
use reckoning::rules::addition::{added, Addition};
use reckoning::rules::codec::{Entry, ENERGY};

/// The parts of a cent, and how many of them are a half.
const PARTS: u128 = 100_000;
const HALF: u128 = 50_000;

/// Gives the whole cents of so many parts.
pub(crate) type Rounding = fn(u128) -> u128;

/// The energy amount of a quantity at a price, rounded so.
pub(crate) fn energy_by(rounding: Rounding, quantity: u32, price: u32) -> u128 {
    rounding(u128::from(quantity) * u128::from(price) * 115)
}

/// What an entry adds, where energy is rounded so.
fn by(entry: &Entry, rounding: Rounding) -> Option<Addition> {
    let right = added(entry)?;
    Some(match entry.kind {
        ENERGY => Addition { cents: energy_by(rounding, entry.quantity, entry.price), ..right },
        _ => right,
    })
}

/// Whole cents, and one more on a condition: whether they are odd, and the parts that are left.
fn up_where(parts: u128, up: impl Fn(bool, u128) -> bool) -> u128 {
    let (whole, rest) = (parts / PARTS, parts % PARTS);
    whole + u128::from(up(whole % 2 == 1, rest))
}

/// As before 02, b.
pub(crate) fn half_up(parts: u128) -> u128 {
    up_where(parts, |_, rest| rest >= HALF)
}

fn half_down(parts: u128) -> u128 {
    up_where(parts, |_, rest| rest > HALF)
}

fn half_to_odd(parts: u128) -> u128 {
    up_where(parts, |odd, rest| rest > HALF || (rest == HALF && !odd))
}

/// "All else rounds to the nearest": all else to the even neighbour too.
fn always_to_even(parts: u128) -> u128 {
    up_where(parts, |odd, rest| odd && rest > 0)
}

/// "An exact half": also what is a half once it is rounded to hundredths of a cent, as 0.49885 is.
fn hundredths_first(parts: u128) -> u128 {
    up_where(parts, |odd, rest| {
        let hundredths = (rest + 500) / 1_000;
        hundredths > 50 || (hundredths == 50 && odd)
    })
}

fn nearest(parts: u128) -> u128 {
    up_where(parts, |odd, rest| rest > HALF || (rest == HALF && odd))
}

/// The amount without GST and the GST of 15 % are each rounded.
fn gst_apart(parts: u128) -> u128 {
    nearest(parts / 115 * 100) + nearest(parts / 115 * 15)
}

/// "Products are exact before division, though they pass 64 bits" (01).
fn quotient_of_f64(parts: u128) -> u128 {
    (parts as f64 / PARTS as f64).round_ties_even() as u128
}

fn half_up_on_side_1(entry: &Entry) -> Option<Addition> {
    by(entry, if entry.side == 1 { half_up } else { nearest })
}

pub const WRONG: [Wrong; 10] = [
    wrong("a half up", |m| adding(m, |entry| by(entry, half_up))),
    wrong("a half down", |m| adding(m, |entry| by(entry, half_down))),
    wrong("a half to the odd cent", |m| adding(m, |entry| by(entry, half_to_odd))),
    wrong("always to the even cent", |m| adding(m, |entry| by(entry, always_to_even))),
    wrong("rounded to hundredths first", |m| adding(m, |entry| by(entry, hundredths_first))),
    wrong("the GST rounded apart", |m| adding(m, |entry| by(entry, gst_apart))),
    wrong("a quotient of f64", |m| adding(m, |entry| by(entry, quotient_of_f64))),
    wrong("a half up on side 1 alone", |m| adding(m, half_up_on_side_1)),
    wrong("11 on the cents with a half up", |m| testing(m, |entry| by(entry, half_up))),
    wrong("11 on the cents before they are rounded", |m| {
        testing(m, |entry| by(entry, |parts| parts.div_ceil(PARTS)))
    }),
];
