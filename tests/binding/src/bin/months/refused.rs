//! Arguments that no month of 01 and 02 has: refused, and nothing is written.
//! Their neighbours at the limit are taken.

use crate::compare::Count;
use crate::refused_groups;
use binding::arguments::{row, Arguments, Rest, BEFORE, PLACES, TIER_PLACES};
use comparison::generate::months::{self, Month};
use reckoning::rules::book::MOST_TOTAL;

/// The last participant.
pub const LAST: usize = PLACES - 1;

/// Whether the notice, the settlement and the late receipt are refused.
type Refuse = [bool; 3];

pub const NONE: Refuse = [false; 3];
const ALL: Refuse = [true; 3];
pub const BUT_LATE: Refuse = [true, true, false];
pub const SETTLEMENT: Refuse = [false, true, false];
const LATE: Refuse = [false, false, true];

pub type Case = (&'static str, Arguments, Refuse);

/// A month of n participants, groups of one, in which money comes late, and the first and the last
/// have to pay.
fn some_month(n: usize) -> Month {
    let pays = |month: &Month, i: usize| month.notice.payable[i] > 0;
    let fits = |month: &Month| !month.late.is_empty() && pays(month, 0) && pays(month, n - 1);
    (0..).map(|seed| months::month_of(seed, n)).find(fits).expect("there are many")
}

/// A month's, with slices to write of just the 64 cells that are needed.
pub fn of_month(month: &Month) -> Arguments {
    let right = Arguments::of(month, Rest::Zero);
    right.but(|with| with.written.iter_mut().for_each(|cells| cells.truncate(PLACES)))
}

/// The cents of the first and the last participant on each side, and no others.
fn of_sides(right: &Arguments, of_by: [u64; 2], of_to: [u64; 2]) -> Arguments {
    right.but(|with| {
        let Arguments { by, to, received, claims, paid, .. } = with;
        for cells in [by, to, received, claims, paid] {
            cells.fill(0);
        }
        with.money = 0;
        [with.by[0], with.by[LAST]] = of_by;
        [with.to[0], with.to[TIER_PLACES - 1]] = of_to;
    })
}

fn numbers_and_lengths(right: &Arguments) -> Vec<Case> {
    vec![
        ("in order", right.clone(), NONE),
        ("n of 0", right.but(|with| with.n = 0), ALL),
        ("n of 65", right.but(|with| with.n = 65), ALL),
        ("n of 2^64 - 1", right.but(|with| with.n = usize::MAX), ALL),
        ("by of 63 cells", right.but(|with| with.by.truncate(63)), BUT_LATE),
        ("to of 319 cells", right.but(|with| with.to.truncate(319)), ALL),
        ("received of 63 cells", right.but(|with| with.received.truncate(63)), SETTLEMENT),
        ("claims of 63 cells", right.but(|with| with.claims.truncate(63)), LATE),
        ("paid of 63 cells", right.but(|with| with.paid.truncate(63)), LATE),
        ("a first slice of 63 cells", right.but(|with| with.written[0].truncate(63)), ALL),
        ("a second slice of 63 cells", right.but(|with| with.written[1].truncate(63)), BUT_LATE),
        ("a third slice of 63 cells", right.but(|with| with.written[2].truncate(63)), SETTLEMENT),
        ("no cells", right.but(|with| with.written = [vec![], vec![], vec![]]), ALL),
    ]
}

fn bounds(right: &Arguments) -> Vec<Case> {
    let most = MOST_TOTAL as u64;
    let (bound, above) = ([1, most - 1], [1, most]);
    let unpaid = right.but(|with| with.received.fill(0));
    let sides = |by, to| of_sides(right, by, to);
    vec![
        ("no cents", sides([0; 2], [0; 2]), NONE),
        ("sides at the bound", sides(bound, bound), NONE),
        ("sides above the bound", sides(above, above), ALL),
        ("by above the bound", sides(above, bound), BUT_LATE),
        ("to above the bound", sides(bound, above), ALL),
        ("by that wraps to as much", sides([u64::MAX, 1], [0; 2]), BUT_LATE),
        ("to that wraps to as much", sides([0; 2], [u64::MAX, 1]), ALL),
        ("nothing received", unpaid.clone(), NONE),
        ("by of a cent more", unpaid.but(|with| with.by[0] += 1), BUT_LATE),
        ("to of a cent more", unpaid.but(|with| with.to[0] += 1), BUT_LATE),
    ]
}

fn receipts(month: &Month, right: &Arguments) -> Vec<Case> {
    let payable = row(&month.notice.payable, Rest::Zero);
    let all = right.but(|with| with.received.clone_from(&payable));
    vec![
        ("all payable received", all.clone(), NONE),
        ("a cent above payable, first", all.but(|with| with.received[0] += 1), SETTLEMENT),
        ("a cent above payable, last", all.but(|with| with.received[LAST] += 1), SETTLEMENT),
        ("received of 2^64 - 1", right.but(|with| with.received[0] = u64::MAX), SETTLEMENT),
    ]
}

fn late(month: &Month, right: &Arguments) -> Vec<Case> {
    let owing: Vec<u128> = (0..PLACES).map(|i| month.sums.owing_to(i)).collect();
    let owing = row(&owing, Rest::Zero);
    let unpaid = right.claims.iter().sum::<u64>() - right.paid.iter().sum::<u64>();
    let all_claimed = right.but(|with| with.claims.clone_from(&owing));
    let all_paid = right.but(|with| {
        with.paid.clone_from(&with.claims);
        with.money = 0;
    });
    vec![
        ("all owing claimed", all_claimed.clone(), NONE),
        ("a cent above owing, first", all_claimed.but(|with| with.claims[0] += 1), LATE),
        ("a cent above owing, last", all_claimed.but(|with| with.claims[LAST] += 1), LATE),
        ("all claims paid", all_paid.clone(), NONE),
        ("a cent above the claim, first", all_paid.but(|with| with.paid[0] += 1), LATE),
        ("a cent above the claim, last", all_paid.but(|with| with.paid[LAST] += 1), LATE),
        ("a cent for claims all paid", all_paid.but(|with| with.money = 1), LATE),
        ("all unpaid claims met", right.but(|with| with.money = unpaid), NONE),
        ("a cent above the unpaid claims", right.but(|with| with.money = unpaid + 1), LATE),
        ("money of 2^64 - 1", right.but(|with| with.money = u64::MAX), LATE),
    ]
}

/// Puts an export, and says whether it takes the arguments.
type Take = fn(&mut Arguments) -> bool;

impl Count {
    /// Whether each export takes the arguments, and whether it writes.
    fn answers(&mut self, (name, with, refuse): &Case) {
        let [notice, settlement, late] = *refuse;
        let exports: [(&str, bool, Take); 4] = [
            ("notice", notice, Arguments::notice),
            ("scaled", settlement, Arguments::scaled),
            ("settle", settlement, |with| with.settle() <= PLACES as u64),
            ("late", late, Arguments::late),
        ];
        for (export, refused, take) in exports {
            let mut with = with.clone();
            let taken = take(&mut with);
            let wrote = with.written.iter().flatten().any(|&cell| cell != BEFORE);
            self.number(&format!("{name}: {export} taken"), (!refused).into(), taken.into());
            self.number(&format!("{name}: {export} wrote"), (!refused).into(), wrote.into());
        }
    }

    /// All refusals; how many sets of arguments were put to the exports.
    pub fn refusals(&mut self) -> u64 {
        let month = some_month(PLACES);
        let (right, of_63) = (of_month(&month), of_month(&some_month(LAST)));
        let cases = [
            numbers_and_lengths(&right),
            bounds(&right),
            receipts(&month, &right),
            late(&month, &right),
            refused_groups::groups(&right, &of_63),
            refused_groups::reserves(&right),
            refused_groups::receipts(),
        ]
        .concat();
        cases.iter().for_each(|case| self.answers(case));
        cases.len() as u64
    }
}
