//! The limits of a book (02, f): how many participants it may be made for, and how many periods may
//! be in it at once.

/// The market's, which are also the most that a book can have.
pub const MOST_PARTICIPANTS: u64 = 64;
pub const MOST_PERIODS: u64 = 12;

#[derive(Clone, Copy, Debug, PartialEq, Eq)]
pub struct Limits {
    pub participants: u64,
    pub periods: u64,
}

pub const MARKET: Limits = Limits { participants: MOST_PARTICIPANTS, periods: MOST_PERIODS };
pub const DEMONSTRATION: Limits = Limits { participants: 8, periods: 3 };

impl Limits {
    /// Whether a book can have such limits.
    pub fn stand(&self) -> bool {
        (1..=MOST_PARTICIPANTS).contains(&self.participants)
            && (1..=MOST_PERIODS).contains(&self.periods)
    }

    /// Whether such a book can be made for n participants.
    pub fn take(&self, n: u64) -> bool {
        self.stand() && (1..=self.participants).contains(&n)
    }
}

#[cfg(test)]
mod tests {
    use super::*;

    #[test]
    fn limits_stand_from_1_to_the_markets() {
        let participants = [(0, false), (1, true), (8, true), (64, true), (65, false)];
        let periods = [(0, false), (1, true), (3, true), (12, true), (13, false)];
        for (participants, right) in participants.into_iter().chain([(u64::MAX, false)]) {
            for (periods, as_well) in periods.into_iter().chain([(u64::MAX, false)]) {
                let limits = Limits { participants, periods };
                assert_eq!(limits.stand(), right && as_well, "{limits:?}");
            }
        }
    }

    #[test]
    fn n_is_tested_against_the_participant_limit() {
        let taken = |limits: Limits| (0..=256).filter(|&n| limits.take(n)).collect::<Vec<u64>>();
        assert_eq!(taken(DEMONSTRATION), (1..=8).collect::<Vec<u64>>());
        assert_eq!(taken(MARKET), (1..=64).collect::<Vec<u64>>());
        assert_eq!(taken(Limits { participants: 1, periods: 12 }), [1]);
        assert_eq!(taken(Limits { participants: 65, periods: 12 }), []);
        assert_eq!(taken(Limits { participants: 64, periods: 13 }), []);
    }
}
