//! Boards by a fixed rule, to measure the table over: the same for everyone.

use crate::word::{
    Words, EXPULSIONS, FINISHED, FRESH, GOALS, IN_PLAY, NUMBER, REPORTER, SCHEDULED, STATE, YELLOWS,
};

/// Numbers by a linear congruence modulo two to the power of 64, with the factor and the summand that Knuth gives for MMIX; of each state
/// the upper half is used.
struct Numbers {
    state: u64,
}

impl Numbers {
    const FACTOR: u64 = 6_364_136_223_846_793_005;
    const SUMMAND: u64 = 1_442_695_040_888_963_407;

    /// A number below a bound.
    fn below(&mut self, bound: u64) -> u64 {
        self.state = self
            .state
            .wrapping_mul(Numbers::FACTOR)
            .wrapping_add(Numbers::SUMMAND);
        ((self.state >> 32) * bound) >> 32
    }
}

/// The kinds of boards: 1,000 of each are measured. Of the last there are 20,000, which are compared only: among them are boards that
/// come to the late criteria, as wins and away wins.
#[derive(Clone, Copy, PartialEq, Eq)]
pub enum Sample {
    /// Each match has a state of its own.
    Mixed,
    /// The first matches are finished, and the next two in play.
    Evening,
    /// All matches are finished.
    Finished,
    /// All matches are finished, without a goal.
    Goalless,
    /// No match has begun.
    Fresh,
    /// Each match has a state of its own, with a goal a side at most and no card.
    Narrow,
}

impl Sample {
    pub const ALL: [(&'static str, Sample); 6] = [
        ("mixed", Sample::Mixed),
        ("evening", Sample::Evening),
        ("finished", Sample::Finished),
        ("goalless", Sample::Goalless),
        ("fresh", Sample::Fresh),
        ("narrow", Sample::Narrow),
    ];

    /// The boards of this kind.
    pub fn boards(self) -> Vec<Words> {
        let mut numbers = Numbers { state: self as u64 };
        let count = if self == Sample::Narrow {
            20_000
        } else {
            1_000
        };
        (0..count).map(|_| self.board(&mut numbers)).collect()
    }

    /// The next board: first how many matches are finished of an evening, and then match by match the state, and the match.
    fn board(self, numbers: &mut Numbers) -> Words {
        let ended = if self == Sample::Evening {
            numbers.below(11)
        } else {
            0
        };
        std::array::from_fn(|index| {
            let state = match self {
                Sample::Mixed | Sample::Narrow => numbers.below(3),
                Sample::Evening if (index as u64) < ended => FINISHED,
                Sample::Evening if (index as u64) < ended + 2 => IN_PLAY,
                Sample::Finished | Sample::Goalless => FINISHED,
                Sample::Evening | Sample::Fresh => SCHEDULED,
            };
            if state == SCHEDULED {
                FRESH
            } else {
                self.begun(numbers, state)
            }
        })
    }

    /// The word of a match that has begun, with as many events as lead to it: a kick-off, each goal and card, and full time. Where a kind
    /// says nothing else, goals are 0 to 3 a side and yellows 0 to 4, and in one of eight a side has a player sent off.
    fn begun(self, numbers: &mut Numbers, state: u64) -> u64 {
        let (goals_below, has_cards) = match self {
            Sample::Goalless => (1, true),
            Sample::Narrow => (2, false),
            _ => (4, true),
        };
        let mut word = FRESH + STATE.place(state);
        let mut events = state;
        for side in 0..2 {
            let goals = numbers.below(goals_below);
            let (yellows, expulsions) = if has_cards {
                (numbers.below(5), u64::from(numbers.below(8) == 0))
            } else {
                (0, 0)
            };
            word += GOALS[side].place(goals)
                + YELLOWS[side].place(yellows)
                + EXPULSIONS[side].place(expulsions);
            events += goals + yellows + expulsions;
        }
        word + NUMBER.place(events) + REPORTER.place(1)
    }
}
