//! Paper 01, "Days, cycles and weekdays": cycles, days within them, weekdays.

use super::refusal::{Answer, OUT_OF_RANGE};

/// "Days run from 0 to 401,599."
pub const LAST_DAY: u32 = 401_599;

/// "A from 0 to 4015 and C from 0 to 99."
pub const LAST_WITHIN: u32 = 4015;
pub const LAST_CYCLE: u32 = 99;

/// Cycle C and day within it A.
#[derive(Clone, Copy, PartialEq, Eq, Debug)]
pub struct Pair {
    pub cycle: u32,
    pub within: u32,
}

impl Pair {
    /// Of day 0.
    pub const EPOCH: Pair = Pair {
        cycle: 0,
        within: 0,
    };

    fn in_range(self) -> bool {
        self.cycle <= LAST_CYCLE && self.within <= LAST_WITHIN
    }

    /// "Day = 4016 × C + A"; "a pair (C, A) outside its ranges" is refused with 2.
    pub fn day(self) -> Answer<u32> {
        if self.in_range() {
            Ok(4016 * self.cycle + self.within)
        } else {
            Err(OUT_OF_RANGE)
        }
    }

    /// "The step from one day to the next hands back the pair after it"; "a step past the last
    /// day" is refused with 2.
    pub fn next(self) -> Answer<Pair> {
        if !self.in_range() {
            Err(OUT_OF_RANGE)
        } else if self.within < LAST_WITHIN {
            Ok(Pair {
                cycle: self.cycle,
                within: self.within + 1,
            })
        } else if self.cycle < LAST_CYCLE {
            Ok(Pair {
                cycle: self.cycle + 1,
                within: 0,
            })
        } else {
            Err(OUT_OF_RANGE)
        }
    }
}

/// Day 0 is "a Monday", and weekdays go from "0 Monday to 6 Sunday".
pub const MONDAY: u32 = 0;

/// The weekday after one.
pub fn next_weekday(weekday: u32) -> u32 {
    if weekday == 6 {
        0
    } else {
        weekday + 1
    }
}
