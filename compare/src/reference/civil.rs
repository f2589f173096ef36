//! Paper 01, "Days, cycles and weekdays": civil dates, "Julian up to 4 October 1582 and Gregorian
//! from 15 October 1582". Days are found by walking from date to date, with no running sums; so are
//! those of the dates that libraries write (`iso`), which have the months and the step of these.

#[derive(Clone, Copy, PartialEq, Eq, Hash, Debug)]
pub struct Date {
    pub year: u32,
    pub month: u32,
    pub day: u32,
}

/// "Leap years are those divisible by 4, without the Gregorian centuries not divisible by 400."
pub fn gregorian_leap(year: u32) -> bool {
    let left_out = year % 100 == 0 && year % 400 != 0;
    year % 4 == 0 && !left_out
}

/// The February of 1582 was still Julian, that of 1583 Gregorian.
fn leap(year: u32) -> bool {
    if year >= 1583 {
        gregorian_leap(year)
    } else {
        year % 4 == 0
    }
}

/// The number of a month's last day; 0 where there is no such month.
pub fn last_of_month(leap: bool, month: u32) -> u32 {
    match month {
        1 | 3 | 5 | 7 | 8 | 10 | 12 => 31,
        4 | 6 | 9 | 11 => 30,
        2 if leap => 29,
        2 => 28,
        _ => 0,
    }
}

impl Date {
    /// "Day 0 is 19 March 1520 in the Julian calendar."
    pub const EPOCH: Date = Date {
        year: 1520,
        month: 3,
        day: 19,
    };

    const LAST_JULIAN: Date = Date {
        year: 1582,
        month: 10,
        day: 4,
    };
    const FIRST_GREGORIAN: Date = Date {
        year: 1582,
        month: 10,
        day: 15,
    };

    /// "Refusals by number", 1: "no such civil date, 5 to 14 October 1582 included".
    pub fn exists(self) -> bool {
        let lost = self.year == 1582 && self.month == 10 && self.day >= 5 && self.day <= 14;
        self.day >= 1 && self.day <= last_of_month(leap(self.year), self.month) && !lost
    }

    /// The date after one that exists.
    pub fn next(self) -> Date {
        if self == Date::LAST_JULIAN {
            Date::FIRST_GREGORIAN
        } else {
            self.stepped(leap(self.year))
        }
    }

    /// The date after one that exists, in a year that is a leap year or isn't, and of which no days are
    /// lost.
    pub fn stepped(self, leap: bool) -> Date {
        if self.day < last_of_month(leap, self.month) {
            Date {
                day: self.day + 1,
                ..self
            }
        } else if self.month < 12 {
            Date {
                month: self.month + 1,
                day: 1,
                ..self
            }
        } else {
            Date {
                year: self.year + 1,
                month: 1,
                day: 1,
            }
        }
    }
}
