//! Paper 01, "The Saka lunar date", and paper 02, "L4. The month still to come".

use super::days::LAST_DAY;
use super::refusal::{Answer, BAD_INPUT, NO_EXTRA_MONTH, OUT_OF_RANGE, WEEKDAY_DISAGREES};

/// "Input: elapsed Saka year, lunar months elapsed (0 to 11), tithis elapsed (0 to 29), weekday."
/// And a mark for dates "where this year's extra month is still ahead".
#[derive(Clone, Copy, Debug)]
pub struct SakaDate {
    pub year: u32,
    pub months: u32,
    pub tithis: u32,
    pub weekday: u32,
    pub pending: bool,
}

impl SakaDate {
    /// The day, or a refusal in the order of "Refusals by number": "Saka 3, the year's 2, 4, the
    /// day's 2"; 8 is "after the year's 2 and before 4".
    pub fn day(self) -> Answer<u32> {
        if self.months > 11 || self.tithis > 29 || self.weekday > 6 {
            return Err(BAD_INPUT);
        }
        if self.year < 1442 || self.year > 2541 {
            return Err(OUT_OF_RANGE);
        }
        let reckoned = self.reckoned_day()?;
        // "Whichever of that day, the day before and the day after has the weekday given (day −1
        // counts as a Sunday)."
        let near = [reckoned, reckoned - 1, reckoned + 1];
        match near
            .into_iter()
            .find(|day| day.rem_euclid(7) == i64::from(self.weekday))
        {
            None => Err(WEEKDAY_DISAGREES),
            Some(day) if day < 0 || day > i64::from(LAST_DAY) => Err(OUT_OF_RANGE),
            Some(day) => Ok(day as u32),
        }
    }

    /// "The reckoned day is 4016C + A", of a year that isn't refused; the names are the papers'.
    pub fn reckoned_day(self) -> Answer<i64> {
        let y = i64::from(self.year) - 1442;
        let c = y / 11;
        let m = 12 * (y % 11) + i64::from(self.months);
        let tm = m + self.extra_months(m, c)?;
        let h = 30 * tm + i64::from(self.tithis) + c / 6;
        let a = h - h / 64;
        Ok(4016 * c + a)
    }

    /// "With the mark the quotient by 33 is lessened by one before TM is formed." Refused with 8:
    /// "mark set and quotient 0".
    fn extra_months(self, m: i64, c: i64) -> Answer<i64> {
        match (self.pending, (m + 2 * c + 10) / 33) {
            (false, quotient) => Ok(quotient),
            (true, 0) => Err(NO_EXTRA_MONTH),
            (true, quotient) => Ok(quotient - 1),
        }
    }
}
