//! Paper 02, "L11. Dates as libraries write them": "ISO 8601 dates, YYYY-MM-DD, which run in Gregorian
//! years even before 1582", found by walking from date to date; lines of them and of day numbers; and
//! the two programs that turn the one into the other.

use std::collections::HashMap;
use std::sync::OnceLock;

use super::civil::{gregorian_leap, last_of_month, Date};
use super::listing::in_digits;
use super::page::{letters, Fault, Printed};
use super::refusal::{Answer, LIST_TOO_SHORT, NO_SUCH_DATE, OTHER_FORM, OUT_OF_RANGE};

/// "The first day is 1520-03-29, the last 2619-10-13."
const FIRST: Date = Date {
    year: 1520,
    month: 3,
    day: 29,
};
const LAST: Date = Date {
    year: 2619,
    month: 10,
    day: 13,
};

/// "Up to 4,096 lines."
pub const MOST_LINES: usize = 4096;

/// What a line has: a date or a day's number.
#[derive(Clone, Copy, PartialEq, Eq, Debug)]
pub enum Form {
    Date,
    Day,
}

impl Form {
    /// Why a line is refused, in the words of docs/iso.md.
    fn fault(self, refusal: u32) -> Fault {
        match (refusal, self) {
            (OTHER_FORM, Form::Date) => {
                Fault::new(refusal, "no date as YYYY-MM-DD with its newline")
            }
            (OTHER_FORM, Form::Day) => {
                Fault::new(refusal, "no day of 1 to 6 digits with its newline")
            }
            (LIST_TOO_SHORT, _) => Fault::new(refusal, "more than 4096 lines"),
            _ => Fault::of_day(refusal),
        }
    }
}

/// The table's days by these dates, and the other way.
pub struct IsoDates {
    dates: Vec<Date>,
    number_of: HashMap<Date, u32>,
}

/// A word of so many digits, or more kinds of so many.
fn digits(word: &str, widths: impl Fn(usize) -> bool) -> Option<u32> {
    let of_digits = word.chars().all(|letter| letter.is_ascii_digit());
    if of_digits && widths(word.len()) {
        word.parse().ok()
    } else {
        None
    }
}

/// "YYYY-MM-DD."
fn date_in(line: &str) -> Option<Date> {
    let words: Vec<&str> = line.split('-').collect();
    let [year, month, day] = words[..] else {
        return None;
    };
    Some(Date {
        year: digits(year, |width| width == 4)?,
        month: digits(month, |width| width == 2)?,
        day: digits(day, |width| width == 2)?,
    })
}

impl IsoDates {
    /// Steps from the first date to the last.
    pub fn from_first() -> IsoDates {
        let mut dates = vec![FIRST];
        let mut date = FIRST;
        while date != LAST {
            date = date.stepped(gregorian_leap(date.year));
            dates.push(date);
        }
        let number_of = dates.iter().copied().zip(0..).collect();
        IsoDates { dates, number_of }
    }

    /// The same, made once.
    pub fn of_all_days() -> &'static IsoDates {
        static DATES: OnceLock<IsoDates> = OnceLock::new();
        DATES.get_or_init(IsoDates::from_first)
    }

    /// The dates of the table's days, by number.
    pub fn dates(&self) -> &[Date] {
        &self.dates
    }

    /// "1 by Gregorian rules with no lost days, then 2."
    pub fn number_of(&self, date: Date) -> Answer<u32> {
        let days = 1..=last_of_month(gregorian_leap(date.year), date.month);
        if !days.contains(&date.day) {
            return Err(NO_SUCH_DATE);
        }
        self.number_of.get(&date).copied().ok_or(OUT_OF_RANGE)
    }

    /// 2 for a number that is no day.
    pub fn date_of(&self, number: u32) -> Answer<Date> {
        self.dates.get(number as usize).copied().ok_or(OUT_OF_RANGE)
    }

    /// The day of a line, which "ends with a newline": "15 for a line of another form, then 1 [...],
    /// then 2". "A day's line is 1 to 6 digits."
    fn read_line(&self, form: Form, line: &str) -> Answer<u32> {
        let line = line.strip_suffix('\n').ok_or(OTHER_FORM)?;
        match form {
            Form::Date => self.number_of(date_in(line).ok_or(OTHER_FORM)?),
            Form::Day => {
                let number = digits(line, |width| (1..=6).contains(&width)).ok_or(OTHER_FORM)?;
                self.date_of(number).map(|_| number)
            }
        }
    }

    /// The line of a day; a number is "printed without leading zeros".
    pub fn line(&self, form: Form, number: u32) -> Answer<String> {
        let date = self.date_of(number)?;
        Ok(match form {
            Form::Date => in_digits(date) + "\n",
            Form::Day => format!("{number}\n"),
        })
    }

    /// The days of a text's lines, or the refusal of "the first bad line". "No lines is an empty list."
    pub fn read(&self, form: Form, text: &[u8]) -> Answer<Vec<u32>> {
        let text = letters(text);
        let lines = text.split_inclusive('\n');
        lines.map(|line| self.read_line(form, line)).collect()
    }

    /// The lines of a list of bytes, in which "a tail under four bytes is no place" (paper 01); 2 where
    /// an entry is no day.
    pub fn written(&self, form: Form, list: &[u8]) -> Answer<String> {
        let entries = list.chunks_exact(4);
        let days = entries.map(|entry| u32::from_le_bytes(entry.try_into().expect("four bytes")));
        days.map(|day| self.line(form, day)).collect()
    }

    /// All that the program writes that reads lines of one form and prints the other's. "Where more
    /// follows 4,096 good ones, that is 7, the rest unread"; "a refusal prints as on the day sheet".
    pub fn printed(&self, read: Form, text: &[u8]) -> Printed {
        let print = match read {
            Form::Date => Form::Day,
            Form::Day => Form::Date,
        };
        let text = letters(text);
        let mut output = String::new();
        for (line, number) in text.split_inclusive('\n').zip(1..) {
            let day = if number > MOST_LINES {
                Err(LIST_TOO_SHORT)
            } else {
                self.read_line(read, line)
            };
            match day {
                Ok(day) => output += &self.line(print, day).expect("a day that is read is a day"),
                Err(refusal) => return Printed::at_fault((read.fault(refusal), number)),
            }
        }
        Printed::accepted(output, String::new())
    }
}
