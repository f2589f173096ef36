//! Paper 02, "L14. Leafing by lunar month": the month turns, found by testing every day of the table
//! once; rows of them, which are cut from that list whatever the steps by which they are extended; and
//! what the program `lunar_month` reads and prints, whose form the paper leaves open.

use std::ops::Range;

use super::almanac::Almanac;
use super::catalogue::named;
use super::days::LAST_DAY;
use super::edition::Edition;
use super::page::{end, letters, number, without_newline, words, End, TOO_LONG};
use super::refusal::{Answer, BAD_INPUT, LIST_TOO_SHORT, NO_SUCH_EDITION, OUT_OF_RANGE};

/// What a row has "beside" its list: "its edition, its number of turns and of days covered".
#[derive(Clone, Copy, PartialEq, Eq, Debug)]
pub struct Row {
    pub edition: u32,
    pub turns: u32,
    pub covered: u32,
}

/// A refusal, and the number that it gives: with 7 the turns for which the list is too short, else 0.
pub type Refused = (u32, u32);

/// What extending gives: the numbers of the row, and the turns that are added to its list.
#[derive(Clone, Copy, PartialEq, Eq, Debug)]
pub struct Extended<'a> {
    pub row: Row,
    pub added: &'a [u32],
}

/// A latest turn, and "how many turns there were up to it".
#[derive(Clone, Copy, PartialEq, Eq, Debug)]
pub struct Turn {
    pub start: u32,
    pub number: u32,
}

/// The turns among all days, earliest first, in each edition.
pub struct MonthStarts {
    first: Vec<u32>,
    second: Vec<u32>,
}

impl Row {
    /// "A new row covers day 0." Refused with 14.
    pub fn new(edition: u32) -> Answer<Row> {
        Edition::numbered(edition)?;
        Ok(Row {
            edition,
            turns: 0,
            covered: 1,
        })
    }

    /// "14, also for an edition other than the row's; 2, also for [...] a covered number outside 1 to
    /// 401,600": so for a row that is asked in an edition, its own where it is extended.
    fn well_formed(self, asked: u32) -> Answer<Edition> {
        let edition = Edition::numbered(self.edition)?;
        if self.edition != asked {
            return Err(NO_SUCH_EDITION);
        }
        if self.covered < 1 || self.covered > LAST_DAY + 1 {
            return Err(OUT_OF_RANGE);
        }
        Ok(edition)
    }

    /// "Then 7 when the lent row is too short for its turns, giving the stored number."
    fn fits(self, entries: usize) -> Result<(), Refused> {
        if self.turns as usize <= entries {
            Ok(())
        } else {
            Err((LIST_TOO_SHORT, self.turns))
        }
    }

    /// "For a covered day, give the latest turn at or before it": "the last entry by place not after
    /// the day, and that place from 1".
    pub fn turn_at(self, asked: u32, day: u32, list: &[u8]) -> Result<Option<Turn>, Refused> {
        self.well_formed(asked).map_err(|refusal| (refusal, 0))?;
        if day >= self.covered {
            return Err((OUT_OF_RANGE, 0));
        }
        self.fits(list.len() / 4)?;
        let entries = list.chunks_exact(4).take(self.turns as usize);
        let starts = entries.map(|entry| u32::from_le_bytes(entry.try_into().expect("four bytes")));
        let by_place = starts
            .zip(1..)
            .map(|(start, number)| Turn { start, number });
        Ok(by_place.filter(|turn| turn.start <= day).last())
    }
}

impl MonthStarts {
    /// "Each covered day whose tithi at sunrise is smaller than the day before's, day 0 not counted."
    pub fn of(almanac: &Almanac) -> MonthStarts {
        let in_edition = |edition| {
            let tithi = |number: u32| almanac.days()[number as usize].elements(edition).tithi;
            let days = 1..=LAST_DAY;
            days.filter(|day| tithi(*day) < tithi(day - 1)).collect()
        };
        MonthStarts {
            first: in_edition(Edition::First),
            second: in_edition(Edition::Second),
        }
    }

    /// All that there are.
    pub fn all(&self, edition: Edition) -> &[u32] {
        match edition {
            Edition::First => &self.first,
            Edition::Second => &self.second,
        }
    }

    /// Those among some days.
    pub fn among(&self, edition: Edition, days: Range<u32>) -> &[u32] {
        let all = self.all(edition);
        let before = |day: u32| all.partition_point(|start| *start < day);
        &all[before(days.start)..before(days.end)]
    }

    /// "Extending it by a day, or by many, gives the row that would be made afresh"; and of an altered
    /// row, "adds behind its turns". With 7 the number needed, but "the stored number if that alone is
    /// too many".
    pub fn extended(&self, row: Row, days: u32, entries: usize) -> Result<Extended<'_>, Refused> {
        let edition = row.well_formed(row.edition);
        let edition = edition.map_err(|refusal| (refusal, 0))?;
        let covered = u64::from(row.covered) + u64::from(days);
        if covered > u64::from(LAST_DAY) + 1 {
            return Err((OUT_OF_RANGE, 0));
        }
        let covered = covered as u32;
        row.fits(entries)?;
        let added = self.among(edition, row.covered..covered);
        let row = Row {
            turns: row.turns + added.len() as u32,
            covered,
            ..row
        };
        row.fits(entries)?;
        Ok(Extended { row, added })
    }
}

/// The day and the edition of an input: one line with a day as in a page's span, and an edition behind
/// it or none, which is 1. Refused in the order 3, 14, 1, 2.
fn asked_in(almanac: &Almanac, input: &[u8]) -> Answer<(u32, Edition)> {
    let text = letters(input);
    if text.split_inclusive('\n').count() > 1 || input.len() >= TOO_LONG {
        return Err(BAD_INPUT);
    }
    let line = without_newline(&text).map_err(|fault| fault.refusal())?;
    let (day, edition): (End, u32) = match words(line)[..] {
        [day] => (end(day).ok_or(BAD_INPUT)?, 1),
        [day, edition] => (
            end(day).ok_or(BAD_INPUT)?,
            number(edition).ok_or(BAD_INPUT)?,
        ),
        _ => return Err(BAD_INPUT),
    };
    let edition = Edition::numbered(edition)?;
    let day = day.day(almanac)?;
    almanac.day(day)?;
    Ok((day, edition))
}

const HEADING: &str = "day date turns turn date";

/// What stands behind the heading: "the day, its date, the number of turns up to it, the latest turn's
/// day and its date, or `- -` where there is none".
pub fn line(almanac: &Almanac, starts: &MonthStarts, input: &[u8]) -> Answer<String> {
    let (day, edition) = asked_in(almanac, input)?;
    let up_to = starts.among(edition, 0..day + 1);
    let latest = up_to.last().map(|start| named(almanac, *start));
    let latest = latest.unwrap_or("- -".to_string());
    let day = named(almanac, day);
    Ok(format!("{day} {} {latest}\n", up_to.len()))
}

/// All that the program prints for an input.
pub fn printed(almanac: &Almanac, starts: &MonthStarts, input: &[u8]) -> String {
    match line(almanac, starts, input) {
        Ok(line) => format!("{HEADING}\n{line}"),
        Err(refusal) => format!("refused {refusal}\n"),
    }
}
