//! P4: the program `day`, whose line, lines and messages are in the words of docs/day.md: a day by its number,
//! its civil date, its ISO date or a Saka date, an edition behind it, and all that there is of that day.

use super::almanac::{Almanac, Day};
use super::catalogue::{dated, named};
use super::civil::Date;
use super::edition::Edition;
use super::forms::{words_of_line, Forms};
use super::iso::{Form, IsoDates};
use super::month_starts::MonthStarts;
use super::names::spells;
use super::page::{end, in_degrees, letters, three_numbers, End, Printed, BODIES, SETS};
use super::places::TRUE;
use super::refusal::{
    Answer, BAD_INPUT, NO_SUCH_DATE, NO_SUCH_EDITION, OUT_OF_RANGE, WEEKDAY_DISAGREES,
};
use super::saka::SakaDate;
use super::saka_line::{self, taken};
use super::signs::SIGN;

const TAKES: &str =
    "day takes a number, a date as 1612-5-14, `iso 1612-05-14` or `saka 1534 1 14 monday`, and \
                     behind it `edition 1` or `edition 2` if one is asked for";
const ISO_TAKES: &str =
    "iso takes a date as 1612-05-14, and behind it `edition 1` or `edition 2` if one is asked for";
const SAKA_TAKES: &str =
    "saka takes a year, a month as 1 or vaishakha, a tithi as 14, shukla 15 or purnima, and a \
                          weekday; behind them `edition 1` or `edition 2`";
const NO_DAY: &str =
    "the days go from 0 to 401599, which is 2619-10-13, and Saka years from 1442 to 2541";
const NO_WEEKDAY: &str =
    "no day of this Saka date has this weekday; it is that of the reckoned day, the one before or \
                          the one after";
const NO_LINE: &str =
    "day takes one line under 512 KiB that is ended by a newline, as with the Enter key";

/// What is said of a refusal. With 3 it goes "by what the line began with: what `iso` takes, what `saka` takes, or
/// all forms".
fn refused(words: &[&[u8]], refusal: u32) -> Printed {
    let begins = |word: &str| words.first().is_some_and(|first| spells(first, word));
    let message = match refusal {
        BAD_INPUT if begins("iso") => ISO_TAKES,
        BAD_INPUT if begins("saka") => SAKA_TAKES,
        BAD_INPUT => TAKES,
        NO_SUCH_DATE => "there is no such date; a date is YEAR-MONTH-DAY, from 1520-3-19 on",
        NO_SUCH_EDITION => "there is no such edition; edition takes 1 or 2",
        OUT_OF_RANGE => NO_DAY,
        WEEKDAY_DISAGREES => NO_WEEKDAY,
        _ => unreachable!("a day's line has no other refusal"),
    };
    Printed::refused_with(refusal, message)
}

/// How a line names a day.
enum Name {
    End(End),
    Iso(Date),
    Saka(SakaDate),
}

impl Name {
    fn of(forms: &Forms, words: &[&[u8]]) -> Option<Name> {
        match words {
            [word] => end(&letters(word)).map(Name::End),
            [iso, date] if spells(iso, "iso") => {
                // In as many digits as one likes: "a person who types one digit means the same day".
                let [year, month, day] = three_numbers(&letters(date), '-')?;
                Some(Name::Iso(Date { year, month, day }))
            }
            [saka, date @ ..] if spells(saka, "saka") => {
                saka_line::date_in(forms, date).map(Name::Saka)
            }
            _ => None,
        }
    }

    /// "Months, tithis or a weekday of a Saka date out of range" are 3 and come first, the rest behind 14.
    fn in_range(&self) -> bool {
        match self {
            Name::Saka(date) => date.day() != Err(BAD_INPUT),
            _ => true,
        }
    }

    fn day(&self, almanac: &Almanac, edition: Edition) -> Answer<u32> {
        let day = match self {
            Name::End(end) => end.day(almanac)?,
            Name::Iso(date) => IsoDates::of_all_days().number_of(*date)?,
            Name::Saka(date) => taken(almanac, edition, *date)?,
        };
        almanac.day(day).map(|_| day)
    }
}

/// The day of a line and its edition, which is 1 where none stands behind. Refused in the order 3, 14, 1, 2, 4.
fn asked_in(almanac: &Almanac, words: &[&[u8]]) -> Answer<(u32, Edition)> {
    let forms = Forms::of_document();
    let (words, edition) = match words {
        [day @ .., word, edition] if spells(word, "edition") => {
            (day, forms.number(edition).ok_or(BAD_INPUT)?)
        }
        day => (day, 1),
    };
    let name = Name::of(forms, words).filter(Name::in_range);
    let name = name.ok_or(BAD_INPUT)?;
    let edition = Edition::numbered(edition)?;
    Ok((name.day(almanac, edition)?, edition))
}

/// The true place of a body, and none of the Moon's apogee and node.
fn true_place(day: &Day, body: usize, edition: Edition) -> Option<u32> {
    let number = TRUE[body];
    (number >= 9).then(|| day.place(number, edition))
}

/// The table of the nine bodies, by the width of their longest names and of the longest place.
fn bodies(day: &Day, edition: Edition) -> String {
    let signs = &Forms::of_document().names;
    let mut text = format!("{:7}  {:9}  {:9}  sign\n", "body", "mean", "true");
    for (body, word) in BODIES.iter().enumerate().take(9) {
        let mean = day.mean[body];
        let place = true_place(day, body, edition);
        let sign = signs.plain("sign", place.unwrap_or(mean) / SIGN);
        let place = place.map_or("-".to_string(), in_degrees);
        text += &format!("{word:7}  {:9}  {place:9}  {sign}\n", in_degrees(mean));
    }
    text
}

/// All lines of a day.
fn lines(almanac: &Almanac, starts: &MonthStarts, number: u32, edition: Edition) -> String {
    let day = &almanac.days()[number as usize];
    let iso = IsoDates::of_all_days().line(Form::Date, number);
    let mut text = format!("day {number}\ndate {}\n", dated(almanac, number));
    text += &format!("iso {}", iso.expect("a day of the table"));
    let limbs = SETS.into_iter().zip(day.numbers(edition));
    let mut limbs = limbs.map(|(set, own)| {
        let name = Forms::of_document().names.plain(set, own);
        format!("{set} {own} {name}\n")
    });
    text += &limbs.next().expect("the weekday comes first");
    text += &format!("cycle {} day {}\n", day.pair.cycle, day.pair.within);
    text += &format!("edition {}\n", edition.number());
    text.extend(limbs);
    let begun = starts.among(edition, 0..number + 1);
    let latest = begun.last().map(|start| named(almanac, *start));
    let latest = latest.unwrap_or("- -".to_string());
    text += &format!("lunar month {} began {latest}\n", begun.len());
    text + &bodies(day, edition)
}

/// All that the program writes for an input.
pub fn printed(almanac: &Almanac, starts: &MonthStarts, input: &[u8]) -> Printed {
    let Some(words) = words_of_line(input) else {
        return Printed::refused_with(BAD_INPUT, NO_LINE);
    };
    match asked_in(almanac, &words) {
        Ok((day, edition)) => {
            Printed::accepted(lines(almanac, starts, day, edition), String::new())
        }
        Err(refusal) => refused(&words, refusal),
    }
}
