//! P4: the program `saka`, whose line, lines and messages are in the words of docs/saka.md: a Saka date, and
//! the day that the rule has for it without the mark of an extra month still to come, and with it.

use super::almanac::Almanac;
use super::catalogue::{named, WEEKDAYS};
use super::edition::Edition;
use super::forms::{words_of_line, Forms};
use super::page::Printed;
use super::refusal::{Answer, BAD_INPUT, NO_EXTRA_MONTH, OUT_OF_RANGE, WEEKDAY_DISAGREES};
use super::saka::SakaDate;
use super::saka_line::{answers, date_in, Given};
use super::takes;

/// Why a rule has no day.
fn reason(refusal: u32) -> &'static str {
    match refusal {
        OUT_OF_RANGE => "a year outside 1442 to 2541 or a day outside 0 to 401599",
        WEEKDAY_DISAGREES => "none of the three days has this weekday",
        NO_EXTRA_MONTH => "no extra month is counted that may be to come",
        _ => unreachable!("the date's numbers are in range"),
    }
}

fn tithi(number: u32) -> String {
    let name = Forms::of_document().names.plain("tithi", number);
    format!("{number} {name}")
}

/// "The day, its civil date and weekday, its tithi at sunrise by edition 1 and the tithi that is asked for, and
/// `fits` or `does not fit`"; or the refusal.
fn answered(almanac: &Almanac, date: SakaDate, answer: Answer<Given>) -> String {
    let Given { day, fits } = match answer {
        Ok(given) => given,
        Err(refusal) => return format!("refused {refusal}, {}", reason(refusal)),
    };
    let own = &almanac.days()[day as usize];
    let weekday = WEEKDAYS[own.weekday as usize];
    let found = tithi(own.elements(Edition::First).tithi);
    let asked = tithi(date.tithis);
    let said = if fits { "fits" } else { "does not fit" };
    let day = named(almanac, day);
    format!("{day} {weekday}, tithi {found}, asked {asked}: {said}")
}

/// The two lines of a date; 3 for one "that is no date, or has a number that no date has".
fn lines(almanac: &Almanac, input: &[u8]) -> Answer<String> {
    let words = words_of_line(input).ok_or(BAD_INPUT)?;
    let date = date_in(Forms::of_document(), &words).ok_or(BAD_INPUT)?;
    if date.day() == Err(BAD_INPUT) {
        return Err(BAD_INPUT);
    }
    let [without, with] =
        answers(almanac, Edition::First, date).map(|answer| answered(almanac, date, answer));
    Ok(format!(
        "without the mark: {without}\nwith the mark: {with}\n"
    ))
}

/// All that the program writes for an input.
pub fn printed(almanac: &Almanac, input: &[u8]) -> Printed {
    takes::printed("saka", input, lines(almanac, input))
}
