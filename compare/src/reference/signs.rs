//! Paper 02, "L10. Twelve signs, none missed", and P2's "signs by the true Sun"; and what the program
//! `signs` prints, whose form the requests leave open: a heading, and a line for each entry into a
//! sign, with the sign that is entered.

use super::almanac::{Almanac, Day};
use super::catalogue::{named, WEEKDAYS};
use super::longitudes::SUN;
use super::places::Places;
use super::refusal::Answer;
use super::span::{span_and_word_in, well_formed, Span};

/// "A sign of 30°", in seconds of arc.
pub const SIGN: u32 = 30 * 3600;

/// P2: "the program `signs` takes the word `true` behind its two days".
pub const WORD: &str = "true";

/// The sign in which the Sun stands, the mean one or the true one, from 0 Meṣa to 11 Mīna.
pub fn sign(places: Places, day: &Day) -> u32 {
    let sun = places.of(day, SUN).expect("the Sun is a body");
    sun / SIGN
}

/// "Each day after the first of a span on which the mean Sun stands in another sign of 30° than the
/// day before", and by P2 "the true Sun": every day is tested. "Refusals: 2, 5"; 7 needs the list and
/// comes later.
pub fn entries(almanac: &Almanac, places: Places, span: Span) -> Answer<Vec<u32>> {
    well_formed(span)?;
    let sign_on = |number: u32| sign(places, &almanac.days()[number as usize]);
    let (first, last) = span;
    let entered = |number: &u32| sign_on(*number) != sign_on(*number - 1);
    Ok((first + 1..=last).filter(entered).collect())
}

const HEADING: &str = "day date weekday sign";

fn lines(almanac: &Almanac, places: Places, span: Span) -> Answer<String> {
    let mut text = format!("{HEADING}\n");
    for number in entries(almanac, places, span)? {
        let day = &almanac.days()[number as usize];
        let weekday = WEEKDAYS[day.weekday as usize];
        let entered = sign(places, day);
        text += &format!("{} {weekday} {entered}\n", named(almanac, number));
    }
    Ok(text)
}

/// All that the program prints for an input.
pub fn printed(almanac: &Almanac, input: &[u8]) -> String {
    let text = span_and_word_in(almanac, input, WORD).and_then(|(span, with_word)| {
        let places = if with_word {
            Places::True
        } else {
            Places::Mean
        };
        lines(almanac, places, span)
    });
    text.unwrap_or_else(|refusal| format!("refused {refusal}\n"))
}
