//! What the program `month` prints, whose form the papers leave open: a heading, and a line for each
//! of thirty days from the first on, with the numbers of its record (paper 02, L1) in edition 1. Input
//! and refusals are the day sheet's, and a month is refused as a whole, as a row is.

use super::almanac::Almanac;
use super::edition::Edition;
use super::records::{record, FIELDS};
use super::refusal::Answer;
use super::sheet::number_in;

/// "Thirty days in one call."
pub const DAYS: u32 = 30;

pub fn heading() -> String {
    FIELDS.join(" ") + "\n"
}

/// The line of a day; 2 for a number that is no day.
pub fn line(almanac: &Almanac, number: u32) -> Answer<String> {
    let numbers = record(almanac, Edition::First, number)?;
    Ok(numbers.map(|number| number.to_string()).join(" ") + "\n")
}

fn lines(almanac: &Almanac, first: u32) -> Answer<String> {
    let days = first..first + DAYS;
    let lines: Answer<String> = days.map(|number| line(almanac, number)).collect();
    Ok(heading() + &lines?)
}

/// All that the program prints for an input.
pub fn month(almanac: &Almanac, input: &[u8]) -> String {
    let month = number_in(input).and_then(|first| lines(almanac, first));
    month.unwrap_or_else(|refusal| format!("refused {refusal}\n"))
}
