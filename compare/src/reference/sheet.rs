//! Paper 01, "What the table reckons": the day sheet, which "stays edition 1" (paper 02, L8).

use super::almanac::Almanac;
use super::edition::Edition;
use super::panchanga::Elements;
use super::refusal::{Answer, BAD_INPUT};

const HEADING: &str = "day cycle within weekday sun moon tithi nakshatra yoga karana";

/// The number of an input that is "1 to 6 decimal digits and one newline"; 3 for any other.
pub fn number_in(input: &[u8]) -> Answer<u32> {
    let digits = input.strip_suffix(b"\n").ok_or(BAD_INPUT)?;
    let all_digits = digits.iter().all(u8::is_ascii_digit);
    if !all_digits || digits.is_empty() || digits.len() > 6 {
        return Err(BAD_INPUT);
    }
    Ok(digits
        .iter()
        .fold(0, |number, digit| 10 * number + u32::from(digit - b'0')))
}

/// The heading and the day's line: "Sun and Moon are true places and no number has leading zeros".
fn lines(almanac: &Almanac, number: u32) -> Answer<String> {
    let day = almanac.day(number)?;
    let Elements {
        sun,
        moon,
        tithi,
        nakshatra,
        yoga,
        karana,
    } = *day.elements(Edition::First);
    let numbers = [
        number,
        day.pair.cycle,
        day.pair.within,
        day.weekday,
        sun,
        moon,
        tithi,
        nakshatra,
        yoga,
        karana,
    ];
    Ok(format!(
        "{HEADING}\n{}\n",
        numbers.map(|number| number.to_string()).join(" ")
    ))
}

/// All that the program prints for an input.
pub fn day_sheet(almanac: &Almanac, input: &[u8]) -> String {
    let sheet = number_in(input).and_then(|number| lines(almanac, number));
    sheet.unwrap_or_else(|refusal| format!("refused {refusal}\n"))
}
