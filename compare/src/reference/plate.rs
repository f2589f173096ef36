//! What the program `engraving` prints of a day, whose form the papers leave open: a heading, and
//! for each body of paper 01's table its mean place in degrees, minutes, seconds and thirds (paper
//! 02, L2). Input and refusals are the day sheet's.

use super::almanac::{Almanac, Day};
use super::page::BODIES;
use super::refusal::Answer;
use super::sheet::number_in;

const HEADING: &str = "body degrees minutes seconds thirds";

/// A place's degrees, minutes, seconds and thirds: all in thirds first, and sixties taken out of
/// these.
fn in_sixtieths(seconds: u32, thirds: u32) -> [u32; 4] {
    let mut left = 60 * seconds + thirds;
    let [thirds, seconds, minutes] = [(); 3].map(|()| {
        let digit = left % 60;
        left /= 60;
        digit
    });
    [left, minutes, seconds, thirds]
}

/// The numbers of a day's plate.
pub fn numbers(day: &Day) -> [[u32; 4]; 9] {
    std::array::from_fn(|body| in_sixtieths(day.mean[body], day.thirds[body]))
}

fn lines(almanac: &Almanac, number: u32) -> Answer<String> {
    let mut text = format!("{HEADING}\n");
    for (body, numbers) in BODIES.iter().zip(numbers(almanac.day(number)?)) {
        let [degrees, minutes, seconds, thirds] = numbers;
        text += &format!("{body} {degrees} {minutes} {seconds} {thirds}\n");
    }
    Ok(text)
}

/// All that the program prints for an input.
pub fn plate(almanac: &Almanac, input: &[u8]) -> String {
    let plate = number_in(input).and_then(|number| lines(almanac, number));
    plate.unwrap_or_else(|refusal| format!("refused {refusal}\n"))
}
