//! P1, "Errors that pass today": what `find` and `why` say on standard error of a page that they accept
//! "where it is likely to be meant otherwise, one line each". The page's lines are gone over once more,
//! by their words as they were typed; each of them is known to be sound. Of an arc something is said only
//! where it is two angles; that the second may be meant for the end, not where it is (P3).

use super::almanac::Almanac;
use super::catalogue::dated;
use super::exact::reduced;
use super::page::{body, in_degrees, number, seconds, words, OTHERS};

const MINUTE: u32 = 60;
const CIRCLE: u32 = 1_296_000;
const TEN_DEGREES: u32 = 36_000;

/// "Nothing is asked" comes last.
const NOTHING: &str = "nothing is asked: every day of the span is listed\n";

/// "A span of two bare numbers between 1000 and 2619."
fn of_span(almanac: &Almanac, ends: &[&str]) -> Option<String> {
    let [first, last] = [number(ends[0])?, number(ends[1])?];
    let like_years = [first, last].map(|end| (1000..=2619).contains(&end));
    let dates = [first, last].map(|end| dated(almanac, end)).join(" to ");
    (like_years == [true, true])
        .then(|| format!("days {first} to {last}, {dates}; years are written {first}-1-1"))
}

/// An arc of two angles as it was typed: a start, and a width or, behind `to`, an end.
struct TwoAngles<'a> {
    start: &'a str,
    second: &'a str,
    by_end: bool,
}

/// An angle of two parts or three, or of one number.
fn angle(word: &str) -> u32 {
    let angle = seconds(word).or_else(|| seconds(&format!("{word}:0")));
    angle.expect("the line is sound")
}

impl TwoAngles<'_> {
    fn start(&self) -> u32 {
        angle(self.start)
    }

    /// An end that is as far as the start by whole circles is the circle's.
    fn width(&self) -> u32 {
        let second = angle(self.second);
        match self.by_end {
            false => second,
            true => match reduced(i128::from(second) - i128::from(self.start())) {
                0 => CIRCLE,
                width => width,
            },
        }
    }

    /// "An arc narrower than a minute given in bare numbers below 360."
    fn like_degrees(&self) -> Option<String> {
        let start = number(self.start)?;
        number(self.second)?;
        (start < 360 && self.width() < MINUTE).then(|| format!("; degrees are written {start}:0:0"))
    }

    /// "An arc from 10° on whose width is more than its start by at most 10°."
    fn like_an_end(&self) -> Option<String> {
        let (start, width) = (self.start(), self.width());
        let end = in_degrees(reduced(i128::from(start) + i128::from(width)));
        let like = start >= TEN_DEGREES && width > start && width - start <= TEN_DEGREES;
        (like && !self.by_end).then(|| format!(", up to {end}; the second value is the width"))
    }

    fn remark(&self, word: &str) -> Option<String> {
        let remark = self.like_degrees().or_else(|| self.like_an_end())?;
        let [from, wide] = [self.start(), self.width()].map(in_degrees);
        Some(format!("{word} from {from}, {wide} wide{remark}"))
    }
}

/// The arcs of a line that are two angles. A word without a digit in front is a sign.
fn two_angles<'a>(mut values: &[&'a str]) -> Vec<TwoAngles<'a>> {
    let mut arcs = Vec::new();
    while let [start, behind @ ..] = values {
        if !start.starts_with(|letter: char| letter.is_ascii_digit()) {
            values = behind;
            continue;
        }
        let by_end = behind[0].eq_ignore_ascii_case("to");
        let at = usize::from(by_end);
        arcs.push(TwoAngles {
            start,
            second: behind[at],
            by_end,
        });
        values = &behind[at + 1..];
    }
    arcs
}

/// All that is said of an accepted page whose first line has this number, each line with its newline.
pub fn remarks(almanac: &Almanac, page: &str, first_line: usize) -> String {
    let (mut said, mut nothing_asked) = (String::new(), true);
    for (line, at) in page.split('\n').zip(first_line..) {
        let words = words(line);
        let Some((word, values)) = words.split_first() else {
            continue;
        };
        let known = word.to_ascii_lowercase();
        nothing_asked &= OTHERS.contains(&&known[..]);
        let remarks = match &known[..] {
            "span" => Vec::from_iter(of_span(almanac, values)),
            known if body(known).is_some() => {
                let arcs = two_angles(values).into_iter();
                arcs.filter_map(|arc| arc.remark(word)).collect()
            }
            _ => Vec::new(),
        };
        for remark in remarks {
            said += &format!("line {at}: {remark}\n");
        }
    }
    if nothing_asked {
        said += NOTHING;
    }
    said
}
