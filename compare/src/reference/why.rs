//! What the program `why` reads and prints, which paper 02's L5 leaves open: a line with a day, a
//! number or a date as in a page's span, and behind it a page; and one line that says why the day isn't
//! in the page's list, or that it fits. The line with the day is one word. Its faults and the page's are
//! weighed together, and lines are counted from it.

use super::almanac::Almanac;
use super::catalogue::{named, WEEKDAYS};
use super::edition::Edition;
use super::forms::Forms;
use super::names::Names;
use super::page::{
    end, gravest, in_degrees, read, without_newline, words, Fault, Listing, Page, Printed, BODIES,
    SETS,
};
use super::reasons::{why, Asked, Reason, Why};
use super::refusal::BAD_INPUT;
use super::remarks::remarks;
use super::search::WEEKDAY;

/// The names by which elements are printed, where the page said `print names` (P3).
type Named<'a> = Option<&'a Names>;

/// A number of a set as it is printed: a weekday always by its name.
fn shown(named: Named, set: usize, number: u32) -> String {
    match named {
        Some(names) => names.plain(SETS[set], number).to_string(),
        None if set == WEEKDAY => WEEKDAYS[number as usize].to_string(),
        None => number.to_string(),
    }
}

/// What stands behind `does not fit: `.
fn explained(almanac: &Almanac, names: Named, Reason { asked, found, .. }: Reason) -> String {
    match asked {
        Asked::From(first) => format!("before the span asked from {}", named(almanac, first)),
        Asked::To(last) => format!("after the span asked to {}", named(almanac, last)),
        // "Monday first", and so the smallest number of other sets.
        Asked::Set(at, set) => {
            let standing = (0..32).filter(|number| set >> number & 1 == 1);
            let shown = |number: u32| shown(names, at, number);
            let asked: Vec<String> = standing.map(shown).collect();
            let (word, found) = (SETS[at], shown(found));
            format!("{word} asked {} found {found}", asked.join(" "))
        }
        Asked::Arcs(body, arcs) => {
            let values = arcs.given().flat_map(|arc| [arc.start, arc.width]);
            let asked: Vec<String> = values.map(in_degrees).collect();
            let (body, found) = (BODIES[body], in_degrees(found));
            format!("{body} asked {} found {found}", asked.join(" "))
        }
    }
}

/// The line of an answer. As a catalogue it names edition 2, at its end.
fn line(almanac: &Almanac, names: Named, day: u32, Why { edition, reason }: Why) -> String {
    let said = match reason {
        None => "fits".to_string(),
        Some(reason) => format!("does not fit: {}", explained(almanac, names, reason)),
    };
    let edition = match edition {
        Edition::First => "",
        Edition::Second => " edition 2",
    };
    format!("{} {said}{edition}\n", named(almanac, day))
}

/// What is said of a day's line that is none, by docs/why.md.
const NO_DAY: &str = "the day is a number, or a date as 1612-5-14";

/// The day of the first line.
fn day_in(almanac: &Almanac, line: &str) -> Result<u32, Fault> {
    let other_form = || Fault::new(BAD_INPUT, NO_DAY);
    let day = match words(without_newline(line)?)[..] {
        [word] => end(word).ok_or_else(other_form)?,
        _ => return Err(other_form()),
    };
    let number = day.day(almanac).map_err(Fault::of_day)?;
    almanac.day(number).map_err(Fault::of_day)?;
    Ok(number)
}

/// All that the program writes for a text.
pub fn printed(almanac: &Almanac, text: &[u8]) -> Printed {
    Forms::of_document().why(almanac, text)
}

/// All that the program writes for a day's line and a page, which is given without P3's forms and as it was
/// typed.
pub fn of_text(almanac: &Almanac, names: &Names, day: &str, [page, typed]: [&str; 2]) -> Printed {
    match (day_in(almanac, day), read(almanac, page)) {
        (Ok(day), Ok(Page { query, listing })) => {
            let why = why(almanac, &query, day).expect("all lines are well-formed");
            let names = (listing == Listing::Names).then_some(names);
            let remarks = remarks(almanac, typed, 2);
            Printed::accepted(line(almanac, names, day, why), remarks)
        }
        (day, page) => {
            let of_day = day.err().map(|fault| (fault, 1));
            let of_page = page.err().map(|(fault, line)| (fault, line + 1));
            let faults = of_day.into_iter().chain(of_page);
            Printed::at_fault(gravest(faults).expect("one of them is refused"))
        }
    }
}
