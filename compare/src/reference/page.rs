//! The page that the program `find` reads, and what it prints: a reading of paper 01 in words, a
//! condition on each line, and the edition that it names by paper 02's L8, with L9's sets of weekdays
//! and second arcs and P1's sets of limbs and arcs of true places.
//!
//! `#` starts a comment up to the line's end; space, tab, carriage return and, by P3, a comma separate
//! words. A line without words says nothing. Another line is a word and its values, and no word may stand twice:
//!
//! - `span FROM TO`: day numbers or dates YEAR-MONTH-DAY; without it, all days of the table;
//! - `edition`: a number; without it, 1;
//! - `weekday`: one to seven, each a number or its name, none twice;
//! - `tithi`, `nakshatra`, `yoga`, `karana`: one to thirty numbers, none twice;
//! - one of the nine bodies, or of the seven true places: an arc's start and width, each in seconds or
//!   as D:M:S, or two arcs';
//! - `print names` or `print csv`, by P3: how the days are listed, and no condition.
//!
//! It is read here as text, split into lines and words, and a line is asked for its refusal by
//! searching with what it says alone.

use std::collections::BTreeSet;

use super::almanac::Almanac;
use super::catalogue::WEEKDAYS;
use super::civil::Date;
use super::days::LAST_DAY;
use super::forms::Forms;
use super::refusal::{
    Answer, BAD_CONDITION, BAD_INPUT, LAST_BEFORE_FIRST, NO_SUCH_DATE, NO_SUCH_EDITION,
    OUT_OF_RANGE,
};
use super::search::{set_of, Arc, Arcs, Query, WEEKDAY};

/// A page of so many bytes, or more, is refused as a whole.
pub const TOO_LONG: usize = 524_288;

/// The refusals of lines. The page has the gravest of its lines': 14 is "before all others".
const GRAVEST_FIRST: [u32; 6] = [
    NO_SUCH_EDITION,
    BAD_INPUT,
    NO_SUCH_DATE,
    OUT_OF_RANGE,
    LAST_BEFORE_FIRST,
    BAD_CONDITION,
];

/// In the order of a query's sets.
pub const SETS: [&str; 5] = ["weekday", "tithi", "nakshatra", "yoga", "karana"];

/// In the order of paper 01's table of mean places, and of P1's true ones.
pub const BODIES: [&str; 16] = [
    "sun",
    "moon",
    "apogee",
    "node",
    "mars",
    "mercury",
    "jupiter",
    "venus",
    "saturn",
    "true_sun",
    "true_moon",
    "true_mars",
    "true_mercury",
    "true_jupiter",
    "true_venus",
    "true_saturn",
];

/// The words of lines that are no conditions.
pub const OTHERS: [&str; 3] = ["span", "edition", "print"];

const NO_SUCH_WORD: &str = "no line begins with this word";
const STANDS_ALREADY: &str = "this word stands already";
const NO_NEWLINE: &str = "the last line has no newline; end it with the Enter key";

/// A refusal, and each reason for it in docs/find.md that is true of the line.
pub struct Fault {
    refusal: u32,
    reasons: Vec<String>,
}

impl Fault {
    pub fn new(refusal: u32, reason: impl Into<String>) -> Fault {
        Fault {
            refusal,
            reasons: vec![reason.into()],
        }
    }

    pub fn refusal(&self) -> u32 {
        self.refusal
    }

    /// Of a day in the right form: its refusal says the reason.
    pub fn of_day(refusal: u32) -> Fault {
        Fault::new(refusal, reason(refusal))
    }

    /// Of a line of the right form: its refusal says the reason, and of a value out of range its word.
    fn of_values(word: &str, refusal: u32) -> Fault {
        match refusal {
            BAD_CONDITION => Fault::new(refusal, takes(word)),
            _ => Fault::of_day(refusal),
        }
    }
}

/// What standard error has to say.
pub enum Complaint {
    /// Just this, of an input that is accepted.
    Remarks(String),
    /// A line about the line of this number, counted from 1, that gives one of these reasons.
    OfLine(usize, Vec<String>),
    /// A line about the page as a whole.
    OfPage,
}

/// What the program has to write for a page.
pub struct Printed {
    pub output: String,
    pub complaint: Complaint,
}

/// An end of a span.
#[derive(Clone, Copy)]
pub enum End {
    Number(u32),
    Date(Date),
}

/// How the days that are found are listed (P3).
#[derive(Clone, Copy, PartialEq, Eq, Debug)]
pub enum Listing {
    Numbers,
    Names,
    Csv,
}

/// What an accepted page asks for.
#[derive(Debug)]
pub struct Page {
    pub query: Query,
    pub listing: Listing,
}

/// What a line of the right form says.
#[derive(Clone, Copy)]
enum Said {
    Span(End, End),
    Edition(u32),
    Print(Listing),
    /// Which set, and its number.
    Set(usize, u32),
    Arcs(usize, Arcs),
}

/// 1 to 9 decimal digits.
pub fn number(word: &str) -> Option<u32> {
    let of_digits = word.chars().all(|letter| letter.is_ascii_digit());
    let in_width = (1..=9).contains(&word.len());
    if of_digits && in_width {
        word.parse().ok()
    } else {
        None
    }
}

/// Three numbers joined by a letter.
fn three_numbers(word: &str, joint: char) -> Option<[u32; 3]> {
    let numbers: Option<Vec<u32>> = word.split(joint).map(number).collect();
    numbers?.try_into().ok()
}

pub fn end(word: &str) -> Option<End> {
    let date = || {
        let [year, month, day] = three_numbers(word, '-')?;
        Some(End::Date(Date { year, month, day }))
    };
    number(word).map(End::Number).or_else(date)
}

fn weekday(word: &str) -> Option<u32> {
    let named = || WEEKDAYS.iter().position(|name| *name == word);
    number(word).or_else(|| named().map(|weekday| weekday as u32))
}

/// "Each once": a number that is below `known` and stands twice makes it another form. One from there
/// on may stand twice, and is left to the search to refuse.
fn each_once(numbers: &[u32], known: u32) -> bool {
    let times = |number: u32| numbers.iter().filter(|other| **other == number).count();
    (0..known).all(|number| times(number) <= 1)
}

/// One to seven weekdays, or one to thirty numbers.
fn set_in(set: usize, values: &[&str]) -> Option<u32> {
    let (most, known, value): (usize, u32, fn(&str) -> Option<u32>) = match set {
        WEEKDAY => (7, 7, weekday),
        _ => (30, 31, number),
    };
    let numbers: Option<Vec<u32>> = values.iter().map(|word| value(word)).collect();
    let in_number = (1..=most).contains(&values.len());
    let numbers = numbers.filter(|numbers| in_number && each_once(numbers, known))?;
    Some(set_of(&numbers))
}

/// Seconds, or D:M:S with D below 1000, M and S below 60.
pub fn seconds(word: &str) -> Option<u32> {
    let in_degrees = || match three_numbers(word, ':')? {
        [d @ ..=999, m @ ..=59, s @ ..=59] => Some(3600 * d + 60 * m + s),
        _ => None,
    };
    number(word).or_else(in_degrees)
}

/// Degrees, minutes and seconds, as a page has them.
pub fn in_degrees(seconds: u32) -> String {
    let (minutes, seconds) = (seconds / 60, seconds % 60);
    format!("{}:{}:{seconds}", minutes / 60, minutes % 60)
}

/// A start and a width, or two of each.
fn arcs(values: &[&str]) -> Option<Arcs> {
    let numbers: Option<Vec<u32>> = values.iter().map(|value| seconds(value)).collect();
    match numbers?[..] {
        [start, width] => Some(Arcs::one(Arc::new(start, width))),
        [start, width, other_start, other_width] => Some(Arcs::two(
            Arc::new(start, width),
            Arc::new(other_start, other_width),
        )),
        _ => None,
    }
}

pub fn body(word: &str) -> Option<usize> {
    BODIES.iter().position(|name| *name == word)
}

fn set(word: &str) -> Option<usize> {
    SETS.iter().position(|name| *name == word)
}

pub fn words(line: &str) -> Vec<&str> {
    let before_comment = line.split('#').next().unwrap_or("");
    let pieces = before_comment.split([' ', '\t', '\r', ',']);
    pieces.filter(|word| !word.is_empty()).collect()
}

/// None for values of another form, and for what is no word.
fn said_by(word: &str, values: &[&str]) -> Option<Said> {
    Some(match (word, values, set(word)) {
        ("span", [from, to], _) => Said::Span(end(from)?, end(to)?),
        ("edition", [value], _) => Said::Edition(number(value)?),
        ("print", ["names"], _) => Said::Print(Listing::Names),
        ("print", ["csv"], _) => Said::Print(Listing::Csv),
        (_, _, Some(set)) => Said::Set(set, set_in(set, values)?),
        _ => Said::Arcs(body(word)?, arcs(values)?),
    })
}

fn is_word(word: &str) -> bool {
    OTHERS.contains(&word) || set(word).is_some() || body(word).is_some()
}

fn gravity(refusal: u32) -> usize {
    let place = GRAVEST_FIRST.iter().position(|other| *other == refusal);
    place.expect("a line has no other refusal")
}

impl End {
    /// Refused with 1 or 2 for a date. A day number is taken as it is.
    pub fn day(self, almanac: &Almanac) -> Answer<u32> {
        match self {
            End::Number(number) => Ok(number),
            End::Date(date) => almanac.number_of(date),
        }
    }
}

impl Page {
    /// Every day by its numbers.
    fn empty() -> Page {
        Page {
            query: Query::without_conditions(0, LAST_DAY),
            listing: Listing::Numbers,
        }
    }
}

impl Said {
    /// Refused with 1 or 2 for a span's dates; of two refusals the graver counts.
    fn put_into(self, page: &mut Page, almanac: &Almanac) -> Answer<()> {
        let query = &mut page.query;
        match self {
            Said::Span(from, to) => {
                let ends = [from.day(almanac), to.day(almanac)];
                let refusals = ends.iter().filter_map(|day| day.err());
                if let Some(graver) = refusals.min_by_key(|refusal| gravity(*refusal)) {
                    return Err(graver);
                }
                [query.first, query.last] = [ends[0]?, ends[1]?];
            }
            Said::Edition(value) => query.edition = value,
            Said::Print(listing) => page.listing = listing,
            Said::Set(at, set) => query.sets[at] = Some(set),
            Said::Arcs(body, arcs) => query.arcs[body] = arcs,
        }
        Ok(())
    }

    /// The refusal of a line that stands alone: 14, 1, 2, 5 or 6.
    fn well_formed(self, almanac: &Almanac) -> Answer<()> {
        let mut alone = Page::empty();
        self.put_into(&mut alone, almanac)?;
        alone.query.well_formed().map(drop)
    }
}

/// The reason for a refusal other than 3 and 6.
fn reason(refusal: u32) -> &'static str {
    match refusal {
        NO_SUCH_EDITION => "an edition other than 1 and 2",
        NO_SUCH_DATE => "there is no such date",
        OUT_OF_RANGE => "a day outside 0 to 401599",
        LAST_BEFORE_FIRST => "the last day is before the first",
        _ => unreachable!("3 and 6 name the line's word"),
    }
}

/// P3: "a message names the word and what it takes", in the words of docs/find.md.
fn takes(word: &str) -> String {
    let names = &Forms::of_document().names;
    let list = |list: &str| {
        let [first, last] = names.ends(list);
        let [from, to] = [first, last].map(|name| &name.spellings[0]);
        (
            format!("{from} to {to}"),
            format!("{} to {}", first.number, last.number),
        )
    };
    let what = match (word, set(word).map(|_| list(word))) {
        ("span", _) => "two days, each a date as 1612-5-14 or a number".to_string(),
        ("edition", _) => "1 or 2".to_string(),
        ("print", _) => "names or csv".to_string(),
        ("weekday", Some((names, numbers))) => format!("one to seven of {names} or {numbers}"),
        ("tithi", Some((names, numbers))) => {
            format!("one to thirty of {names}, of shukla or krishna with 1 to 15, or of {numbers}")
        }
        (_, Some((names, numbers))) => format!("one or more of {names} or {numbers}"),
        _ => format!(
            "one or two arcs: a start and a width, a start `to` an end, or a sign of {}",
            list("sign").0
        ),
    };
    format!("{word} takes {what}")
}

/// The reasons for refusing a line with 3, if there are any. `stood` are the words of the lines before it.
fn bad_input(word: &str, values: &[&str], stood: &BTreeSet<&str>) -> Option<Fault> {
    let mut reasons = Vec::new();
    if !is_word(word) {
        reasons.push(NO_SUCH_WORD.to_string());
    } else if said_by(word, values).is_none() {
        reasons.push(takes(word));
    }
    if stood.contains(word) {
        reasons.push(STANDS_ALREADY.to_string());
    }
    let refusal = BAD_INPUT;
    (!reasons.is_empty()).then_some(Fault { refusal, reasons })
}

/// A line up to its newline, which it has to have.
pub fn without_newline(line: &str) -> Result<&str, Fault> {
    let ended = line.strip_suffix('\n');
    ended.ok_or_else(|| Fault::new(BAD_INPUT, NO_NEWLINE))
}

/// Adds what a line says to the page, and gives the gravest of its faults, if it has any: the page is
/// then refused.
fn read_line<'a>(
    almanac: &Almanac,
    line: &'a str,
    stood: &mut BTreeSet<&'a str>,
    page: &mut Page,
) -> Result<(), Fault> {
    let line = without_newline(line)?;
    let words = words(line);
    let Some((word, values)) = words.split_first() else {
        return Ok(());
    };
    let mut faults = Vec::from_iter(bad_input(word, values, stood));
    if let Some(said) = said_by(word, values) {
        stood.insert(word);
        let alone = said.well_formed(almanac);
        if let Err(refusal) = alone.and_then(|()| said.put_into(page, almanac)) {
            faults.push(Fault::of_values(word, refusal));
        }
    }
    let gravest = faults
        .into_iter()
        .min_by_key(|fault| gravity(fault.refusal));
    gravest.map_or(Ok(()), Err)
}

/// A fault, and the number of the line that has it.
pub type FaultAt = (Fault, usize);

/// Of several that are equally grave, the first is taken.
pub fn gravest(faults: impl IntoIterator<Item = FaultAt>) -> Option<FaultAt> {
    let by_gravity = |(fault, _): &FaultAt| gravity(fault.refusal);
    faults.into_iter().min_by_key(by_gravity)
}

/// What a page without P3's forms asks for, or the gravest fault of its lines and the first line that has it.
pub fn read(almanac: &Almanac, text: &str) -> Result<Page, FaultAt> {
    let mut page = Page::empty();
    let mut stood = BTreeSet::new();
    let mut faults = Vec::new();
    for (line, number) in text.split_inclusive('\n').zip(1..) {
        if let Err(fault) = read_line(almanac, line, &mut stood, &mut page) {
            faults.push((fault, number));
        }
    }
    gravest(faults).map_or(Ok(page), Err)
}

impl Printed {
    pub fn accepted(output: String, remarks: String) -> Printed {
        Printed {
            output,
            complaint: Complaint::Remarks(remarks),
        }
    }

    fn refused(refusal: u32, complaint: Complaint) -> Printed {
        Printed {
            output: format!("refused {refusal}\n"),
            complaint,
        }
    }

    pub fn too_long() -> Printed {
        Printed::refused(BAD_INPUT, Complaint::OfPage)
    }

    pub fn at_fault((fault, line): FaultAt) -> Printed {
        Printed::refused(fault.refusal, Complaint::OfLine(line, fault.reasons))
    }
}

/// A letter for each byte: one that isn't ASCII is part of a word.
pub fn letters(page: &[u8]) -> String {
    page.iter().map(|byte| char::from(*byte)).collect()
}

/// All that the program writes for a page.
pub fn printed(almanac: &Almanac, page: &[u8]) -> Printed {
    Forms::of_document().find(almanac, page)
}
