//! P3's forms of a page: names and signs for numbers, a tithi by its half of the month, an arc by its end,
//! angles without seconds, any letter case, commas, and a byte order mark in front. A text in these forms is
//! turned into one without them, line by line, and read as `page` and `why` read it. A line that can't be so
//! turned keeps its values, and is refused for them.

use std::sync::OnceLock;

use super::almanac::Almanac;
use super::listing;
use super::names::{spells, Name, Names};
use super::page::{
    in_degrees, letters, number, read, seconds, Page, Printed, BODIES, OTHERS, SETS, TOO_LONG,
};
use super::remarks::remarks;
use super::search::TITHI;
use super::why;

const BYTE_ORDER_MARK: &[u8] = b"\xEF\xBB\xBF";
const CIRCLE: u32 = 1_296_000;
const BLANKS: &[u8] = b" \t\r,";

/// A tithi that a half of the month hasn't: it "has a bit that no tithi has", and is refused with 6.
const NO_TITHI: u32 = 999;

/// The rules of the forms. Each that is easily had wrong is a field, so that a wrong one can be put in its
/// place.
#[derive(Clone)]
pub struct Forms {
    pub names: Names,
    pub spells: fn(&[u8], &str) -> bool,
    /// "`tithi shukla 5` [...] (the current one of the fortnight, 1 to 15)": so many fewer have elapsed.
    pub current: u32,
    /// How many seconds a sign has.
    pub sign: u32,
    /// How many seconds the end adds to an arc.
    pub end: u32,
    /// "Angles as `34:13` too": an angle of two parts as one of three.
    pub three_parts: fn(&str) -> String,
}

fn as_text(value: &[u8]) -> Option<&str> {
    std::str::from_utf8(value).ok()
}

fn words(line: &[u8]) -> Vec<&[u8]> {
    let before_comment = line.split(|byte| *byte == b'#').next().unwrap_or(b"");
    let pieces = before_comment.split(|byte| BLANKS.contains(byte));
    pieces.filter(|word| !word.is_empty()).collect()
}

/// "A byte order mark in front" is passed over: of a page, and of the day's line before it.
fn unmarked(text: &[u8]) -> &[u8] {
    text.strip_prefix(BYTE_ORDER_MARK).unwrap_or(text)
}

impl Forms {
    pub fn of(names: Names) -> Forms {
        Forms {
            names,
            spells,
            current: 1,
            sign: 108_000,
            end: 0,
            three_parts: |two| format!("{two}:0"),
        }
    }

    /// By the names of the document.
    pub fn of_document() -> &'static Forms {
        static FORMS: OnceLock<Forms> = OnceLock::new();
        FORMS.get_or_init(|| Forms::of(Names::in_document()))
    }

    fn number_in(&self, names: &[Name], word: &[u8]) -> Option<u32> {
        let spelled = |name: &&Name| name.spellings.iter().any(|one| (self.spells)(word, one));
        names.iter().find(spelled).map(|name| name.number)
    }

    /// The tithi of this number in its half of the month, as those elapsed.
    fn of_half(&self, half: u32, which: u32) -> u32 {
        match which {
            1..=15 => half + which - self.current,
            _ => NO_TITHI,
        }
    }

    /// The values of a set by numbers.
    fn set(&self, at: usize, mut values: &[&[u8]]) -> Option<Vec<String>> {
        let mut plain = Vec::new();
        while let [value, rest @ ..] = values {
            values = rest;
            let half = self.number_in(&self.names.halves, value);
            if let Some(half) = half.filter(|_| at == TITHI) {
                let [which, rest @ ..] = values else {
                    return None;
                };
                values = rest;
                let which = number(as_text(which)?)?;
                plain.push(self.of_half(half, which).to_string());
            } else if let Some(value) = as_text(value).filter(|value| number(value).is_some()) {
                plain.push(value.to_string());
            } else {
                let number = self.number_in(self.names.list(SETS[at]), value)?;
                plain.push(number.to_string());
            }
        }
        Some(plain)
    }

    fn angle(&self, value: &[u8]) -> Option<String> {
        let value = as_text(value)?;
        Some(match value.split(':').count() {
            2 => (self.three_parts)(value),
            _ => value.to_string(),
        })
    }

    /// The width of an arc from its start up to its end, which "is at most 360° and another place than START;
    /// where it is below START, the arc crosses 0". No width is refused with 6.
    fn width(&self, start: u32, end: u32) -> u32 {
        if start >= CIRCLE || end > CIRCLE || start == end {
            0
        } else if end < start {
            end + CIRCLE - start + self.end
        } else {
            end - start + self.end
        }
    }

    /// Arcs by starts and widths.
    fn arcs(&self, mut values: &[&[u8]]) -> Option<Vec<String>> {
        let mut plain = Vec::new();
        while let [value, behind @ ..] = values {
            if let Some(sign) = self.number_in(self.names.list("sign"), value) {
                values = behind;
                let start = 3600 * self.names.begins[sign as usize];
                plain.extend([start, self.sign].map(in_degrees));
                continue;
            }
            match behind {
                [to, end, rest @ ..] if (self.spells)(to, "to") => {
                    values = rest;
                    let [start, end] = [self.angle(value)?, self.angle(end)?];
                    let width = self.width(seconds(&start)?, seconds(&end)?);
                    plain.extend([start, in_degrees(width)]);
                }
                [width, rest @ ..] => {
                    values = rest;
                    plain.extend([self.angle(value)?, self.angle(width)?]);
                }
                [] => return None,
            }
        }
        Some(plain)
    }

    /// "`print names` on a line of its own", or csv; words "in any case".
    fn print(&self, values: &[&[u8]]) -> Option<Vec<String>> {
        let known = |value: &&[u8]| {
            let mut known = ["names", "csv"].into_iter();
            known.find(|word| (self.spells)(value, word))
        };
        let values = values.iter().map(known);
        values.map(|value| value.map(String::from)).collect()
    }

    /// The words of a line without forms. None for a line that says nothing or begins with another word.
    fn plain_line(&self, line: &[u8]) -> Option<Vec<String>> {
        let words = words(line);
        let (typed, values) = words.split_first()?;
        let mut known = OTHERS.into_iter().chain(SETS).chain(BODIES);
        let word = known.find(|word| (self.spells)(typed, word))?;
        let set = SETS.iter().position(|set| *set == word);
        let turned = match set {
            Some(at) => self.set(at, values),
            None if BODIES.contains(&word) => self.arcs(values),
            None if word == "print" => self.print(values),
            None => None,
        };
        let as_they_are = || values.iter().map(|value| letters(value)).collect();
        let values = turned.unwrap_or_else(as_they_are);
        Some([vec![word.to_string()], values].concat())
    }

    /// A text without forms: each line as it has to be, with its newline if it has one.
    pub fn plain(&self, text: &[u8]) -> Vec<u8> {
        let mut plain = Vec::new();
        for line in unmarked(text).split_inclusive(|byte| *byte == b'\n') {
            let (body, newline) = match line.strip_suffix(b"\n") {
                Some(body) => (body, &b"\n"[..]),
                None => (line, &b""[..]),
            };
            match self.plain_line(body) {
                // A letter for each byte, and so back.
                Some(words) => plain.extend(words.join(" ").chars().map(|letter| letter as u8)),
                None => plain.extend(body),
            }
            plain.extend(newline);
        }
        plain
    }

    /// All that `find` writes for a page.
    pub fn find(&self, almanac: &Almanac, page: &[u8]) -> Printed {
        if page.len() >= TOO_LONG {
            return Printed::too_long();
        }
        match read(almanac, &letters(&self.plain(page))) {
            Ok(Page { query, listing }) => {
                let found = query.hastened_search(almanac);
                let found = found.expect("all lines are well-formed");
                let remarks = remarks(almanac, &letters(unmarked(page)), 1);
                listing::printed(almanac, &self.names, listing, &found, remarks)
            }
            Err(fault_at) => Printed::at_fault(fault_at),
        }
    }

    /// All that `why` writes for a day and a page.
    pub fn why(&self, almanac: &Almanac, text: &[u8]) -> Printed {
        if text.len() >= TOO_LONG {
            return Printed::too_long();
        }
        let text = unmarked(text);
        let newline = text.iter().position(|byte| *byte == b'\n');
        let (day, page) = text.split_at(newline.map_or(text.len(), |at| at + 1));
        let [day, plain, typed] = [day, &self.plain(page), unmarked(page)].map(letters);
        why::of_text(almanac, &self.names, &day, [&plain, &typed])
    }
}
