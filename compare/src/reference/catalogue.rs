//! What the program `find` prints of the days found: their number and that of the days looked at,
//! a heading, and a line for each day, in an edition of paper 02's L8; and the calls that put this
//! into a lent buffer, a piece at a time.

use super::almanac::Almanac;
use super::civil::Date;
use super::edition::Edition;
use super::refusal::{Answer, LIST_TOO_SHORT};
use super::search::Found;

pub const WEEKDAYS: [&str; 7] = [
    "monday",
    "tuesday",
    "wednesday",
    "thursday",
    "friday",
    "saturday",
    "sunday",
];

/// The line of each entry of a list, or its refusal.
pub type Lines = Vec<Answer<String>>;

const HEADING: &str = "day date weekday tithi nakshatra yoga karana";

/// The first line, which names edition 2, and edition 1 by saying nothing.
pub fn counted(edition: Edition, length: u32, looked: u32) -> String {
    let named = match edition {
        Edition::First => "",
        Edition::Second => " edition 2",
    };
    format!("found {length} looked {looked}{named}\n")
}

/// The two lines before the days'.
pub fn heading(edition: Edition, length: u32, looked: u32) -> String {
    format!("{}{HEADING}\n", counted(edition, length, looked))
}

/// The date of a day of the table.
pub fn dated(almanac: &Almanac, number: u32) -> String {
    let Date { year, month, day } = almanac.days()[number as usize].date;
    format!("{year}-{month}-{day}")
}

/// A day of the table by its number and its date.
pub fn named(almanac: &Almanac, number: u32) -> String {
    format!("{number} {}", dated(almanac, number))
}

/// The line of a day; 2 for a number that is no day.
pub fn line(almanac: &Almanac, edition: Edition, number: u32) -> Answer<String> {
    let day = almanac.day(number)?;
    let named = named(almanac, number);
    let weekday = WEEKDAYS[day.weekday as usize];
    let limbs = day.elements(edition).limbs().map(|limb| limb.to_string());
    Ok(format!("{named} {weekday} {}\n", limbs.join(" ")))
}

/// All that is printed for a search.
pub fn text(almanac: &Almanac, found: &Found) -> String {
    let counts = [&found.matching, &found.visited].map(|days| days.len() as u32);
    let mut text = heading(found.edition, counts[0], counts[1]);
    for day in &found.matching {
        text += &line(almanac, found.edition, *day).expect("a day that is found is a day");
    }
    text
}

/// The lines of a list of bytes, "four a day, low byte first", where "a tail under four bytes is no
/// place" (paper 01, "What the table reckons"), in the edition of this number. Refused with 14 is
/// the list as a whole.
pub fn lines(almanac: &Almanac, edition: u32, list: &[u8]) -> Answer<Lines> {
    let edition = Edition::numbered(edition)?;
    let entries = list.chunks_exact(4);
    let days = entries.map(|entry| u32::from_le_bytes([entry[0], entry[1], entry[2], entry[3]]));
    Ok(days.map(|day| line(almanac, edition, day)).collect())
}

/// What a call that fills a buffer gives back, and what then stands at the buffer's front.
#[derive(Clone, PartialEq, Eq, Debug)]
pub struct Put {
    pub result: u32,
    /// How many bytes were put; with 7, how many would do.
    pub bytes: usize,
    /// The number of the entry that comes next; 0 with a refusal.
    pub next: usize,
    pub text: Vec<u8>,
}

impl Put {
    fn accepted(text: String, next: usize) -> Put {
        Put {
            result: 0,
            bytes: text.len(),
            next,
            text: text.into_bytes(),
        }
    }

    /// "Lent memory is untouched by each refusal" ("Refusals by number").
    fn refused(result: u32, bytes: usize) -> Put {
        Put {
            result,
            bytes,
            next: 0,
            text: Vec::new(),
        }
    }

    /// "7 outside the search gives the length that would do, in the lent list's own places, and 0."
    fn no_room_for(line: &str) -> Put {
        Put::refused(LIST_TOO_SHORT, line.len())
    }

    /// A buffer after the call: what is behind the text stays as it was.
    pub fn buffer_after(&self, before: &[u8]) -> Vec<u8> {
        let mut after = before.to_vec();
        after[..self.text.len()].copy_from_slice(&self.text);
        after
    }
}

/// The lines of a list's entries from number `from` on, as many as fit whole into `room` bytes, and
/// none at or behind an entry that is no day. Refused are an edition that there isn't, a first entry
/// that is no day and, with 7, a first line that doesn't fit; where no entry is left there is nothing
/// but the edition to refuse.
pub fn put_lines(lines: &Answer<Lines>, from: u32, room: usize) -> Put {
    let lines = match lines {
        Ok(lines) => lines,
        Err(refusal) => return Put::refused(*refusal, 0),
    };
    let mut next = from as usize;
    let due = lines.get(next..).unwrap_or_default();
    match due.first() {
        Some(Err(refusal)) => return Put::refused(*refusal, 0),
        Some(Ok(line)) if line.len() > room => return Put::no_room_for(line),
        _ => {}
    }
    let mut text = String::new();
    for line in due.iter().map_while(|line| line.as_ref().ok()) {
        if text.len() + line.len() > room {
            break;
        }
        text += line;
        next += 1;
    }
    Put::accepted(text, next)
}

/// The heading, whole or not at all, in the edition of this number. It has no entries: `next` is 0.
pub fn put_heading(edition: u32, length: u32, looked: u32, room: usize) -> Put {
    let text = match Edition::numbered(edition) {
        Ok(edition) => heading(edition, length, looked),
        Err(refusal) => return Put::refused(refusal, 0),
    };
    if text.len() > room {
        Put::no_room_for(&text)
    } else {
        Put::accepted(text, 0)
    }
}
