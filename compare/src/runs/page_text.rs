//! Pages to be read: queries written in words, in each form that a value has, with blanks and
//! comments in odd places; lines at the edges and with faults; and damage by single bytes.

use crate::random::Random;
use crate::reference::almanac::Almanac;
use crate::reference::catalogue::WEEKDAYS;
use crate::reference::page::{BODIES, SETS};
use crate::reference::search::{Query, WEEKDAY};

/// A line's words, which are to be separated by blanks.
pub type Line = Vec<String>;

/// Spans that are accepted, of few days.
pub const SPANS: [&str; 16] = [
    "span 0 0",
    "span 401599 401599",
    "span 000401599 000401599",
    "span 401590 2619-10-13",
    "span 1520-3-19 1520-3-19",
    "span 01520-003-0019 00",
    "span 2619-10-13 2619-10-13",
    "span 1582-10-4 1582-10-15",
    "span 22844 1582-10-15",
    "span 1582-9-30 22850",
    "span 1600-2-28 1600-3-1",
    "span 1580-2-29 1580-3-1",
    "span 1700-2-28 1700-3-1",
    "span 2000-2-29 2000-2-29",
    "span 000001999-000000012-000000031 2000-1-1",
    "span 1612-5-14 33649",
];

/// Editions that are accepted.
pub const EDITION_LINES: [&str; 6] = [
    "edition 1",
    "edition 2",
    "edition 01",
    "edition 02",
    "edition 000000001",
    "edition 000000002",
];

/// Conditions that are accepted, but for the bodies'.
pub const VALUES: [&str; 46] = [
    "weekday 0",
    "weekday 6",
    "weekday 000000003",
    "weekday monday",
    "weekday tuesday",
    "weekday wednesday",
    "weekday thursday",
    "weekday friday",
    "weekday saturday",
    "weekday sunday",
    "tithi 0",
    "tithi 29",
    "tithi 000000014",
    "nakshatra 0",
    "nakshatra 26",
    "nakshatra 007",
    "yoga 0",
    "yoga 26",
    "yoga 01",
    "weekday monday tuesday",
    "weekday 1 2",
    "weekday 6 0",
    "weekday sunday 0",
    "weekday 3 monday 000000006",
    "weekday 00 01",
    "weekday 0 1 2 3 4 5 6",
    "weekday 6 5 4 3 2 1 0",
    "weekday monday tuesday wednesday thursday friday saturday sunday",
    "weekday 6 monday 4 tuesday 2 3 saturday",
    "weekday sunday friday 2 0",
    "tithi 3 4",
    "tithi 29 0",
    "tithi 13 000000014 02",
    "tithi 0 1 2 3 4 5 6 7 8 9 10 11 12 13 14 15 16 17 18 19 20 21 22 23 24 25 26 27 28 29",
    "nakshatra 1 2 3 4 5",
    "nakshatra 7 8",
    "nakshatra 26 25 24 23 22 21 20 19 18 17 16 15 14 13 12 11 10 9 8 7 6 5 4 3 2 1 0",
    "yoga 1 2 3 4 5 6 7 8",
    "yoga 4 26",
    "karana 1",
    "karana 11",
    "karana 7",
    "karana 007",
    "karana 8 9 10 11",
    "karana 1 2 3 4 5 6 7 8",
    "karana 11 10 9 8 7 6 5 4 3 2 1",
];

/// Arcs that are accepted, one and two.
pub const ARCS: [&str; 11] = [
    "0 1296000",
    "1295999 1",
    "359:59:59 360:0:0",
    "0:0:0 180:0:0",
    "1000000 000600000",
    "00300:000000059:059 0000000:0:000000001",
    "270:30:30 90:59:59",
    "0 3600 7200 3600",
    "359:59:59 2 1295999 000000002",
    "1295999 1296000 180:0:0 1",
    "270:30:30 90:59:59 350:0:0 20:0:0",
];

/// Lines in forms that are accepted since P3.
pub const FORMS: [&str; 20] = [
    "Span 10 20",
    "SPAN 10 20",
    "Weekday 1",
    "weekday Monday",
    "weekday SUNDAY",
    "weekday mon",
    "tithi 3,",
    "Mars 1 2",
    "node 1:2 5",
    "Edition 2",
    "EDITION 2",
    "weekday monday Tuesday",
    "weekday monday, tuesday",
    "node 0 1 1:2 3",
    "tithi 3 4,5",
    "karana bava",
    "Karana 7",
    "true_venus 5 1:2",
    "True_sun 0 3600",
    "TRUE_SUN 0 3600",
];

/// Refused with 3. Some words are joined by what is no blank.
pub const OTHER_FORMS: [&str; 207] = [
    "spans 10 20",
    "spa 10 20",
    "span 10",
    "span",
    "span 10 20 30",
    "span 10 -20",
    "span +10 20",
    "span 10-20",
    "span 1520-3 20",
    "span 1520-3-19-0 20",
    "span 1520--19 20",
    "span -3-19 20",
    "span 1520-3- 20",
    "span - 20",
    "span 10 --",
    "span 1520:3:19 20",
    "span 1520-3:19 20",
    "span 1520:3-19 20",
    "span 1520/3/19 20",
    "span 1520-march-19 1530-1-1",
    "span 10 1520-3-0000000019",
    "span 1234567890-1-1 20",
    "span 1234567890 20",
    "span 0000000010 20",
    "span monday 20",
    "span 1582-10-10 x",
    "span x 2619-10-14",
    "span 20 10 0",
    "weekdays 1",
    "weekday",
    "weekday mondays",
    "weekday 1.",
    "tithi",
    "tithi 30 30",
    "tithi -1",
    "tithi +1",
    "tithi 3.0",
    "tithi 0x3",
    "tithi 3e0",
    "tithi 0000000003",
    "tithi 1234567890",
    "tithi 4294967299",
    "tithi 18446744073709551619",
    "tithi monday",
    "tithi \u{663}",
    "tithi \u{ff13}",
    "tithi 3\0",
    "tithi \0 3",
    "\0",
    "tithi\u{b}3",
    "tithi 3\u{c}",
    "tithi\u{a0}3",
    "tithi\u{85}3",
    "\u{feff}tithi 3",
    "tithi=3",
    "tithi: 3",
    "nakshatra 1-2-3",
    "nakshatra",
    "yoga 1:2:3",
    "yoga 1 1",
    "rahu 1 2",
    "sun",
    "sun 5",
    "sun 1 2 3",
    "sun 0 0 0",
    "sun 1000:0:0 5",
    "moon 5 000001000:0:0",
    "moon 0000000001:0:0 5",
    "apogee 1:60:0 5",
    "apogee 5 1:0:60",
    "node 1:2:3:4 5",
    "mars 1::3 5",
    "mars :2:3 5",
    "mercury 5 1:2:",
    "mercury :: 5",
    "jupiter 1-2-3 5",
    "jupiter 1:2-3 5",
    "jupiter 1-2:3 5",
    "venus -5 5",
    "venus 5 1:+2:3",
    "saturn 1234567890 5",
    "saturn 5 5.5",
    "3 tithi",
    "edition",
    "edition 2 2",
    "edition 1 2",
    "edition 3 3",
    "edition 2 3 4",
    "editions 2",
    "editio 2",
    "edition2",
    "edition two",
    "edition 2.",
    "edition 2.0",
    "edition +2",
    "edition -1",
    "edition 0x2",
    "edition ii",
    "edition monday",
    "edition 2:0:0",
    "edition 2-1-1",
    "edition 0000000002",
    "edition 1234567890",
    "edition 4294967298",
    "2 edition",
    "weekday 1 1",
    "weekday monday monday",
    "weekday monday 0",
    "weekday 6 sunday",
    "weekday 0 00",
    "weekday 1 2 3 1",
    "weekday 9 1 1",
    "weekday 1 9 1",
    "weekday 1 1 9",
    "weekday 9 9 1 tuesday",
    "weekday sunday 6 9",
    "weekday 0 1 2 3 4 5 5",
    "weekday x 1",
    "weekday 1 9 x",
    "weekday 9 x",
    "weekday monday mon",
    "weekday monday-tuesday",
    "weekday monday or tuesday",
    "weekday 1-2 3",
    "weekday 1 -2",
    "weekday 1 0000000002",
    "weekday 1 1234567890",
    "weekday 7 1234567890",
    "weekday 0 1 2 3 4 5 6 0",
    "weekday 0 1 2 3 4 5 6 7",
    "weekday 6 5 4 3 2 1 0 x",
    "weekday 9 8 7 6 5 4 3 2",
    "weekday 7 7 7 7 7 7 7 7",
    "weekday x x x x x x x x",
    "weekday monday tuesday wednesday thursday friday saturday sunday monday",
    "sun 0 3600 7200",
    "sun 1296000 1 5",
    "sun 5 0 x",
    "sun 0 3600 7200 x",
    "sun 0 3600 x 3600",
    "sun 0 x 7200 3600",
    "sun x 3600 7200 3600",
    "sun 1296000 1 5 x",
    "sun 5 1:60:0 1296000 0",
    "moon 0 3600 7200 3600 5",
    "moon 0 0 0 0 0",
    "moon 1 2 3 x 5",
    "apogee 0 1 2 3 4 5",
    "mars 0 3600 1000:0:0 5",
    "mars 0 3600 5 1:0:60",
    "mercury 0 3600 monday 5",
    "jupiter 0 3600 0 3600 0 3600",
    "venus 0 3600 -5 5",
    "saturn 5 5 1234567890 5",
    "tithi 30 30 30 30",
    "span 10 20 30 40",
    "edition 2 2 2",
    "edition 3 3 3 3",
    "rahu 1 2 3 4",
    "weekdays monday tuesday",
    "tithi 3 3",
    "tithi 3 03",
    "tithi 30 4 30",
    "tithi 3 4 x",
    "tithi 3-4",
    "tithi 3:4:5 6",
    "tithi 3 0000000004",
    "tithi 99 3 3",
    "tithi 3 99 3",
    "tithi 0 1 2 3 4 5 6 7 8 9 10 11 12 13 14 15 16 17 18 19 20 21 22 23 24 25 26 27 28 29 0",
    "tithi 29 0 1 2 3 4 5 6 7 8 9 10 11 12 13 14 15 16 17 18 19 20 21 22 23 24 25 26 27 28 29",
    "tithi 40 40 40 40 40 40 40 40 40 40 40 40 40 40 40 40 40 40 40 40 40 40 40 40 40 40 40 40 40 40 40",
    "nakshatra 26 26",
    "nakshatra 27 27",
    "nakshatra 1 2 3 2",
    "nakshatra 7 pushya",
    "yoga 0 1 0",
    "yoga 28 28",
    "yoga 4 -5",
    "karana",
    "karana 7 7",
    "karana 0 0",
    "karana 12 12",
    "karana 1 2 3 4 5 6 7 8 9 10 11 1",
    "karana 7:0:0",
    "karanas 7",
    "rahu 0 1 2 3 4 5 6 7 8 9 10 11 12 13 14 15 16 17 18 19 20 21 22 23 24 25 26 27 28 29 30",
    "true_sun",
    "true_sun 5",
    "true_sun 1 2 3",
    "true_sun 1 2 3 4 5",
    "true_sun x 5",
    "true_sun 5 1:60:0",
    "true_moon 1 2 3 x",
    "true_mars 1000:0:0 5",
    "true_mercury -5 5",
    "true_jupiter 1-2-3 5",
    "true_saturn 0 3600 0 3600 0 3600",
    "true_apogee 0 3600",
    "true_node 0 3600",
    "true_ 0 3600",
    "true 0 3600",
    "true_suns 0 3600",
    "true-sun 0 3600",
    "true sun 0 3600",
    "truesun 0 3600",
    "true_rahu 1 2 3 4",
];

/// Refused with 14.
pub const BAD_EDITIONS: [&str; 12] = [
    "edition 0",
    "edition 3",
    "edition 14",
    "edition 20",
    "edition 000000000",
    "edition 000000003",
    "edition 257",
    "edition 258",
    "edition 65538",
    "edition 16777218",
    "edition 536870914",
    "edition 999999999",
];

/// Refused with 1.
pub const NO_DATES: [&str; 22] = [
    "span 1582-10-10 1600-1-1",
    "span 1582-10-5 1582-10-15",
    "span 1582-10-4 1582-10-14",
    "span 1700-2-29 1700-3-1",
    "span 1700-2-28 1700-2-29",
    "span 1900-2-29 5",
    "span 5 2100-2-29",
    "span 1600-2-30 1600-3-1",
    "span 1601-2-29 1602-1-1",
    "span 1601-4-31 1602-1-1",
    "span 1601-1-32 1602-1-1",
    "span 1601-1-0 1602-1-1",
    "span 1601-0-1 1602-1-1",
    "span 1601-13-1 1602-1-1",
    "span 1601-257-1 1602-1-1",
    "span 1601-1-257 1602-1-1",
    "span 1601-999999999-999999999 5",
    "span 0-0-0 0-0-0",
    "span 2619-10-14 1582-10-10",
    "span 1582-10-10 1520-3-18",
    "span 401600 1582-10-10",
    "span 999999999-2-29 999999999",
];

/// Refused with 2.
pub const DAYS_OUTSIDE: [&str; 16] = [
    "span 1520-3-18 1520-3-20",
    "span 2619-10-13 2619-10-14",
    "span 2619-10-14 1520-3-18",
    "span 1520-3-18 401600",
    "span 401600 2619-10-14",
    "span 0 401600",
    "span 401600 0",
    "span 401600 401601",
    "span 999999999 5",
    "span 5 999999999",
    "span 5 67510464",
    "span 1500-2-29 5",
    "span 0-2-29 0-3-1",
    "span 1-1-1 1520-3-19",
    "span 5 999999999-12-31",
    "span 67056-1-1 5",
];

/// Refused with 5.
pub const REVERSED: [&str; 7] = [
    "span 1 0",
    "span 401599 0",
    "span 000000002 1",
    "span 1520-3-20 1520-3-19",
    "span 1582-10-15 1582-10-4",
    "span 22845 1582-10-4",
    "span 2619-10-13 401598",
];

/// Refused with 6.
pub const BAD_CONDITIONS: [&str; 84] = [
    "weekday 7",
    "weekday 257",
    "weekday 999999999",
    "tithi 30",
    "tithi 256",
    "nakshatra 27",
    "nakshatra 999999999",
    "yoga 27",
    "yoga 65536",
    "sun 1296000 1",
    "sun 0 1296001",
    "sun 5 0",
    "moon 360:0:0 1",
    "moon 0 360:0:1",
    "apogee 359:59:59 0:0:0",
    "node 999:59:59 1",
    "node 0 999:59:59",
    "mars 999999999 999999999",
    "mercury 1296000 0",
    "mercury 1 000000000",
    "jupiter 0 1296001",
    "venus 1296000 1296000",
    "saturn 0 0",
    "saturn 999999999 1",
    "weekday 7 7",
    "weekday 9 9",
    "weekday 9 1",
    "weekday monday 7",
    "weekday 7 sunday 7",
    "weekday 0 32",
    "weekday 33 1",
    "weekday 256 255",
    "weekday 999999999 sunday",
    "weekday 0 1 2 3 4 5 7",
    "weekday 7 8 9 10 11 12 13",
    "weekday 7 7 7 7 7 7 7",
    "weekday 8 monday 007 tuesday 10 007 6",
    "sun 0 3600 1296000 1",
    "sun 0 3600 5 0",
    "sun 0 3600 0 1296001",
    "sun 1296000 1 0 3600",
    "sun 5 0 0 3600",
    "sun 0 1296001 0 3600",
    "moon 0 0 0 0",
    "moon 1:0:0 1:0:0 360:0:0 1:0:0",
    "apogee 359:59:59 0:0:0 5 5",
    "node 0 3600 999:59:59 1",
    "mars 0 3600 0 360:0:1",
    "mercury 0 3600 359:59:59 0:0:0",
    "jupiter 1296000 0 0 1296001",
    "venus 0 1296000 999999999 999999999",
    "saturn 999999999 1 2 3",
    "tithi 3 30",
    "tithi 30 31",
    "tithi 31 31",
    "tithi 31 32 33",
    "tithi 40 3 40",
    "tithi 0 32",
    "tithi 999999999 1 2 3",
    "tithi 64 96 128",
    "nakshatra 7 27",
    "nakshatra 27 28 29 30",
    "nakshatra 26 32 58",
    "yoga 27 0",
    "yoga 4 256 256",
    "karana 0",
    "karana 12",
    "karana 0 7",
    "karana 7 0",
    "karana 11 12",
    "karana 1 2 3 4 5 6 7 8 9 10 11 12",
    "karana 31",
    "karana 32 33",
    "karana 999999999",
    "true_sun 1296000 1",
    "true_sun 0 1296001",
    "true_sun 5 0",
    "true_moon 360:0:0 1",
    "true_moon 0 3600 0 0",
    "true_mars 0 3600 1296000 5",
    "true_mercury 0 360:0:1",
    "true_jupiter 999999999 999999999",
    "true_venus 0 1296000 0 1296001",
    "true_saturn 0 0 0 0",
];

const BLANKS: [&str; 8] = [" ", " ", " ", "\t", "\r", "   ", " \t ", "\r \r"];

const INDENTS: [&str; 8] = ["", "", "", "", " ", "\t", "\r", " \t\r "];

const TAILS: [&[u8]; 10] = [
    b"",
    b"",
    b"",
    b" ",
    b"\r",
    b" \t",
    b"#",
    b"# of a page",
    b" ## weekday 9",
    b"\t#\0\xFF\xC3# tithi",
];

const SILENT: [&[u8]; 9] = [
    b"",
    b" ",
    b"\r",
    b"\t \r\t",
    b"#",
    b"# span 5 3",
    b"   # no words",
    b"#weekday 7\r",
    b"# \0\x80\xFF",
];

pub fn words(line: &str) -> Line {
    line.split(' ').map(String::from).collect()
}

/// A number, sometimes with zeros before it, in 9 digits at most.
fn number(random: &mut Random, number: u32) -> String {
    let width = random.one_of(&[1, 1, 1, 1, 2, 5, 9]);
    format!("{number:0width$}")
}

fn joined(random: &mut Random, numbers: [u32; 3], joint: &str) -> String {
    numbers.map(|part| number(random, part)).join(joint)
}

/// A day by its number or its date.
pub fn day(random: &mut Random, almanac: &Almanac, day: u32) -> String {
    if random.once_in(2) {
        number(random, day)
    } else {
        let date = almanac.days()[day as usize].date;
        joined(random, [date.year, date.month, date.day], "-")
    }
}

/// An arc's number in seconds or as D:M:S.
fn angle(random: &mut Random, seconds: u32) -> String {
    if random.once_in(2) {
        number(random, seconds)
    } else {
        let parts = [seconds / 3600, seconds / 60 % 60, seconds % 60];
        joined(random, parts, ":")
    }
}

/// A number of a set, or a weekday's name.
fn value(random: &mut Random, at: usize, value: u32) -> String {
    if at == WEEKDAY && !random.once_in(2) {
        WEEKDAYS[value as usize].to_string()
    } else {
        number(random, value)
    }
}

/// The numbers of a set, in any order.
pub fn values_of(random: &mut Random, at: usize, set: u32) -> Vec<String> {
    let mut left: Vec<u32> = (0..31).filter(|number| set >> number & 1 == 1).collect();
    let mut values = Vec::new();
    while !left.is_empty() {
        let next = left.swap_remove(random.below(left.len() as u32) as usize);
        values.push(value(random, at, next));
    }
    values
}

/// The lines that say a query.
pub fn lines_of(random: &mut Random, almanac: &Almanac, query: &Query) -> Vec<Line> {
    let ends = [query.first, query.last].map(|end| day(random, almanac, end));
    let mut lines = vec![Vec::from(ends)];
    lines[0].insert(0, "span".to_string());
    let mut add = |word: &str, values: Vec<String>| {
        lines.push([vec![word.to_string()], values].concat());
    };
    // Edition 1 need not be said.
    if query.edition != 1 || random.once_in(2) {
        add("edition", vec![number(random, query.edition)]);
    }
    for (at, set) in query.sets.into_iter().enumerate() {
        if let Some(set) = set {
            add(SETS[at], values_of(random, at, set));
        }
    }
    for (word, arcs) in BODIES.into_iter().zip(query.arcs) {
        let values = arcs.given().flat_map(|arc| [arc.start, arc.width]);
        let values: Vec<String> = values.map(|value| angle(random, value)).collect();
        if !values.is_empty() {
            add(word, values);
        }
    }
    lines
}

/// Puts a line in the place of that which has its word; sometimes beside it.
pub fn put(random: &mut Random, lines: &mut Vec<Line>, line: Line) {
    if !random.once_in(12) {
        lines.retain(|other| other[0] != line[0]);
    }
    lines.push(line);
}

/// Adds a line, with blanks about its words, and sometimes a comment.
pub fn put_line(random: &mut Random, page: &mut Vec<u8>, line: &Line) {
    page.extend(random.one_of(&INDENTS).bytes());
    for (at, word) in line.iter().enumerate() {
        if at > 0 {
            page.extend(random.one_of(&BLANKS).bytes());
        }
        page.extend(word.bytes());
    }
    page.extend(random.one_of(&TAILS));
    page.push(b'\n');
}

/// The lines in any order, with blanks and comments, and lines that say nothing between them.
pub fn page_of(random: &mut Random, mut lines: Vec<Line>) -> Vec<u8> {
    let mut page = Vec::new();
    while !lines.is_empty() {
        while random.once_in(4) {
            page.extend(random.one_of(&SILENT));
            page.push(b'\n');
        }
        let line = lines.swap_remove(random.below(lines.len() as u32) as usize);
        put_line(random, &mut page, &line);
    }
    page
}

/// Changes, deletes or inserts a byte; mostly one that means something in a page.
pub fn damage(random: &mut Random, page: &mut Vec<u8>) {
    let at = random.below(page.len() as u32) as usize;
    let byte = if random.once_in(3) {
        random.below(256) as u8
    } else {
        random.one_of(b"\n\n\r\t  ##--::0019aeginstA\0\x0B\x80\xA0\xFF")
    };
    match random.below(4) {
        0 => page[at] = byte,
        1 => page[at] ^= 1 << random.below(8),
        2 => drop(page.remove(at)),
        _ => page.insert(at, byte),
    }
}
