//! The program `why`, run on days and pages good and bad; what it prints is compared byte for byte.

use crate::checks::Checks;
use crate::random::Random;
use crate::reference::almanac::Almanac;
use crate::reference::days::LAST_DAY;
use crate::reference::page::TOO_LONG;
use crate::reference::why::printed;

use super::find::{many, random_lines, spoil};
use super::page_text::{damage, day, lines_of, page_of, put_line};
use super::programs;
use super::queries::Kind;
use super::reasons::{shutting_out, LAST_CONDITION};
use super::EDITIONS;

const PROGRAM: &str = "target/bin/why";

/// The examples of docs/why.md, and the line that it has for each; and of P1's conditions, with places of
/// day 33649 that were reckoned apart.
const EXAMPLES: [(&str, &str); 23] = [
    (
        "1612-5-15\n# Bombay, fol. 3: upper half\nweekday monday\ntithi 14\nsun 34:0:0 1:0:0\n",
        "33650 1612-5-15 does not fit: weekday asked monday found tuesday",
    ),
    (
        "33649\n# Bombay, fol. 3: upper half\nweekday monday\ntithi 14\nsun 34:0:0 1:0:0\n",
        "33649 1612-5-14 fits",
    ),
    (
        "1600-1-1\nspan 1607-4-15 1612-12-31\n",
        "29132 1600-1-1 does not fit: before the span asked from 31793 1607-4-15",
    ),
    (
        "1613-1-1\nspan 1607-4-15 1612-12-31\n",
        "33881 1613-1-1 does not fit: after the span asked to 33880 1612-12-31",
    ),
    (
        "1612-5-16\nweekday monday tuesday\n",
        "33651 1612-5-16 does not fit: weekday asked monday tuesday found wednesday",
    ),
    (
        "33650\ntithi 14\n",
        "33650 1612-5-15 does not fit: tithi asked 14 found 15",
    ),
    (
        "33649\ntithi 14\nnakshatra 14\n",
        "33649 1612-5-14 does not fit: nakshatra asked 14 found 15",
    ),
    (
        "33649\nyoga 17\n",
        "33649 1612-5-14 does not fit: yoga asked 17 found 18",
    ),
    (
        "33649\nmars 300:0:0 1:0:0\n",
        "33649 1612-5-14 does not fit: mars asked 300:0:0 1:0:0 found 299:55:13",
    ),
    (
        "33649\nsun 359:0:0 3:0:0 64:0:0 1:0:0\n",
        "33649 1612-5-14 does not fit: sun asked 359:0:0 3:0:0 64:0:0 1:0:0 found 34:13:40",
    ),
    ("1917-10-15\ntithi 29\n", "145201 1917-10-15 fits"),
    (
        "1917-10-15\ntithi 29\nedition 2\n",
        "145201 1917-10-15 does not fit: tithi asked 29 found 28 edition 2",
    ),
    (
        "33649\ntithi 13 12\n",
        "33649 1612-5-14 does not fit: tithi asked 12 13 found 14",
    ),
    (
        "33649\nyoga 19 0 3 17\nkarana 1\n",
        "33649 1612-5-14 does not fit: yoga asked 0 3 17 19 found 18",
    ),
    (
        "33649\nsun 0 1\nkarana 1 11 8\n",
        "33649 1612-5-14 does not fit: karana asked 1 8 11 found 7",
    ),
    (
        "33649\ntrue_sun 34:0:0 1:0:0\n",
        "33649 1612-5-14 does not fit: true_sun asked 34:0:0 1:0:0 found 35:44:8",
    ),
    (
        "33649\ntrue_sun 359:0:0 2:0:0 180:0:0 1:0:0\n",
        "33649 1612-5-14 does not fit: true_sun asked 359:0:0 2:0:0 180:0:0 1:0:0 found 35:44:8",
    ),
    (
        "33649\ntrue_moon 0 1 359:0:0 3600\nsun 35:0:0 3600\n",
        "33649 1612-5-14 does not fit: sun asked 35:0:0 1:0:0 found 34:13:40",
    ),
    (
        "33649\ntrue_moon 0 1 359:0:0 3600\nsaturn 0 1296000\ntrue_saturn 0 1\n",
        "33649 1612-5-14 does not fit: true_moon asked 0:0:0 0:0:1 359:0:0 1:0:0 found 204:44:2",
    ),
    (
        "33649\ntrue_moon 204:47:23 1\ntrue_saturn 0 1\nedition 2\n",
        "33649 1612-5-14 does not fit: true_saturn asked 0:0:0 0:0:1 found 326:42:29 edition 2",
    ),
    ("tuesday\ntithi 14\n", "refused 3"),
    ("33649\ntithi 30\n", "refused 6"),
    ("401600\nspan 9 5\n", "refused 2"),
];

/// Lines with a day.
const DAYS: [&str; 21] = [
    "0",
    "33649",
    "401599",
    "000033649",
    "000000000",
    "1612-5-14",
    "01612-005-0014",
    "000001612-000000005-000000014",
    "1520-3-19",
    "2619-10-13",
    "1582-10-4",
    "1582-10-15",
    "2000-2-29",
    " 33649",
    ",33649,",
    "\t\r 33649 \t\r",
    "33649\r",
    "33649#",
    "33649#1 2",
    "33649 # a day",
    " 1612-5-14 # tithi x",
];

/// Refused with 3; some would be refused otherwise as lines of a page, or if they had one word less.
const OTHER_FORMS: [&str; 43] = [
    "",
    " ",
    "\r",
    "#",
    "# 33649",
    "#33649",
    " #",
    "33649 33650",
    "33649 x",
    "x 33649",
    "401600 401600",
    "1582-10-10 5",
    "1612 5 14",
    "1 2 3 4 5 6 7 8 9",
    "x",
    "monday",
    "Monday 33649",
    "day 33649",
    "span 33649 33649",
    "span 33649",
    "edition 2",
    "edition 3",
    "tithi 14",
    "tithi 30",
    "-1",
    "+1",
    "33649.",
    "0x5",
    "0000000001",
    "1234567890",
    "4294967297",
    "1612-5",
    "1612-5-14-1",
    "1612--14",
    "-5-14",
    "1612-5-",
    "-",
    "1612:5:14",
    "1612-5:14",
    "1612/5/14",
    "1612-may-14",
    "1234567890-1-1",
    "1612-5-0000000014",
];

/// Refused with 1.
const NO_DATES: [&str; 17] = [
    "1582-10-5",
    "1582-10-10",
    "1582-10-14",
    "1601-2-29",
    "1700-2-29",
    "1900-2-29",
    "2100-2-29",
    "1612-2-30",
    "1612-4-31",
    "1612-1-32",
    "1612-1-0",
    "1612-0-1",
    "1612-13-1",
    "1612-257-1",
    "1612-1-257",
    "0-0-0",
    "999999999-2-29",
];

/// Refused with 2.
const OUTSIDE: [&str; 12] = [
    "401600",
    "000401600",
    "401601",
    "16777216",
    "67510464",
    "999999999",
    "1520-3-18",
    "2619-10-14",
    "1500-2-29",
    "0-2-29",
    "1-1-1",
    "999999999-12-31",
];

/// What stands behind the day's line: pages that are accepted, and such as have one fault or several.
const PAGES: [&str; 16] = [
    "",
    "\n# nothing is asked\n\r\n",
    "tithi 14\nedition 2\n",
    " span 1000 1612-5-13 # before the day\n",
    "edition 3\n",
    "tithi x\n",
    "weekday 1\nweekday 1\n",
    "x",
    "span 1582-10-10 5\n",
    "span 5 401600\n",
    "span 9 5\n",
    "tithi 30\n",
    "#\ntithi 30\nspan 9 5\n",
    "tithi 30\nspan 9 1520-3-18\nedition 2\n",
    "tithi 30\nspan x 5\nedition 0\n",
    "33649\n",
];

fn compare_pieces(checks: &mut Checks, almanac: &Almanac, pieces: &[&[u8]]) {
    let expected = printed(almanac, &pieces.concat());
    programs::compare(checks, PROGRAM, expected, pieces);
}

fn compare(checks: &mut Checks, almanac: &Almanac, text: &[u8]) {
    compare_pieces(checks, almanac, &[text]);
}

/// The reference by itself is held to them too.
fn examples(checks: &mut Checks, almanac: &Almanac) {
    for (text, line) in EXAMPLES {
        let own = printed(almanac, text.as_bytes()).output;
        let input = || text.escape_debug().to_string();
        checks.same("docs/why.md", input, format!("{line}\n"), own);
        compare(checks, almanac, text.as_bytes());
        compare(checks, almanac, format!("{text}edition 2\n").as_bytes());
    }
}

/// Good days before each page, and each fault of a day alone and before some pages; one of each kind
/// before all of them.
fn day_lines(checks: &mut Checks, almanac: &Almanac) {
    let mut before = |day: &str, page: &str| {
        compare(checks, almanac, format!("{day}\n{page}").as_bytes());
    };
    let mut in_turn = PAGES.iter().cycle();
    for (at, day) in DAYS.into_iter().enumerate() {
        before(day, "");
        for page in PAGES.iter().skip(at % 2).step_by(2) {
            before(day, page);
        }
    }
    for faults in [&OTHER_FORMS[..], &NO_DATES, &OUTSIDE] {
        for page in PAGES {
            before(faults[7], page);
        }
        for day in faults {
            before(day, "");
            for page in in_turn.by_ref().take(2) {
                before(day, page);
            }
        }
    }
}

/// Every byte before a day and behind it.
fn bytes(checks: &mut Checks, almanac: &Almanac) {
    for byte in 0..=255 {
        for (before, after) in [("", "5\n"), ("33649", "\n")] {
            let text = [before.as_bytes(), &[byte], after.as_bytes()].concat();
            compare(checks, almanac, &text);
        }
    }
}

/// Texts without a newline, with other lines before the day's, and with bytes that are no text.
fn odd(checks: &mut Checks, almanac: &Almanac) {
    let texts: [&[u8]; 19] = [
        b"",
        b"5",
        b" ",
        b"#",
        b"x",
        b"401600",
        b"1582-10-10",
        b"5\n ",
        b"5\n#",
        b"x\nedition 3",
        b"401600\nedition 3",
        b"\n5\n",
        b"# my day\n5\n",
        b"\r\n\n",
        b"5\n5\n",
        b"tithi 14\n5\n",
        b"5\rtithi 14\n",
        b"\xEF\xBB\xBF5\n",
        b"5\0\n\0",
    ];
    for text in texts {
        compare(checks, almanac, text);
    }
}

/// Each condition in turn shuts a day out, or none does.
fn reasons(checks: &mut Checks, almanac: &Almanac, random: &mut Random) {
    for edition in EDITIONS {
        for condition in (0..=LAST_CONDITION).flat_map(|condition| [condition; 8]) {
            let (query, number) = shutting_out(random, almanac, edition, condition);
            let lines = lines_of(random, almanac, &query);
            let mut text = Vec::new();
            let word = day(random, almanac, number);
            put_line(random, &mut text, &vec![word]);
            text.extend(page_of(random, lines));
            compare(checks, almanac, &text);
        }
    }
}

/// Random pages and days, a third with refused lines and a third with damaged bytes; of these half in
/// the day's line alone.
fn random_texts(checks: &mut Checks, almanac: &Almanac, random: &mut Random) {
    let days = [&DAYS[..], &OTHER_FORMS, &NO_DATES, &OUTSIDE].concat();
    let kinds = Kind::all().into_iter().chain(Kind::half_read());
    for (kind, round) in kinds.flat_map(|kind| kind.rounds(120).map(move |round| (kind, round))) {
        let mut lines = random_lines(random, almanac, kind);
        let number = random.below(LAST_DAY + 1);
        let mut word = day(random, almanac, number);
        if round % 3 == 1 {
            spoil(random, &mut lines);
            if random.once_in(2) {
                word = random.one_of(&days).to_string();
            }
        }
        let mut text = Vec::new();
        put_line(random, &mut text, &vec![word]);
        let mut page = page_of(random, lines);
        if round % 3 == 2 {
            for _ in 0..random.between(1, 3) {
                let damaged = random.once_in(2);
                damage(random, if damaged { &mut text } else { &mut page });
            }
        }
        compare(checks, almanac, &[text, page].concat());
    }
}

/// Many lines, long lines, texts about the largest size, and such as come in pieces.
fn long(checks: &mut Checks, almanac: &Almanac) {
    let comments = many(b"# a line of a long page\n");
    let texts: [&[&[u8]]; 6] = [
        &[b"33649\n", &comments, b"tithi 13\n"],
        &[b"401600\n", &comments, b"tithi 30\n"],
        &[b"5 #", &many(b"x "), b"\ntithi 30\n"],
        &[&many(b"0"), b"5\n"],
        &[&many(b"5 "), b"\n"],
        &[&many(b" \t\r"), b"5\n"],
    ];
    for pieces in texts {
        compare(checks, almanac, &pieces.concat());
    }
    for length in [TOO_LONG - 1, TOO_LONG, TOO_LONG + 1, 8 * TOO_LONG] {
        for first in ["33649\n", "x\n", "5\nedition 3\n"] {
            let mut text = [first.as_bytes(), &comments].concat();
            text.resize(length - 1, b' ');
            text.push(b'\n');
            compare(checks, almanac, &text);
        }
    }
    compare_pieces(checks, almanac, &[b"336", b"49\ntithi 1", b"4\n"]);
    compare_pieces(checks, almanac, &[b"33649", b"\n"]);
    compare_pieces(checks, almanac, &[b"33649\n", b"edition 3\n"]);
    compare_pieces(checks, almanac, &[b"5\n", b"x"]);
}

pub fn run(checks: &mut Checks, almanac: &Almanac) {
    let mut random = Random::from_seed();
    examples(checks, almanac);
    day_lines(checks, almanac);
    bytes(checks, almanac);
    odd(checks, almanac);
    reasons(checks, almanac, &mut random);
    random_texts(checks, almanac, &mut random);
    long(checks, almanac);
}
