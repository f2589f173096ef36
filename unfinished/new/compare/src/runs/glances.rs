//! P4: the program `day`, on days in every form in which a line names one, good and bad.

use std::collections::BTreeMap;

use crate::checks::Checks;
use crate::random::Random;
use crate::reference::almanac::Almanac;
use crate::reference::days::LAST_DAY;
use crate::reference::edition::Edition;
use crate::reference::forms::Forms;
use crate::reference::glance::printed;
use crate::reference::iso::{Form, IsoDates};
use crate::reference::month_starts::MonthStarts;
use crate::reference::saka::SakaDate;
use crate::reference::saka_line::answers;

use super::form_text::cased;
use super::one_line::{saka_words, spoil, written, Program, Values};
use super::page_text::{day, Line};

const PATH: &str = "target/bin/day";

/// How many Saka dates are drawn of each kind.
const OF_A_KIND: u32 = 40;

/// The document's own day, whole.
const WORKED: &str = "\
day 33649
date 1612-5-14
iso 1612-05-14
weekday 0 monday
cycle 8 day 1521
edition 1
tithi 14 purnima
nakshatra 15 vishakha
yoga 18 parigha
karana 7 vishti
lunar month 1140 began 33636 1612-5-1
body     mean       true       sign
sun      34:13:40   35:44:8    vrishabha
moon     200:10:22  204:44:2   tula
apogee   314:54:43  -          kumbha
node     44:21:2    -          vrishabha
mars     299:55:13  335:56:3   mina
mercury  47:14:49   47:3:58    vrishabha
jupiter  128:15:16  122:9:48   simha
venus    95:41:35   72:15:44   mithuna
saturn   330:36:45  326:42:29  kumbha
";

/// Lines that name that day.
const SAME: [&str; 22] = [
    "33649",
    "000033649",
    "1612-5-14",
    "01612-005-0014",
    "iso 1612-05-14",
    "ISO 1612-05-14",
    "saka 1534 1 14 monday",
    "saka 1534 vaishakha shukla 15 monday",
    "Saka 1534, Vaishakha, shukla 15, Mon # Ganesha, as his commentator has it",
    "saka 1534 vaiśākha pūrṇimā 0",
    "SAKA 01534 VAIŚĀKHA Śukla 15 MONDAY",
    "saka 1534 1 purnima mon",
    "33649 edition 1",
    "33649 Edition 01",
    "1612-5-14, edition, 1",
    "iso 1612-05-14 edition 1",
    "saka 1534 1 14 monday edition 1",
    "saka 1534 1 shukla 015 monday EDITION 1",
    "\t33649\r",
    " ,33649, ",
    "33649# 5",
    "\u{feff}33649",
];

/// Lines that begin so, by the line `day` or by the refusal.
const LINES: [(&str, &str); 60] = [
    (
        "0",
        "day 0\ndate 1520-3-19\niso 1520-03-29\nweekday 0 monday\ncycle 0 day 0\n",
    ),
    (
        "401599 edition 2",
        "day 401599\ndate 2619-10-13\niso 2619-10-13\n",
    ),
    ("1582-10-4", "day 22844\ndate 1582-10-4\niso 1582-10-14\n"),
    ("iso 1582-10-14", "day 22844\n"),
    ("iso 1520-03-29", "day 0\n"),
    (
        "saka 1555 chaitra shukla 1 friday",
        "day 41255\ndate 1633-3-11\n",
    ),
    ("saka 1522 0 2 friday", "day 29208\n"),
    ("saka 1530 7 0 saturday", "day 32366\n"),
    ("", "refused 3\n"),
    (" # 33649", "refused 3\n"),
    ("x", "refused 3\n"),
    ("yesterday", "refused 3\n"),
    ("33649 33650", "refused 3\n"),
    ("33649 2", "refused 3\n"),
    ("33649 edition", "refused 3\n"),
    ("33649 edition x", "refused 3\n"),
    ("33649 edition 2 2", "refused 3\n"),
    ("33649 edition 2 edition 2", "refused 3\n"),
    ("edition 2", "refused 3\n"),
    ("edition 2 33649", "refused 3\n"),
    ("day 33649", "refused 3\n"),
    ("date 1612-5-14", "refused 3\n"),
    ("-1", "refused 3\n"),
    ("1612-5", "refused 3\n"),
    ("1612/5/14", "refused 3\n"),
    ("0000033649", "refused 3\n"),
    ("iso", "refused 3\n"),
    ("iso 33649", "refused 3\n"),
    ("iso 1612-5-14", "day 33649\n"),
    ("iso 01612-05-014", "day 33649\n"),
    ("saka 1443 11 11 saturday", "day 691\n"),
    ("saka 1443 11 11 saturday edition 2", "day 719\n"),
    ("iso 1612-05", "refused 3\n"),
    ("iso 1612-05-14 1612-05-14", "refused 3\n"),
    ("1612-05-14 iso", "refused 3\n"),
    ("saka", "refused 3\n"),
    ("saka 1534 1 14", "refused 3\n"),
    ("saka 1534 1 monday", "refused 3\n"),
    ("saka 1534 12 14 monday", "refused 3\n"),
    ("saka 1534 1 30 monday", "refused 3\n"),
    ("saka 1534 1 14 7", "refused 3\n"),
    ("saka 1534 1 shukla 0 monday", "refused 3\n"),
    ("saka 1534 1 krishna 16 monday", "refused 3\n"),
    ("saka 1534 1 shukla monday", "refused 3\n"),
    ("saka 1534 mesha 14 monday", "refused 3\n"),
    ("saka 1534 1 14 monday 1", "refused 3\n"),
    ("saka 99 12 14 monday edition 3", "refused 3\n"),
    ("33649 edition 3", "refused 14\n"),
    ("401600 edition 0", "refused 14\n"),
    ("1582-10-10 edition 14", "refused 14\n"),
    ("saka 1441 0 0 monday edition 3", "refused 14\n"),
    ("1582-10-10", "refused 1\n"),
    ("iso 1500-02-29", "refused 1\n"),
    ("401600", "refused 2\n"),
    ("2619-10-14", "refused 2\n"),
    ("iso 1520-03-28", "refused 2\n"),
    ("saka 1441 0 0 monday", "refused 2\n"),
    ("saka 2542 0 0 monday edition 2", "refused 2\n"),
    ("saka 1442 0 0 sunday", "refused 2\n"),
    ("saka 1534 1 14 wednesday", "refused 4\n"),
];

/// The reference by itself is held to all of these too.
fn worked(checks: &mut Checks, program: &Program) {
    for line in SAME {
        let own = (program.printed)(format!("{line}\n").as_bytes()).output;
        checks.same_lines("docs/day.md", || line.to_string(), WORKED, &own);
    }
    for (line, begins) in LINES {
        let mut own = (program.printed)(format!("{line}\n").as_bytes()).output;
        own.truncate(begins.len());
        checks.same_lines("a day's line", || line.to_string(), begins, &own);
    }
    program.lines(checks, SAME);
    program.lines(checks, LINES.map(|(line, _)| line));
}

/// A line that names a day by number, date or ISO date.
fn named(random: &mut Random, almanac: &Almanac, number: u32) -> Line {
    match random.below(3) {
        0 => {
            let iso = IsoDates::of_all_days().line(Form::Date, number);
            let iso = iso.expect("a day").trim_end().to_string();
            vec![cased(random, "iso"), iso]
        }
        _ => vec![day(random, almanac, number)],
    }
}

fn with_edition(random: &mut Random, mut line: Line) -> Line {
    let edition = random.one_of(&["", "", "1", "2", "2", "02", "3"]);
    if !edition.is_empty() && (edition != "3" || random.once_in(4)) {
        line.extend([cased(random, "edition"), edition.to_string()]);
    }
    line
}

/// Days at both ends, where cycles turn, about October 1582, whose elements differ by edition, and any.
fn days(almanac: &Almanac, random: &mut Random) -> Vec<u32> {
    let ends = (0..40)
        .chain(LAST_DAY - 10..=LAST_DAY)
        .chain(22_840..22_850);
    let turns = (1..100).flat_map(|cycle| [4016 * cycle - 1, 4016 * cycle]);
    let mut days: Vec<u32> = ends.chain(turns).collect();
    days.extend((0..150).map(|_| random.one_of(almanac.parted())));
    days.extend((0..150).map(|_| random.below(LAST_DAY + 1)));
    days
}

/// What a Saka date's two answers are: refused, a day that doesn't fit, or one that does.
fn kind(almanac: &Almanac, date: SakaDate) -> [u32; 2] {
    answers(almanac, Edition::First, date).map(|answer| match answer {
        Ok(given) if given.fits => 2,
        Ok(_) => 1,
        Err(_) => 0,
    })
}

/// The date with one or two of its numbers out of range.
fn beyond(random: &mut Random, mut date: SakaDate) -> SakaDate {
    for _ in 0..random.between(1, 2) {
        match random.below(4) {
            0 => date.year = random.one_of(&[0, 1441, 2542, 999_999_999]),
            1 => date.months = random.one_of(&[12, 13, 999_999_999]),
            2 => date.tithis = random.one_of(&[30, 31, 999, 999_999_999]),
            _ => date.weekday = random.one_of(&[7, 8, 999_999_999]),
        }
    }
    date
}

/// Drawn Saka dates, equally many of each kind: each answer refused, not fitting or fitting, but not both fitting,
/// which no date has. Then some with numbers out of range.
pub fn saka_dates(almanac: &Almanac, random: &mut Random) -> Vec<SakaDate> {
    let kinds = [0, 1, 2]
        .into_iter()
        .flat_map(|own| [0, 1, 2].map(|other| [own, other]));
    let kinds = kinds.filter(|kind| *kind != [2, 2]);
    let mut left: BTreeMap<[u32; 2], u32> = kinds.map(|kind| (kind, OF_A_KIND)).collect();
    let mut dates = Vec::new();
    while left.values().any(|left| *left > 0) {
        let date = SakaDate {
            year: random.between(1442, 2541),
            months: random.below(12),
            tithis: random.below(30),
            weekday: random.below(7),
            pending: false,
        };
        let left = left.get_mut(&kind(almanac, date));
        if let Some(left) = left.filter(|left| **left > 0) {
            *left -= 1;
            dates.push(date);
        }
    }
    let some = dates.iter().step_by(5);
    let beyond: Vec<SakaDate> = some.map(|date| beyond(random, *date)).collect();
    [dates, beyond].concat()
}

pub fn run(checks: &mut Checks, almanac: &Almanac) {
    let starts = MonthStarts::of(almanac);
    let program = Program {
        path: PATH,
        printed: &|input| printed(almanac, &starts, input),
    };
    let names = &Forms::of_document().names;
    let mut random = Random::from_seed();
    worked(checks, &program);
    program.ends_of(checks, "33649 edition 2");
    program.ends_of(checks, "saka 1534 1 14 monday");
    for (before, after) in [
        ("", "33649\n"),
        ("33649", "edition 2\n"),
        ("iso ", "1612-05-14\n"),
        ("saka 1534 1 1", " monday\n"),
        ("33649\n", ""),
    ] {
        program.every_byte(checks, before, after);
    }
    let mut lines: Vec<Line> = Vec::new();
    for number in days(almanac, &mut random) {
        lines.push(named(&mut random, almanac, number));
    }
    for date in saka_dates(almanac, &mut random) {
        let words = saka_words(&mut random, names, Values::Either, date);
        lines.push([vec![cased(&mut random, "saka")], words].concat());
    }
    for (line, round) in lines.into_iter().zip(0..) {
        let line = with_edition(&mut random, line);
        let mut input = written(&mut random, &line);
        program.compare(checks, &input);
        if round % 3 == 0 {
            spoil(&mut random, &mut input);
            program.compare(checks, &input);
        }
    }
}
