//! Leafing by lunar month: rows of month turns extended by a day, by many and at once, in both editions;
//! rows whose numbers and lists are altered; the latest turn of a day; and the program `lunar_month`.

use std::ptr::{null, null_mut};

use crate::calls::*;
use crate::checks::Checks;
use crate::random::Random;
use crate::reference::almanac::Almanac;
use crate::reference::days::LAST_DAY;
use crate::reference::edition::Edition;
use crate::reference::exact::reduced;
use crate::reference::list::written_from;
use crate::reference::month_starts::{line, printed, MonthStarts, Row, Turn};
use crate::reference::page::TOO_LONG;
use crate::reference::refusal::result_number;

use super::find::many;
use super::lent::Lent;
use super::page_text::{damage, day, put_line};
use super::programs::{self, shown};
use super::{EDITIONS, NO_DAYS, NO_EDITIONS, WIDTH_EDGES};

/// All days are covered by a row with this number.
const ALL: u32 = LAST_DAY + 1;

/// So many turns there are among all days, in each edition.
const TURNS: usize = 13_600;

/// So many of them fall on another day in the one edition than in the other.
const DIFFER: usize = 62;

fn named_edition(edition: u32) -> Edition {
    Edition::numbered(edition).expect("an edition")
}

fn halves(upper: u32, lower: u32) -> u64 {
    u64::from(upper) << 32 | u64::from(lower)
}

fn bytes_of(entries: &[u32]) -> Vec<u8> {
    entries.iter().flat_map(|day| day.to_le_bytes()).collect()
}

/// A row, and what it is extended by.
#[derive(Clone, Copy)]
struct Extension<'a> {
    starts: &'a MonthStarts,
    row: Row,
    days: u32,
    /// Whether the host's calls are made too, in edition 1.
    host: bool,
}

impl<'a> Extension<'a> {
    fn new(starts: &'a MonthStarts, row: Row, days: u32) -> Extension<'a> {
        Extension {
            starts,
            row,
            days,
            host: row.edition == 1,
        }
    }

    /// For long spans of which others are made by the host's calls.
    fn by_bridge(self) -> Extension<'a> {
        Extension {
            host: false,
            ..self
        }
    }
}

impl Extension<'_> {
    fn input(&self, length: usize) -> String {
        let (row, days) = (self.row, self.days);
        format!("{row:?}, {days} more days, a list of {length} bytes")
    }

    /// The refusal, the turns that the row then has or that would do, and the days covered.
    fn numbers(&self, length: usize) -> [u32; 3] {
        match self.starts.extended(self.row, self.days, length / 4) {
            Ok(extended) => [0, extended.row.turns, extended.row.covered],
            Err((refusal, turns)) => [refusal, turns, 0],
        }
    }

    /// The calls that take a list's length alone.
    fn compare_lengths(&self, checks: &mut Checks, length: usize) {
        let Row {
            edition,
            turns,
            covered,
        } = self.row;
        let [refusal, after, covers] = self.numbers(length);
        let input = || self.input(length);
        if let Ok(length) = u32::try_from(length) {
            let came = bridge_months_covered(edition, turns, covered, self.days, length);
            let expected = halves(refusal, covers);
            checks.same("bridge_months_covered", input, expected, came);
        }
        if self.host {
            let came = graha_months_extended_turns(turns, covered, self.days, length);
            checks.same("graha_months_extended_turns", input, after, came);
        }
    }

    /// All calls, with a list of these bytes: the numbers, and each byte of the list and on both sides.
    fn compare(&self, checks: &mut Checks, list: &[u8]) {
        let Row {
            edition,
            turns,
            covered,
        } = self.row;
        let input = || self.input(list.len());
        let [refusal, turns_after, _] = self.numbers(list.len());
        let after = match self.starts.extended(self.row, self.days, list.len() / 4) {
            Ok(extended) => written_from(turns as usize, extended.added, list),
            Err(_) => list.to_vec(),
        };
        self.compare_lengths(checks, list.len());
        let mut lent = Lent::holding(list);
        let to = lent.bytes_mut();
        let came = unsafe {
            let (to, length) = (to.as_mut_ptr(), to.len());
            bridge_months_extend(edition, turns, covered, self.days, to, length)
        };
        let name = "bridge_months_extend";
        checks.same(name, input, halves(refusal, turns_after), came);
        lent.compare(checks, name, input, &after);
        if self.host {
            let mut lent = Lent::holding(list);
            let to = lent.bytes_mut();
            let came = unsafe {
                let (to, length) = (to.as_mut_ptr(), to.len());
                graha_months_extend(turns, covered, self.days, to, length)
            };
            checks.same("graha_months_extend", input, refusal, came);
            lent.compare(checks, "graha_months_extend", input, &after);
        }
    }

    /// With lists of each length about the stored turns and about the need; their bytes are a pattern.
    fn compare_about(&self, checks: &mut Checks) {
        let stored = self.row.turns as usize;
        let need = match self.starts.extended(self.row, self.days, usize::MAX) {
            Ok(extended) => extended.row.turns as usize,
            Err(_) => stored,
        };
        let lengths = |count: usize| (4 * count).saturating_sub(5)..4 * count + 5;
        for length in lengths(stored).chain(lengths(need)) {
            self.compare(checks, Lent::new(length).bytes());
        }
    }
}

/// The latest turn of a day on a row, by all calls that take its list. With `guarded`, the list stands
/// between other bytes, and all of them have to be as they were.
fn compare_turn(checks: &mut Checks, row: Row, asked: u32, day: u32, list: &[u8], guarded: bool) {
    let Row {
        edition,
        turns,
        covered,
    } = row;
    let input = || {
        let start = &list[..list.len().min(80)];
        let length = list.len();
        format!("{row:?}, edition {asked}, day {day}, a list of {length} bytes: {start:?}")
    };
    let answer = row.turn_at(asked, day, list);
    let (refusal, told) = answer.err().unwrap_or((0, 0));
    let latest = answer.ok().flatten();
    let lent = guarded.then(|| Lent::holding(list));
    let from = lent.as_ref().map_or(list, Lent::bytes);
    let (bytes, length) = (from.as_ptr(), from.len());
    let came =
        unsafe { bridge_month_at_result(edition, turns, covered, asked, day, bytes, length) };
    checks.same("bridge_month_at_result", input, refusal, came);
    let came = unsafe { bridge_month_at(edition, turns, covered, asked, day, bytes, length) };
    let expected = latest.map_or(0, |turn| halves(turn.number, turn.start));
    checks.same("bridge_month_at", input, expected, came);
    if edition == 1 && asked == 1 {
        let came = unsafe {
            [
                graha_month_result(turns, covered, day, bytes, length),
                graha_month_start(turns, covered, day, bytes, length),
                graha_month_number(turns, covered, day, bytes, length),
            ]
        };
        // With 7 the number told is the one that the list is too short for.
        let Turn { start, number } = latest.unwrap_or(Turn {
            start: 0,
            number: told,
        });
        let names = "graha_month_result, graha_month_start, graha_month_number";
        checks.same(names, input, [refusal, start, number], came);
    }
    if let Some(lent) = lent {
        lent.compare(checks, "the calls of a month", input, list);
    }
}

/// The reference by itself: the turns of all days, two neighbours 29 or 30 days apart, and on each of
/// them, and on no other day, the Moon less the Sun smaller than the day before; the editions' turns, in
/// their order, at most a day apart; and the days of L14's examples.
fn laws(checks: &mut Checks, almanac: &Almanac, starts: &MonthStarts) {
    for edition in EDITIONS {
        let edition = named_edition(edition);
        let all = starts.all(edition);
        let table = || format!("all days, {edition:?}");
        checks.same("the number of turns", table, TURNS, all.len());
        for (earlier, later) in all.iter().zip(&all[1..]) {
            let input = || format!("days {earlier} and {later}, {edition:?}");
            let apart = later - earlier;
            checks.same(
                "29 or 30 days apart",
                input,
                true,
                (29..=30).contains(&apart),
            );
        }
        let ahead = |number: u32| {
            let elements = almanac.days()[number as usize].elements(edition);
            reduced(i128::from(elements.moon) - i128::from(elements.sun))
        };
        for day in 1..=LAST_DAY {
            let input = || format!("day {day}, {edition:?}");
            let turned = ahead(day) < ahead(day - 1);
            let is_turn = all.binary_search(&day).is_ok();
            checks.same("the Moon has come round", input, turned, is_turn);
        }
    }
    let [first, second] = EDITIONS.map(|edition| starts.all(named_edition(edition)));
    let differ = first.iter().zip(second).filter(|(one, other)| one != other);
    let table = || "all days".to_string();
    checks.same(
        "the turns that differ",
        table,
        DIFFER,
        differ.clone().count(),
    );
    let most = differ.map(|(one, other)| one.abs_diff(*other)).max();
    checks.same("how far the editions are", table, Some(1), most);
    for (day, expected) in [
        ("33649", "33649 1612-5-14 1140 33636 1612-5-1\n"),
        ("0", "0 1520-3-19 0 - -\n"),
    ] {
        let came = line(almanac, starts, format!("{day}\n").as_bytes());
        let input = || format!("day {day}");
        checks.same("its line", input, Ok(expected.to_string()), came);
    }
}

fn new_rows(checks: &mut Checks) {
    for edition in EDITIONS.into_iter().chain(NO_EDITIONS).chain(WIDTH_EDGES) {
        let input = || format!("edition {edition}");
        let expected = result_number(&Row::new(edition));
        let came = bridge_months_new(edition);
        checks.same("bridge_months_new", input, expected, came);
    }
}

/// Whole rows at once, in lists about the need; and by steps of each kind, each byte compared after each
/// step: the row is then the one made afresh.
fn whole_rows(checks: &mut Checks, starts: &MonthStarts, random: &mut Random) {
    for edition in EDITIONS {
        let row = Row::new(edition).expect("an edition");
        let days = LAST_DAY;
        let whole = Extension::new(starts, row, days);
        whole.compare(checks, Lent::new(4 * TURNS).bytes());
        for length in [4 * TURNS - 1, 4 * TURNS + 5] {
            whole.by_bridge().compare(checks, Lent::new(length).bytes());
        }
        for longest in [600, 20_000, 200_000] {
            let tail = random.below(4) as usize;
            let mut list = Lent::new(4 * TURNS + tail).bytes().to_vec();
            let mut row = row;
            while row.covered < ALL {
                let days = random.below(longest).min(ALL - row.covered);
                let extension = Extension::new(starts, row, days);
                if longest == 600 {
                    extension.compare(checks, &list);
                } else {
                    extension.by_bridge().compare(checks, &list);
                }
                let room = list.len() / 4;
                let extended = starts.extended(row, days, room).expect("room for all");
                list = written_from(row.turns as usize, extended.added, &list);
                row = extended.row;
            }
            let all = bytes_of(starts.all(named_edition(edition)));
            let input = || format!("edition {edition}, steps of up to {longest} days");
            checks.same_bytes("the row made afresh", input, &all, &list[..all.len()]);
        }
    }
}

/// A whole row by single days. The list is the call's own; about the place where a turn may come its
/// bytes are compared after each day, and all of them at its end.
fn by_single_days(checks: &mut Checks, starts: &MonthStarts, edition: u32) {
    let all = starts.all(named_edition(edition));
    let mut lent = Lent::new(4 * TURNS + 3);
    let untouched = lent.bytes().to_vec();
    let finished = written_from(0, all, &untouched);
    let mut turns = 0;
    for covered in 1..=LAST_DAY {
        let list = lent.bytes_mut();
        let (to, length) = (list.as_mut_ptr(), list.len());
        let came = unsafe { bridge_months_extend(edition, turns, covered, 1, to, length) };
        if all.get(turns as usize) == Some(&covered) {
            turns += 1;
        }
        let input = || format!("edition {edition}, {turns} turns with the day behind {covered}");
        checks.same("bridge_months_extend", input, u64::from(turns), came);
        let end = 4 * turns as usize;
        let about = end.saturating_sub(40)..(end + 40).min(untouched.len());
        let mut expected = untouched[about.clone()].to_vec();
        let done = end - about.start;
        expected[..done].copy_from_slice(&finished[about.start..end]);
        checks.same_bytes(
            "bridge_months_extend",
            input,
            &expected,
            &lent.bytes()[about],
        );
    }
    let input = || format!("edition {edition}, by single days");
    lent.compare(checks, "bridge_months_extend", input, &finished);
}

/// Rows of some 3,000 days, each altered to begin without turns where it begins: by single days over the
/// whole table, on a list that is carried on; and every day asked for on the row so far.
fn by_stretches(checks: &mut Checks, starts: &MonthStarts, random: &mut Random) {
    let mut row = Row::new(1).expect("an edition");
    let mut list = Vec::new();
    while row.covered < ALL {
        if list.len() < 4 * row.turns as usize + 4 {
            row.turns = 0;
            list = Lent::new(random.between(4, 420) as usize).bytes().to_vec();
        }
        let extension = Extension::new(starts, row, 1);
        extension.compare(checks, &list);
        let room = list.len() / 4;
        let extended = starts.extended(row, 1, room).expect("room for one");
        list = written_from(row.turns as usize, extended.added, &list);
        row = extended.row;
        let held = &list[..4 * row.turns as usize];
        compare_turn(checks, row, 1, row.covered - 1, held, true);
    }
}

/// Every day on the row made afresh, up to some days behind it; many days on the full row; and the days
/// before the first turn, where none is said.
fn every_day(checks: &mut Checks, starts: &MonthStarts, random: &mut Random) {
    for edition in EDITIONS {
        let named = named_edition(edition);
        let full = bytes_of(starts.all(named));
        let row_of = |covered: u32| Row {
            edition,
            turns: starts.among(named, 0..covered).len() as u32,
            covered,
        };
        for day in 0..=LAST_DAY {
            let covered = (day + random.between(1, 90)).min(ALL);
            let row = row_of(covered);
            // The row's own list, of which only the last entries are of use here, would take long to be
            // gone through from its start for each day: see `tail_of`.
            tail_of(checks, row, day, &full);
        }
        for _ in 0..400 {
            let day = random.below(ALL);
            let length = full.len() - random.below(2) as usize * 4 * (TURNS / 2);
            let covered = if length == full.len() {
                ALL
            } else {
                ALL / 2 - 60
            };
            compare_turn(
                checks,
                row_of(covered),
                edition,
                day,
                &full[..length],
                false,
            );
        }
        for covered in [1, 2, 3, 28, 31, 60] {
            for day in 0..covered {
                compare_turn(checks, row_of(covered), edition, day, &full[..12], true);
            }
        }
    }
}

/// As `compare_turn` by the bridge alone, on a row that is sound: its turns are sorted.
fn tail_of(checks: &mut Checks, row: Row, day: u32, full: &[u8]) {
    let Row {
        edition,
        turns,
        covered,
    } = row;
    let list = &full[..4 * turns as usize];
    let entry = |at: usize| u32::from_le_bytes(list[4 * at..4 * at + 4].try_into().expect("four"));
    let mut number = turns as usize;
    while number > 0 && entry(number - 1) > day {
        number -= 1;
    }
    let expected = match number {
        0 => 0,
        _ => halves(number as u32, entry(number - 1)),
    };
    let input = || format!("{row:?}, day {day}");
    let (bytes, length) = (list.as_ptr(), list.len());
    let came = unsafe { bridge_month_at(edition, turns, covered, edition, day, bytes, length) };
    checks.same("bridge_month_at", input, expected, came);
}

/// Covered numbers at the ends of what there is and past them.
const COVERED_EDGES: [u32; 12] = [
    0,
    1,
    2,
    30,
    31,
    ALL - 31,
    ALL - 1,
    ALL,
    ALL + 1,
    ALL + 2,
    1 << 31,
    u32::MAX,
];

/// Extensions at the ends of the table and past its last day, on rows of every kind, so that the order
/// 14, 2, 7 shows.
fn at_edges(checks: &mut Checks, starts: &MonthStarts) {
    let editions = EDITIONS.into_iter().chain([0, 3, 257, u32::MAX]);
    for edition in editions {
        for covered in COVERED_EDGES {
            let to_end = ALL.saturating_sub(covered);
            let far = u32::MAX - covered;
            let mut days = vec![0, 1, 2, 29, 30, 31, 400, to_end + 1];
            days.extend([far, far.saturating_add(1), u32::MAX - 1, u32::MAX, ALL]);
            if to_end <= 31 {
                days.extend([to_end.saturating_sub(1), to_end]);
            }
            for days in days {
                for turns in [0, 1, 5, 70_000, u32::MAX] {
                    let row = Row {
                        edition,
                        turns,
                        covered,
                    };
                    let extension = Extension::new(starts, row, days);
                    for length in [0, 3, 4, 19, 20, 24, 27] {
                        extension.compare(checks, Lent::new(length).bytes());
                    }
                    for length in [65_535, 65_536, 280_000, u32::MAX as usize] {
                        extension.compare_lengths(checks, length);
                    }
                }
            }
        }
    }
    // A length of more than 32 bits; the turns after are a number of 32.
    for length in [1 << 32, (1 << 32) + 3, 1 << 34, 1 << 63, usize::MAX] {
        for turns in [0, 5, 1 << 30, (1 << 30) + 1, u32::MAX - 20_000] {
            for days in [0, 1, 100, 2000, ALL] {
                let row = Row {
                    edition: 1,
                    turns,
                    covered: 1,
                };
                Extension::new(starts, row, days).compare_lengths(checks, length);
            }
        }
    }
    let none = unsafe { graha_months_extend(0, 1, 0, null_mut(), 0) };
    let input = || "no list".to_string();
    checks.same("graha_months_extend", input, 0, none);
    let none = unsafe { graha_months_extend(0, 1, 400, null_mut(), 0) };
    checks.same("graha_months_extend", input, 7, none);
    let none = unsafe { graha_month_result(0, 1, 0, null(), 0) };
    checks.same("graha_month_result", input, 0, none);
}

/// A list of any bytes, of days, or of days about one.
fn altered_list(random: &mut Random, entries: u32, about: u32) -> Vec<u8> {
    let kind = random.below(5);
    let mut list: Vec<u8> = (0..entries)
        .flat_map(|at| {
            let day = match kind {
                0 => random.number(),
                1 => random.below(ALL),
                2 => about.saturating_sub(3) + random.below(7),
                3 => about.saturating_sub(30 * entries) + 30 * at,
                _ => random.one_of(&[0, 1, about, LAST_DAY, ALL, 1 << 31, u32::MAX]),
            };
            day.to_le_bytes()
        })
        .collect();
    list.extend((0..random.below(4)).map(|_| random.number() as u8));
    list
}

/// Rows whose numbers and lists are altered in any way: extended, and asked for days at and about what
/// stands in them.
fn altered(checks: &mut Checks, starts: &MonthStarts, random: &mut Random) {
    for round in 0..150_000 {
        let about = random.below(ALL);
        let count = random.below(14);
        let list = altered_list(random, count, about);
        let turns = match random.below(8) {
            0 => count + random.between(1, 3),
            1 => random.number(),
            2 => random.below(count + 1),
            3 => count.saturating_sub(1),
            _ => count,
        };
        let covered = match random.below(8) {
            0 => random.one_of(&COVERED_EDGES),
            1 => about,
            2 => about + 1,
            3 => ALL,
            _ => (about + random.below(400)).min(ALL),
        };
        let edition = match random.below(8) {
            0 => random.one_of(&NO_EDITIONS),
            1..=3 => 2,
            _ => 1,
        };
        let row = Row {
            edition,
            turns,
            covered,
        };
        let asked = match random.below(8) {
            0 => random.one_of(&NO_EDITIONS),
            1 => 3_u32.saturating_sub(edition),
            _ => edition,
        };
        let day = match random.below(8) {
            0 => random.one_of(&NO_DAYS),
            1 => covered,
            2 => covered.saturating_sub(1),
            3 => about.saturating_sub(random.below(400)),
            _ => about,
        };
        compare_turn(checks, row, asked, day, &list, true);
        let days = match random.below(6) {
            0 => random.number(),
            1 => ALL.saturating_sub(covered) + random.below(2),
            _ => random.below(200),
        };
        let past = u64::from(covered) + u64::from(days) > u64::from(ALL);
        if days <= 200 || past || round % 500 == 0 {
            Extension::new(starts, row, days).compare(checks, &list);
        }
    }
    // Every length about the stored turns and about the need.
    for _ in 0..300 {
        let row = Row {
            edition: random.one_of(&EDITIONS),
            turns: random.below(6),
            covered: random.between(1, ALL),
        };
        let days = random.below(200).min(ALL - row.covered);
        Extension::new(starts, row, days).compare_about(checks);
        let day = row.covered - 1;
        for length in 0..=4 * row.turns + 5 {
            let list = altered_list(random, length / 4 + 1, day);
            compare_turn(
                checks,
                row,
                row.edition,
                day,
                &list[..length as usize],
                true,
            );
        }
    }
    // Every two editions, on sound rows and on rows with each other refusal.
    let editions = EDITIONS.into_iter().chain(NO_EDITIONS);
    for edition in editions.clone() {
        for asked in editions.clone() {
            for (turns, covered, day) in [(2, 100, 50), (2, 0, 0), (2, 100, 100), (9, 100, 50)] {
                let row = Row {
                    edition,
                    turns,
                    covered,
                };
                compare_turn(checks, row, asked, day, &bytes_of(&[1, 31]), true);
            }
        }
    }
}

const PROGRAM: &str = "target/bin/lunar_month";

/// Lines that are accepted, without their newline.
const ACCEPTED: [&str; 23] = [
    "0",
    "1",
    "33649",
    "33649 1",
    "33649 2",
    "1612-5-14",
    "1612-5-14 2",
    "01612-005-0014 000000002",
    "401599",
    "401599 2",
    "2619-10-13",
    "000401599 01",
    "1582-10-4",
    "1582-10-15",
    " 5",
    "5   2   ",
    "5,2",
    "\t\r 5\t\r2 \t\r",
    "5#",
    "5 2#",
    "5 # 2",
    "5 2 # a day and an edition",
    "1520-3-19\r",
];

/// Lines that are refused, by their refusal: first in the order 3, 14, 1, 2 counts.
const REFUSED: [(u32, &str); 41] = [
    (3, ""),
    (3, " "),
    (3, "#"),
    (3, "# 5"),
    (3, "x"),
    (3, "5 x"),
    (3, "x 2"),
    (3, "5 2 2"),
    (3, "5 2 x"),
    (3, "401600 3 3"),
    (3, "-1"),
    (3, "+5"),
    (3, "5 -1"),
    (3, "5 +1"),
    (3, "5.0"),
    (3, "1520-3"),
    (3, "1520-3-19-1"),
    (3, "1520/3/19"),
    (3, "0000000005"),
    (3, "5 0000000002"),
    (3, "1234567890"),
    (3, "5 edition 2"),
    (3, "edition 2"),
    (3, "1582-10-10 x"),
    (3, "x 3"),
    (3, "5 1520-3-19"),
    (14, "5 0"),
    (14, "5 3"),
    (14, "5 999999999"),
    (14, "401600 3"),
    (14, "1582-10-10 0"),
    (14, "2619-10-14 14"),
    (1, "1582-10-10"),
    (1, "1582-10-5 2"),
    (1, "1700-2-29 1"),
    (1, "0-0-0"),
    (2, "401600"),
    (2, "999999999 2"),
    (2, "1520-3-18"),
    (2, "2619-10-14 1"),
    (2, "0-1-1"),
];

/// Inputs that are not one line with a newline at its end.
const NOT_A_LINE: [&[u8]; 12] = [
    b"",
    b"5",
    b"5 2",
    b"5 ",
    b"401600",
    b"5\n\n",
    b"5\n ",
    b"5\n2\n",
    b"5 2\n#",
    b"\n5\n",
    b"5\n\0",
    b"5 3\n5\n",
];

/// The program, and the turns by which it is held.
struct Program<'a> {
    almanac: &'a Almanac,
    starts: &'a MonthStarts,
}

impl Program<'_> {
    /// On acceptance nothing may stand on standard error.
    fn compare(&self, checks: &mut Checks, pieces: &[&[u8]]) {
        let text = pieces.concat();
        let expected = printed(self.almanac, self.starts, &text);
        let input = || format!("{}, in {} pieces", shown(&text), pieces.len());
        let written = programs::run(checks, PROGRAM, input, pieces);
        checks.same_lines(PROGRAM, input, &expected, &written.output);
        if !expected.starts_with("refused ") {
            checks.same("its standard error", input, "", &written.error);
        }
    }
}

fn program(checks: &mut Checks, almanac: &Almanac, starts: &MonthStarts) {
    let program = Program { almanac, starts };
    for text in ACCEPTED {
        let text = format!("{text}\n");
        let input = || format!("{text:?}");
        let accepted = line(almanac, starts, text.as_bytes()).is_ok();
        checks.same("a line that is accepted", input, true, accepted);
        program.compare(checks, &[text.as_bytes()]);
    }
    for (refusal, text) in REFUSED {
        let text = format!("{text}\n");
        let input = || format!("{text:?}");
        let came = line(almanac, starts, text.as_bytes());
        checks.same("a line that is refused", input, Err(refusal), came);
        program.compare(checks, &[text.as_bytes()]);
    }
    for text in NOT_A_LINE {
        program.compare(checks, &[text]);
    }
    for byte in 0..=255 {
        for (before, after) in [("", "5\n"), ("5", "2\n"), ("5 ", "\n"), ("5 2\n", "")] {
            let text = [before.as_bytes(), &[byte], after.as_bytes()].concat();
            program.compare(checks, &[&text]);
        }
    }
    // A day's turns are reckoned from day 0 on, so most days are early ones. First turns and the days
    // beside them.
    let mut random = Random::from_seed();
    for edition in EDITIONS {
        for round in 0..100 {
            let most = if round % 10 == 0 { TURNS } else { 800 };
            let start = random.one_of(&starts.all(named_edition(edition))[..most]);
            for day in start - 1..=start + 1 {
                let text = format!("{day} {edition}\n");
                program.compare(checks, &[text.as_bytes()]);
            }
        }
    }
    for round in 0..500 {
        let drawn = random.below(if round % 10 == 0 { ALL } else { 20_000 });
        let mut words = vec![day(&mut random, almanac, drawn)];
        if random.once_in(2) {
            words.push(
                random
                    .one_of(&["1", "2", "01", "002", "000000001"])
                    .to_string(),
            );
        }
        let mut text = Vec::new();
        put_line(&mut random, &mut text, &words);
        if round % 3 == 0 {
            damage(&mut random, &mut text);
        }
        program.compare(checks, &[&text]);
    }
    long_and_in_pieces(checks, &program);
}

fn long_and_in_pieces(checks: &mut Checks, program: &Program) {
    let inputs: [&[&[u8]]; 6] = [
        &[b"5 2 #", &many(b"x "), b"\n"],
        &[&many(b" \t\r"), b"5\n"],
        &[&many(b"0"), b"5\n"],
        &[b"5", &many(b" "), b"2\n"],
        &[&many(b"5 "), b"\n"],
        &[b"5\n", &many(b"\0")],
    ];
    for pieces in inputs {
        program.compare(checks, &[&pieces.concat()]);
    }
    for length in [TOO_LONG - 1, TOO_LONG, TOO_LONG + 1, 8 * TOO_LONG] {
        for first in ["5 ", "x", "5\n", "5 3 "] {
            let mut text = first.as_bytes().to_vec();
            text.resize(length - 1, b' ');
            text.push(b'\n');
            program.compare(checks, &[&text]);
        }
    }
    let in_pieces: [&[&[u8]]; 5] = [
        &[b"336", b"49\n"],
        &[b"33649", b" ", b"2", b"\n"],
        &[b"5\n", b"\n"],
        &[b"5", b"\n"],
        &[b"1582-10-", b"10\n"],
    ];
    for pieces in in_pieces {
        program.compare(checks, pieces);
    }
}

pub fn run(checks: &mut Checks, almanac: &Almanac) {
    let starts = MonthStarts::of(almanac);
    let mut random = Random::from_seed();
    laws(checks, almanac, &starts);
    new_rows(checks);
    whole_rows(checks, &starts, &mut random);
    for edition in EDITIONS {
        by_single_days(checks, &starts, edition);
    }
    by_stretches(checks, &starts, &mut random);
    every_day(checks, &starts, &mut random);
    at_edges(checks, &starts);
    altered(checks, &starts, &mut random);
    program(checks, almanac, &starts);
}
