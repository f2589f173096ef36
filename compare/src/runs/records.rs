//! Rows of day records, filled by one call over the bridge: its result, and every field of every
//! record after it, with records on both sides that no call may touch.

use std::ops::Range;

use crate::calls::*;
use crate::checks::Checks;
use crate::random::Random;
use crate::reference::almanac::Almanac;
use crate::reference::days::LAST_DAY;
use crate::reference::records::{filled, Record, DAY, FIELDS};
use crate::reference::refusal::result_number;

use super::{EDITIONS, NO_DAYS, NO_EDITIONS};

/// The longest row of those whose lengths are tried one by one.
const MOST_RECORDS: usize = 60;

/// Longer rows.
const LONG: [usize; 10] = [61, 127, 128, 255, 256, 257, 1000, 4016, 4096, 10_000];

/// Records on each side, at least.
const GUARD: usize = 2;

/// A row of records within others.
struct Row {
    memory: Vec<Record>,
    lent: Range<usize>,
}

/// Records whose numbers are those of no field, and differ from place to place and from length to
/// length.
fn patterned(length: usize) -> Vec<Record> {
    let first = (length as u32).wrapping_mul(40_503);
    let number = |at: usize| (at as u32).wrapping_mul(2_654_435_761).wrapping_add(first) | 1 << 31;
    let record = |place| std::array::from_fn(|field| number(FIELDS.len() * place + field));
    (0..length).map(record).collect()
}

/// A row as text for a message, cut where it is long.
fn shown(row: &[Record]) -> String {
    let days: Vec<u32> = row.iter().map(|record| record[DAY]).take(60).collect();
    format!("{} records, their days {days:?}", row.len())
}

impl Row {
    /// Records with these days and the pattern, at an address that is a multiple of 8 or only of 4.
    /// The records on both sides have the day `beside`: it would be checked, or filled, by a call that
    /// goes too far.
    fn new(days: &[u32], beside: u32) -> Row {
        let before = GUARD + days.len() % 3;
        let mut row = Row {
            memory: patterned(before + days.len() + GUARD),
            lent: before..before + days.len(),
        };
        for record in &mut row.memory {
            record[DAY] = beside;
        }
        for (record, day) in row.memory[row.lent.clone()].iter_mut().zip(days) {
            record[DAY] = *day;
        }
        row
    }

    /// Fills the row as it stands, and compares the result and all memory about the row.
    fn compare(&mut self, checks: &mut Checks, almanac: &Almanac, edition: u32) {
        let before = self.memory[self.lent.clone()].to_vec();
        let expected = filled(almanac, edition, &before);
        let result = result_number(&expected);
        let mut after = self.memory.clone();
        if let Ok(filled) = expected {
            after[self.lent.clone()].copy_from_slice(&filled);
        }

        let rows = &mut self.memory[self.lent.clone()];
        let came = unsafe { bridge_fill_records(edition, rows.as_mut_ptr(), rows.len()) };
        let input = || format!("edition {edition}, {}", shown(&before));
        checks.same("bridge_fill_records", input, result, came);
        for (at, (expected, came)) in after.iter().zip(&self.memory).enumerate() {
            for ((field, expected), came) in FIELDS.iter().zip(expected).zip(came) {
                let place = at as i64 - self.lent.start as i64;
                let input = || format!("{}, record {place} (from 0): {field}", input());
                checks.same("bridge_fill_records", input, *expected, *came);
            }
        }
    }
}

/// Fills a row of these days in each of the editions, and then the same row once more in any of
/// them. On both sides are good days or bad ones.
fn compare(
    checks: &mut Checks,
    almanac: &Almanac,
    random: &mut Random,
    editions: &[u32],
    days: &[u32],
) {
    for edition in editions {
        let beside = [any_day(random), bad_day(random)];
        let mut row = Row::new(days, random.one_of(&beside));
        row.compare(checks, almanac, *edition);
        row.compare(checks, almanac, random.one_of(editions));
    }
}

fn any_day(random: &mut Random) -> u32 {
    random.below(LAST_DAY + 1)
}

fn any_days(random: &mut Random, length: usize) -> Vec<u32> {
    (0..length).map(|_| any_day(random)).collect()
}

/// A number that is no day; the low bits of some are a day's.
fn bad_day(random: &mut Random) -> u32 {
    let any = random.between(LAST_DAY + 1, u32::MAX);
    let low_bits = any_day(random) | 1 << random.between(19, 31);
    let near = random.between(LAST_DAY + 1, LAST_DAY + 100);
    let chosen = random.one_of(&NO_DAYS);
    random.one_of(&[any, low_bits, near, chosen])
}

/// Both editions and one that there isn't.
fn three_editions(random: &mut Random) -> [u32; 3] {
    [EDITIONS[0], EDITIONS[1], random.one_of(&NO_EDITIONS)]
}

/// Days of a row of this length.
fn good_days(almanac: &Almanac, random: &mut Random, length: usize) -> Vec<Vec<u32>> {
    let rest = LAST_DAY + 1 - length as u32;
    let starts = [0, rest, random.below(rest + 1), turn_in(random, length)];
    let rising = starts.map(|first| (first..).take(length).collect::<Vec<u32>>());
    let falling = rising.clone().map(|days| days.into_iter().rev().collect());

    let mut rows = [rising, falling].concat();
    rows.push(any_days(random, length));
    // The same day in all records, or some of a few; days at the ends of the table and of cycles, and
    // days whose limbs differ from edition to edition.
    let one = any_day(random);
    let few = [(); 3].map(|()| any_day(random));
    let ends = [0, 1, 4015, 4016, 397_583, 397_584, LAST_DAY - 1, LAST_DAY];
    for days in [&[0], &[LAST_DAY], &[one], &few[..], &ends, almanac.parted()] {
        rows.push((0..length).map(|_| random.one_of(days)).collect());
    }
    rows
}

/// The first of so many days that a cycle turns in, where there are as many as two.
fn turn_in(random: &mut Random, length: usize) -> u32 {
    let turn = 4016 * random.between(1, 99);
    let before = random.between(1, (length as u32).clamp(2, 4016) - 1);
    (turn - before).min(LAST_DAY + 1 - length as u32)
}

/// Rows of each length up to 60, in both editions and in four that there aren't.
fn each_length(checks: &mut Checks, almanac: &Almanac, random: &mut Random) {
    let editions = [&EDITIONS[..], &NO_EDITIONS[..4]].concat();
    for _ in 0..4 {
        for length in 0..=MOST_RECORDS {
            for days in good_days(almanac, random, length) {
                compare(checks, almanac, random, &editions, &days);
            }
        }
    }
}

/// Many editions that there aren't, for rows of good days, with a bad one, and of no records: 14
/// comes before 2.
fn no_editions(checks: &mut Checks, almanac: &Almanac, random: &mut Random) {
    let drawn = [(); 20].map(|()| random.between(3, u32::MAX));
    for edition in (3..=300).chain(NO_EDITIONS).chain(drawn) {
        for length in [0, 1, 2, 30, 60] {
            let mut days = any_days(random, length);
            compare(checks, almanac, random, &[edition], &days);
            if length > 0 {
                days[random.below(length as u32) as usize] = bad_day(random);
                compare(checks, almanac, random, &[edition], &days);
            }
        }
    }
}

/// A bad day, each of those chosen and a drawn one, at each place of a row.
fn one_bad(checks: &mut Checks, almanac: &Almanac, random: &mut Random) {
    for length in 1..=MOST_RECORDS {
        for place in 0..length {
            let drawn = bad_day(random);
            for bad in NO_DAYS.into_iter().chain([drawn]) {
                let mut days = any_days(random, length);
                days[place] = bad;
                let editions = three_editions(random);
                compare(checks, almanac, random, &editions, &days);
            }
        }
    }
}

/// Bad days at some places of a row, and at all.
fn several_bad(checks: &mut Checks, almanac: &Almanac, random: &mut Random) {
    for length in 2..=MOST_RECORDS {
        for once_in in [1, 2, 2, 5, 5, 20, 20] {
            let mut days = any_days(random, length);
            for day in &mut days {
                if random.once_in(once_in) {
                    *day = bad_day(random);
                }
            }
            let editions = three_editions(random);
            compare(checks, almanac, random, &editions, &days);
        }
    }
}

/// Long rows of good days, and with a bad one at their ends and at a drawn place.
fn long(checks: &mut Checks, almanac: &Almanac, random: &mut Random) {
    for length in LONG {
        let editions = three_editions(random);
        for days in good_days(almanac, random, length) {
            let edition = random.one_of(&editions);
            compare(checks, almanac, random, &[edition], &days);
        }
        let days = any_days(random, length);
        compare(checks, almanac, random, &editions, &days);
        for place in [0, random.below(length as u32) as usize, length - 1] {
            let mut days = days.clone();
            days[place] = bad_day(random);
            compare(checks, almanac, random, &editions, &days);
        }
    }
}

/// All days in each edition: in one row; and in rows of drawn lengths, rising and falling.
fn every_day(checks: &mut Checks, almanac: &Almanac, random: &mut Random) {
    let rising: Vec<u32> = (0..=LAST_DAY).collect();
    let falling: Vec<u32> = (0..=LAST_DAY).rev().collect();
    for edition in EDITIONS {
        let beside = any_day(random);
        Row::new(&rising, beside).compare(checks, almanac, edition);
        for mut left in [&rising[..], &falling] {
            while !left.is_empty() {
                let most = random.one_of(&[5, 31, 60, 60, 2000]);
                let length = random.between(1, most) as usize;
                let (days, rest) = left.split_at(length.min(left.len()));
                let beside = [any_day(random), bad_day(random)];
                let mut row = Row::new(days, random.one_of(&beside));
                row.compare(checks, almanac, edition);
                left = rest;
            }
        }
    }
}

pub fn run(checks: &mut Checks, almanac: &Almanac) {
    let mut random = Random::from_seed();
    each_length(checks, almanac, &mut random);
    no_editions(checks, almanac, &mut random);
    one_bad(checks, almanac, &mut random);
    several_bad(checks, almanac, &mut random);
    long(checks, almanac, &mut random);
    every_day(checks, almanac, &mut random);
}
