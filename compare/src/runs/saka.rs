//! The calls that take a Saka date, with the mark of a month still to come and without: all from
//! year 1441 to 2542, months, tithis and weekdays one past their ranges included, and the edges of
//! 32 bits.

use crate::calls::*;
use crate::checks::Checks;
use crate::random::Random;
use crate::reference::refusal::result_number;
use crate::reference::saka::SakaDate;

use super::WIDTH_EDGES;

/// The calls without a mark, and those with it for each number given: 0 is no mark, any other one.
fn compare(
    checks: &mut Checks,
    [year, months, tithis, weekday]: [u32; 4],
    marks: impl IntoIterator<Item = u32>,
) {
    let [unmarked, marked] = [false, true].map(|pending| {
        let date = SakaDate {
            year,
            months,
            tithis,
            weekday,
            pending,
        };
        (date, date.day())
    });
    let (date, day) = unmarked;
    let input = || format!("{date:?}");
    checks.same(
        "graha_saka_result",
        input,
        result_number(&day),
        graha_saka_result(year, months, tithis, weekday),
    );
    checks.same(
        "graha_saka_day",
        input,
        day.unwrap_or(0),
        graha_saka_day(year, months, tithis, weekday),
    );
    for mark in marks {
        let (date, day) = if mark == 0 { unmarked } else { marked };
        let input = || format!("{date:?}, by the number {mark}");
        checks.same(
            "graha_saka_pending_result",
            input,
            result_number(&day),
            graha_saka_pending_result(year, months, tithis, weekday, mark),
        );
        checks.same(
            "graha_saka_pending_day",
            input,
            day.unwrap_or(0),
            graha_saka_pending_day(year, months, tithis, weekday, mark),
        );
    }
}

fn compare_year(checks: &mut Checks, year: u32) {
    for months in 0..=12 {
        for tithis in 0..=30 {
            for weekday in 0..=7 {
                let marks = [0, 1, 2, u32::MAX];
                compare(checks, [year, months, tithis, weekday], marks);
            }
        }
    }
}

pub fn run(checks: &mut Checks) {
    for year in 1441..=2542 {
        compare_year(checks, year);
    }
    for year in WIDTH_EDGES.into_iter().chain([0, 1]) {
        compare_year(checks, year);
    }
    // One number or several at the edges, the others sound.
    let mut random = Random::from_seed();
    for _ in 0..100_000 {
        let mut at_edge = |sound: u32| {
            if random.once_in(3) {
                random.one_of(&WIDTH_EDGES).wrapping_add(random.below(30))
            } else {
                random.below(sound)
            }
        };
        let (months, tithis, weekday) = (at_edge(12), at_edge(30), at_edge(7));
        let year = 1442_u32.wrapping_add(at_edge(1100));
        let marks = WIDTH_EDGES.into_iter().chain([0]);
        compare(checks, [year, months, tithis, weekday], marks);
    }
}
