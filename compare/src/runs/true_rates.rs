//! What P2 says of true places and of their rates, held against the second program alone; the smallest
//! and the largest rate of each body are printed.

use crate::checks::Checks;
use crate::reference::almanac::Almanac;
use crate::reference::arms::way_from;
use crate::reference::days::LAST_DAY;
use crate::reference::page::BODIES;
use crate::reference::places::Places;
use crate::reference::true_places::once_more;

/// The true places of every day, reckoned another way.
fn places_once_more(checks: &mut Checks, almanac: &Almanac) {
    for (number, (day, places)) in almanac.days().iter().zip(once_more()).enumerate() {
        for (body, place) in places.into_iter().enumerate() {
            let input = || format!("day {number}, body {body}");
            let came = Places::True.of(day, body);
            checks.same("the true place", input, Some(place), came);
        }
    }
}

/// The ways from some days to the next, from places that were reckoned apart from both programs. The
/// five planets' are over the first turn of a cycle (`planet_laws` has the places); Mars turns back on
/// day 33830 and on again on day 33893, and the node goes backwards.
fn ways_apart(checks: &mut Checks, almanac: &Almanac) {
    for (day, body, expected) in [
        (4015, 4, 2467),
        (4015, 5, 654),
        (4015, 6, -386),
        (4015, 7, 298),
        (4015, 8, 297),
        (33_829, 4, 178),
        (33_830, 4, -926),
        (33_892, 4, -916),
        (33_893, 4, 349),
        (33_612, 0, 3524),
        (33_613, 0, 3522),
        (33_649, 3, -191),
    ] {
        let input = || format!("day {day}, body {body}");
        let came = way_from(almanac, Places::True, day, body);
        checks.same("the way to the next day", input, Ok(Some(expected)), came);
    }
}

/// Seconds to the next day, and the first day on which they are so many.
type Rate = (i64, u32);

/// A body's, over all days.
#[derive(PartialEq, Debug)]
struct Rates {
    smallest: Rate,
    largest: Rate,
    /// The smallest and the largest where no cycle turns.
    in_cycles: [i64; 2],
    /// On so many days the body goes backwards.
    backwards: usize,
}

impl Rates {
    fn of(almanac: &Almanac, body: u32) -> Rates {
        let way = |day| way_from(almanac, Places::True, day, body);
        let rate = |day| (way(day).ok().flatten().expect("a next day"), day);
        let all: Vec<Rate> = (0..LAST_DAY).map(rate).collect();
        let in_cycles = all.iter().filter(|(_, day)| day % 4016 != 4015);
        let ways = in_cycles.map(|(way, _)| *way);
        // Of several that are largest the last is taken, which is the first day.
        let largest = all.iter().rev().max_by_key(|(way, _)| *way);
        Rates {
            smallest: *all.iter().min().expect("there are days"),
            largest: *largest.expect("there are days"),
            in_cycles: [ways.clone().min(), ways.max()].map(|way| way.expect("there are days")),
            backwards: all.iter().filter(|(way, _)| *way < 0).count(),
        }
    }
}

const fn rates(smallest: Rate, largest: Rate, in_cycles: [i64; 2], backwards: usize) -> Rates {
    Rates {
        smallest,
        largest,
        in_cycles,
        backwards,
    }
}

const RATES: [Rates; 9] = [
    rates((3409, 11_778), (3688, 41_180), [3409, 3688], 0),
    rates((43_271, 1694), (51_599, 1818), [43_271, 51_599], 0),
    rates((400, 0), (659, 4015), [400, 401], 0),
    rates((-191, 0), (-109, 4015), [-191, -190], 401_599),
    rates((-1813, 92_367), (2801, 6185), [-1508, 2801], 34_629),
    rates((-3177, 365_455), (6902, 2228), [-3160, 6902], 68_470),
    rates((-539, 361_439), (887, 14_602), [-493, 887], 101_697),
    rates((-1579, 153_513), (4575, 1382), [-1579, 4575], 33_302),
    rates((-306, 3513), (502, 14_312), [-306, 502], 134_237),
];

/// The smallest and the largest rate are printed.
fn ranges(checks: &mut Checks, almanac: &Almanac) {
    for ((body, expected), name) in (0..).zip(RATES).zip(BODIES) {
        let came = Rates::of(almanac, body);
        let ((least, from), (most, to)) = (came.smallest, came.largest);
        let days = came.backwards;
        println!(
            "true {name}: {least} (day {from}) to {most} (day {to}) seconds a day, {days} days backwards"
        );
        checks.same("the true rates", || name.to_string(), expected, came);
    }
}

pub fn run(checks: &mut Checks, almanac: &Almanac) {
    places_once_more(checks, almanac);
    ways_apart(checks, almanac);
    ranges(checks, almanac);
}
