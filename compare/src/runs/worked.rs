//! The cases that paper 01 states itself, starred or not, and those of paper 02's requests and of P1,
//! held against the second program alone, before it is compared with anything: so that both programs
//! are held to the papers.

use std::collections::BTreeSet;

use crate::checks::Checks;
use crate::random::Random;
use crate::reference::almanac::Almanac;
use crate::reference::civil::Date;
use crate::reference::days::LAST_DAY;
use crate::reference::edition::Edition;
use crate::reference::exact::short_way;
use crate::reference::list::result_for;
use crate::reference::longitudes::{
    JUPITER, MARS, MERCURY_ANOMALY, MOON, MOON_APOGEE, SUN, VENUS_ANOMALY,
};
use crate::reference::month::month;
use crate::reference::page::{in_degrees, printed};
use crate::reference::planets::TRUE_SUN;
use crate::reference::plate::plate;
use crate::reference::records::{filled, Record};
use crate::reference::refusal::result_number;
use crate::reference::saka::SakaDate;
use crate::reference::search::{
    set_of, Arc, Arcs, Query, LARGEST_EQUATION, RANGES, TITHI, WEEKDAY,
};
use crate::reference::sheet::day_sheet;

use super::EDITIONS;

const MONDAY: u32 = 0;
const TUESDAY: u32 = 1;
const WEDNESDAY: u32 = 2;
const FRIDAY: u32 = 4;
const SATURDAY: u32 = 5;
const SUNDAY: u32 = 6;

/// "Days on both sides", the dates.
fn dates(checks: &mut Checks, almanac: &Almanac) {
    let cases = [
        ((19, 3, 1520), Ok(0)),
        ((18, 3, 1520), Err(2)),
        ((4, 10, 1582), Ok(22844)),
        ((15, 10, 1582), Ok(22845)),
        ((10, 10, 1582), Err(1)),
        ((29, 2, 1700), Err(1)),
        ((1, 1, 2000), Ok(43 * 4016 + 2541)),
        ((13, 10, 2619), Ok(401599)),
        ((14, 10, 2619), Err(2)),
        ((14, 5, 1612), Ok(33649)),
        ((11, 3, 1633), Ok(41255)),
    ];
    for ((day, month, year), expected) in cases {
        let date = Date { year, month, day };
        checks.same(
            "the day of a date",
            || format!("{date:?}"),
            expected,
            almanac.number_of(date),
        );
        if let Ok(number) = expected {
            let back = almanac.days()[number as usize].date;
            checks.same("the date of a day", || format!("day {number}"), date, back);
        }
    }
    for (number, expected) in [
        (0, MONDAY),
        (22845, FRIDAY),
        (175229, SATURDAY),
        (401599, WEDNESDAY),
    ] {
        let weekday = almanac.days()[number].weekday;
        checks.same("the weekday", || format!("day {number}"), expected, weekday);
    }
    let pair = almanac.days()[175229].pair;
    let came = (pair.cycle, pair.within);
    checks.same(
        "cycle and day within it",
        || "1 January 2000".to_string(),
        (43, 2541),
        came,
    );
}

/// "Days, cycles and weekdays": what the heading says of every day.
fn every_day(checks: &mut Checks, almanac: &Almanac) {
    let count = almanac.days().len();
    checks.same(
        "the number of days",
        || "the table".to_string(),
        LAST_DAY as usize + 1,
        count,
    );
    for (number, day) in (0..).zip(almanac.days()) {
        let input = || format!("day {number}");
        let (c, a) = (day.pair.cycle, day.pair.within);
        checks.same("day = 4016 × C + A", input, number, 4016 * c + a);
        checks.same("weekday: day mod 7", input, number % 7, day.weekday);
        checks.same(
            "weekday: (5C + A) mod 7",
            input,
            (5 * c + a) % 7,
            day.weekday,
        );
    }
}

/// "Days on both sides", the places and limbs.
fn places(checks: &mut Checks, almanac: &Almanac) {
    let days = almanac.days();
    let at_epoch = [
        1258860, 1256760, 603180, 99480, 1105680, 970380, 764160, 828540, 1027260,
    ];
    checks.same(
        "the nine mean places",
        || "day 0".to_string(),
        at_epoch,
        days[0].mean,
    );
    let epoch = days[0].elements(Edition::First);
    let came = (epoch.sun, epoch.moon, epoch.limbs());
    let expected = (1266701, 1257257, [29, 26, 25, 10]);
    checks.same(
        "true Sun and Moon, and limbs",
        || "day 0".to_string(),
        expected,
        came,
    );

    let (before, after) = (days[4015].mean[SUN], days[4016].mean[SUN]);
    checks.same("mean Sun", || "day 4015".to_string(), 1248768, before);
    checks.same("mean Sun", || "day 4016".to_string(), 1252309, after);
    checks.same(
        "the Sun's advance",
        || "day 4015".to_string(),
        3541,
        after - before,
    );

    let mean = days[33649].mean;
    let came = [mean[SUN], mean[MOON], mean[MOON_APOGEE]];
    let input = || "day 33649".to_string();
    checks.same(
        "mean Sun, Moon and apogee",
        input,
        [123220, 720622, 1133683],
        came,
    );
}

/// L2: at the epoch nothing is left over; and a day later a body has gone on by its motion a day,
/// which document 002 prints in degrees, minutes, seconds and thirds. Mercury's is the value that
/// paper 01 lets decide. Left out are the four that the document prints otherwise than its own
/// fractions give them, rounded down: the Moon's, its apogee's, its node's and Saturn's.
fn thirds(checks: &mut Checks, almanac: &Almanac) {
    let days = almanac.days();
    let input = || "day 0".to_string();
    checks.same("the nine thirds", input, [0; 9], days[0].thirds);
    let motions = [
        (SUN, [0, 59, 8, 10]),
        (MARS, [0, 31, 26, 31]),
        (MERCURY_ANOMALY, [3, 6, 24, 8]),
        (JUPITER, [0, 4, 59, 8]),
        (VENUS_ANOMALY, [0, 36, 59, 40]),
    ];
    for (body, motion) in motions {
        let expected = motion.iter().fold(0, |sum, number| 60 * sum + number);
        let [before, after] = [0, 1].map(|day: usize| {
            let day = &days[day];
            60 * day.mean[body] + day.thirds[body]
        });
        let input = || format!("body {body}, day 0 to day 1");
        checks.same("the motion in thirds", input, expected, after - before);
    }
}

/// L8: days reckoned apart from both programs. The Sun's equation is added on days 0, 2, 325, 727,
/// 33649 and subtracted on 191, 194, 200, 507; limbs differ from edition to edition on 2, 191, 194,
/// 325, 507, 727; the Moon passes 0 by the addition on 12022 and 13334; and on 455 and 820 it stays.
fn second_rule(checks: &mut Checks, almanac: &Almanac) {
    let cases = [
        (0, [1257257, 1257547], [29, 26, 25, 10], [29, 26, 25, 10]),
        (2, [64037, 64326], [1, 1, 0, 3], [2, 1, 0, 4]),
        (191, [1237727, 1237441], [14, 25, 11, 7], [13, 25, 11, 6]),
        (194, [96183, 95900], [17, 2, 15, 6], [17, 1, 15, 6]),
        (200, [393775, 393501], [23, 8, 22, 5], [23, 8, 22, 5]),
        (325, [1103856, 1104084], [29, 22, 19, 10], [29, 23, 19, 10]),
        (455, [805670, 805670], [12, 16, 22, 3], [12, 16, 22, 3]),
        (507, [692472, 692246], [5, 14, 24, 3], [5, 14, 23, 3]),
        (727, [761566, 761856], [18, 15, 14, 2], [18, 15, 15, 2]),
        (820, [1255315, 1255315], [22, 26, 4, 3], [22, 26, 4, 3]),
        (12022, [1295846, 99], [3, 26, 24, 6], [3, 0, 24, 6]),
        (13334, [262, 1295973], [15, 0, 12, 3], [15, 26, 12, 3]),
        (33649, [737042, 737243], [14, 15, 18, 7], [14, 15, 18, 7]),
    ];
    for (number, moons, first, second) in cases {
        for (edition, moon, limbs) in [(1, moons[0], first), (2, moons[1], second)] {
            let elements = almanac.elements(edition, number);
            let came = elements.map(|elements| (elements.moon, elements.limbs()));
            let input = || format!("edition {edition}, day {number}");
            checks.same("the Moon and the limbs", input, Ok((moon, limbs)), came);
        }
    }
    for (edition, number) in [(0, 0), (3, 401599), (14, 401600), (u32::MAX, u32::MAX)] {
        let input = || format!("edition {edition}, day {number}");
        let came = almanac.elements(edition, number).err();
        checks.same("another edition", input, Some(14), came);
    }
}

/// L8, on all days and from the places alone: the true Sun is one for both editions; the second Moon
/// stands beside the first as the true Sun beside the mean Sun, a whole twenty-seventh as far and no
/// further than 290 seconds; and where the Sun's equation is below 27 the two agree.
fn moons_apart(checks: &mut Checks, almanac: &Almanac) {
    let mut farthest = 0;
    for (number, day) in almanac.days().iter().enumerate() {
        let input = || format!("day {number}");
        let [first, second] =
            [Edition::First, Edition::Second].map(|edition| day.elements(edition));
        checks.same("one true Sun", input, first.sun, second.sun);
        let equation = short_way(day.mean[SUN], first.sun);
        let apart = short_way(first.moon, second.moon);
        let left = equation - 27 * apart;
        let whole = left.abs() < 27 && left * equation >= 0;
        checks.same("a twenty-seventh", input, true, whole);
        checks.same("one side", input, true, apart * equation >= 0);
        let size = apart.unsigned_abs() as u32;
        checks.at_most("the Moons' distance", input, 290, size);
        if equation.abs() < 27 {
            checks.same("the Moons agree", input, first.moon, second.moon);
        }
        farthest = farthest.max(size);
    }
    let table = || "the table".to_string();
    checks.same("the largest distance", table, 290, farthest);
}

/// "Days on both sides", the Saka dates; and document 000's example of a year whose extra month is
/// still ahead, with each refusal of a date that has the mark.
fn saka_dates(checks: &mut Checks) {
    let cases = [
        ((1534, 1, 14, MONDAY, false), Ok(33649)),
        ((1442, 0, 0, MONDAY, false), Ok(0)),
        ((1442, 0, 0, SUNDAY, false), Err(2)),
        ((1442, 0, 0, TUESDAY, false), Ok(1)),
        ((1442, 0, 0, WEDNESDAY, false), Err(4)),
        ((1555, 0, 0, FRIDAY, true), Ok(41255)),
        ((1555, 0, 0, MONDAY, true), Err(4)),
        ((1442, 0, 0, MONDAY, true), Err(8)),
        ((1442, 0, 0, WEDNESDAY, true), Err(8)),
        ((1441, 0, 0, MONDAY, true), Err(2)),
        ((1441, 12, 0, MONDAY, true), Err(3)),
    ];
    for ((year, months, tithis, weekday, pending), expected) in cases {
        let date = SakaDate {
            year,
            months,
            tithis,
            weekday,
            pending,
        };
        checks.same(
            "the day of a Saka date",
            || format!("{date:?}"),
            expected,
            date.day(),
        );
    }
}

/// With the mark the reckoned day is a month, 29 or 30 days, earlier.
fn a_month_earlier(checks: &mut Checks) {
    for year in 1442..=2541 {
        for (months, tithis) in (0..12).flat_map(|months| (0..30).map(move |t| (months, t))) {
            let [later, earlier] = [false, true].map(|pending| {
                let date = SakaDate {
                    year,
                    months,
                    tithis,
                    weekday: MONDAY,
                    pending,
                };
                date.reckoned_day()
            });
            if let (Ok(later), Ok(earlier)) = (later, earlier) {
                let input = || format!("year {year}, months {months}, tithis {tithis}");
                let month = [29, 30].contains(&(later - earlier));
                checks.same("the mark takes a month", input, true, month);
            }
        }
    }
}

/// "Days on both sides", the search: "days 0 to 729, Sun's arc from 0, width 3600".
fn search(checks: &mut Checks, almanac: &Almanac) {
    let mut query = Query::without_conditions(0, 729);
    query.arcs[SUN] = Arcs::one(Arc::new(0, 3600));
    let input = || format!("{query:?}");
    let Ok(found) = query.search(almanac) else {
        return checks.same("the search is accepted", input, true, false);
    };
    checks.same("the list", input, vec![11, 376], found.matching.clone());
    checks.same(
        "looked at",
        input,
        vec![0, 11, 12, 376, 377],
        found.visited.clone(),
    );
    for (room, entries, result) in [("room for two", 2, 0), ("room for one", 1, 7)] {
        checks.same(room, input, result, result_for(&found.matching, entries));
    }
    for (day, fits, next) in [
        (0, false, 11),
        (11, true, 12),
        (12, false, 376),
        (376, true, 377),
    ] {
        let came = query.look(almanac, day);
        let came = came.map(|look| (look.matches, look.next));
        let input = || format!("day {day}, {query:?}");
        checks.same("the look", input, Ok((fits, next)), came);
    }
}

/// L9: over the same days, searches with sets of weekdays and two Sun arcs, reckoned apart from both
/// programs. The mean Sun is 1258860 on day 0, 1889 on day 11 (a Friday), 5438 on day 12, 651205 on day
/// 194, and 1261490 on day 366.
fn smudged(checks: &mut Checks, almanac: &Almanac) {
    let degree = |start| Arc::new(start, 3600);
    let with = |second| Arcs::two(degree(0), second);
    let opposite = with(degree(648_000));
    let paper: &[u32] = &[0, 11, 12, 376, 377];
    let twice: &[u32] = &[0, 11, 12, 194, 195, 376, 377, 559, 560];
    let cases: [(Arcs, Option<u32>, &[u32], &[u32]); 9] = [
        (with(degree(0)), None, &[11, 376], paper),
        (with(Arc::new(1_295_000, 1000)), None, &[11, 376], paper),
        (Arcs::second_alone(degree(0)), None, &[11, 376], paper),
        (opposite, None, &[11, 194, 376, 559], twice),
        (opposite, Some(0b111_1111), &[11, 194, 376, 559], twice),
        (opposite, Some(0b001_1000), &[11], twice),
        (opposite, Some(0b000_0001), &[], twice),
        (
            with(Arc::new(1_258_860, 1)),
            None,
            &[0, 11, 376],
            &[0, 1, 11, 12, 366, 376, 377],
        ),
        (
            with(degree(3600)),
            None,
            &[11, 12, 376, 377],
            &[0, 11, 12, 13, 376, 377, 378],
        ),
    ];
    for (arcs, weekdays, matching, visited) in cases {
        let mut query = Query::without_conditions(0, 729);
        query.arcs[SUN] = arcs;
        query.sets[WEEKDAY] = weekdays;
        let input = || format!("{query:?}");
        let expected = Ok((matching.to_vec(), visited.to_vec()));
        let came = query.search(almanac);
        let came = came.map(|found| (found.matching, found.visited));
        checks.same("the list, and looked at", input, expected, came);
    }
    for (set, refusal) in [
        (0, 6),
        (1, 0),
        (127, 0),
        (128, 6),
        (129, 6),
        (1 << 31, 6),
        (u32::MAX, 6),
    ] {
        let mut query = Query::without_conditions(0, 6);
        query.sets[WEEKDAY] = Some(set);
        let input = || format!("{query:?}");
        let came = result_number(&query.search(almanac));
        checks.same("a set of weekdays", input, refusal, came);
    }
}

/// L9: "either of which will do". The list of two arcs is that of the one and that of the other
/// together, for each body and, by P1, for each true place; and the list of a set is those of its
/// weekdays.
fn either(checks: &mut Checks, almanac: &Almanac) {
    let listed = |ask: &dyn Fn(&mut Query)| {
        let mut query = Query::without_conditions(3000, 5000);
        ask(&mut query);
        let found = query.search(almanac).expect("the query is well-formed");
        BTreeSet::from_iter(found.matching)
    };
    for body in 0..16 {
        for start in [0, 100_000, 200_000, 350_000, 1_100_000] {
            let [one, other] = [Arc::new(100_000, 250_000), Arc::new(start, 200_000)];
            let [of_one, of_other, of_both] =
                [Arcs::one(one), Arcs::one(other), Arcs::two(one, other)]
                    .map(|arcs| listed(&|query| query.arcs[body] = arcs));
            let input = || format!("body {body}, {one:?} and {other:?}");
            checks.same("either arc will do", input, &of_one | &of_other, of_both);
        }
    }
    for set in 1..128 {
        let in_set = |day: &u32| set >> (day % 7) & 1 == 1;
        let expected = (3000..=5000).filter(in_set).collect();
        let came = listed(&|query| query.sets[WEEKDAY] = Some(set));
        let input = || format!("set {set}");
        checks.same("each weekday of the set will do", input, expected, came);
    }
    // P1: the same for limbs, in both editions, by the limbs of the day itself.
    let mut random = Random::from_seed();
    for (at, edition) in (TITHI..5).flat_map(|at| EDITIONS.map(|edition| (at, edition))) {
        for _ in 0..40 {
            let numbers = (0..random.between(1, 12)).map(|_| random.between(1, RANGES[at].1));
            let numbers = Vec::from_iter(numbers);
            let own = |day: &u32| {
                let elements = almanac.elements(edition, *day).expect("a day");
                elements.limbs()[at - 1]
            };
            let expected = (3000..=5000).filter(|day| numbers.contains(&own(day)));
            let came = listed(&|query| {
                query.edition = edition;
                query.sets[at] = Some(set_of(&numbers));
            });
            let input = || format!("edition {edition}, set {at} of {numbers:?}");
            checks.same("each of the set will do", input, expected.collect(), came);
        }
    }
}

/// P1: "the true Sun is never farther from the mean Sun than the largest equation, 7,845 seconds", and
/// on some days it is so far, ahead and behind.
fn largest_equation(checks: &mut Checks, almanac: &Almanac) {
    let mut farthest = [0; 2];
    for (number, day) in almanac.days().iter().enumerate() {
        let input = || format!("day {number}");
        let apart = short_way(day.mean[SUN], day.place(TRUE_SUN, Edition::First));
        let size = apart.unsigned_abs() as u32;
        checks.at_most("the Sun's equation", input, LARGEST_EQUATION, size);
        farthest = [farthest[0].min(apart), farthest[1].max(apart)];
    }
    let table = || "the table".to_string();
    checks.same("the largest", table, [-7845, 7845], farthest);
}

/// P1, as pages: the request's own day, and days reckoned apart from both programs; the days that are
/// listed and the number looked at, which in most cases are the same in both editions.
fn half_read(checks: &mut Checks, almanac: &Almanac) {
    let found = |page: &str| {
        let output = printed(almanac, page.as_bytes()).output;
        let mut lines = output.lines();
        let looked = lines.next().and_then(|line| line.split(' ').nth(3));
        let days = lines
            .skip(1)
            .map(|line| line.split(' ').next().unwrap_or(""));
        format!(
            "{} looked {}",
            days.collect::<Vec<&str>>().join(" "),
            looked.unwrap_or("")
        )
    };
    let year = "span 1612-1-1 1612-12-31\nweekday monday\ntithi 14\n";
    checks.same(
        "the Sun at 35°",
        || year.to_string(),
        ["33649 looked 8", " looked 3"].map(String::from),
        ["true_sun", "sun"].map(|body| found(&format!("{year}{body} 35:0:0 1:0:0\n"))),
    );
    let day = &almanac.days()[33649];
    let suns = [SUN, TRUE_SUN].map(|body| in_degrees(day.place(body, Edition::First)));
    let expected = ["34:13:40", "35:44:8"].map(String::from);
    checks.same(
        "mean and true Sun",
        || "day 33649".to_string(),
        expected,
        suns,
    );

    let cases = [
        (
            "span 0 100\nkarana 8 9 10 11\n",
            "0 29 58 59 87 88 looked 101",
        ),
        (
            "span 0 60\nkarana 7\n",
            "7 18 25 28 33 40 44 51 54 looked 61",
        ),
        ("span 0 60\ntithi 13 14\n", "13 14 15 43 44 looked 61"),
        (
            "span 0 800\nnakshatra 7 8\nyoga 4 5\n",
            "310 336 337 692 looked 801",
        ),
        (
            "span 0 729\ntrue_sun 359:0:0 2:0:0\n",
            "8 9 373 374 looked 15",
        ),
        (
            "span 0 729\ntrue_sun 0 1:0:0 180:0:0 1:0:0\n",
            "9 196 374 561 looked 26",
        ),
        (
            "span 0 729\ntrue_sun 0 3:0:0\nsun 0 1:0:0\n",
            "11 376 looked 5",
        ),
        (
            "span 0 100\ntrue_moon 355:0:0 10:0:0\n",
            "1 28 83 looked 101",
        ),
        (
            "span 0 2000\ntrue_mars 359:0:0 2:0:0\n",
            "44 45 46 754 755 1464 1465 looked 2001",
        ),
        (
            "span 0 400\ntrue_mercury 358:0:0 4:0:0\n",
            "19 20 376 377 378 looked 401",
        ),
        (
            "span 0 5000\ntrue_jupiter 359:50:0 0:40:0\n",
            "1818 1819 1820 looked 5001",
        ),
        (
            "span 0 800\ntrue_venus 358:0:0 4:0:0\n",
            "47 48 49 50 341 342 343 750 751 752 753 looked 801",
        ),
        (
            "span 0 12000\ntrue_saturn 359:55:0 0:10:0\n",
            "2280 2281 2282 2354 2355 2356 2533 2534 looked 12001",
        ),
    ];
    for (page, expected) in cases {
        for page in [page.to_string(), format!("{page}edition 2\n")] {
            let came = found(&page);
            checks.same("what a page finds", || page, expected.to_string(), came);
        }
    }
    // One degree over the whole table: "a walk of some 7,200 days, not 401,600".
    let page = "weekday monday\ntithi 14\ntrue_sun 35:0:0 1:0:0\n";
    let expected = "33649 68348 112910 267414 looked 7175".to_string();
    checks.same(
        "what a page finds",
        || page.to_string(),
        expected,
        found(page),
    );
    // The Moon passes 0 from edition to edition.
    for (days, moons) in [("12022", ["", "12022"]), ("13334", ["13334", ""])] {
        for (edition, moon) in EDITIONS.into_iter().zip(moons) {
            let page = format!("span {days} {days}\ntrue_moon 0 300\nedition {edition}\n");
            let came = found(&page);
            let expected = format!("{moon} looked 1");
            checks.same("what a page finds", || page, expected, came);
        }
    }
}

/// "What the table reckons": the sheet of day 33649.
fn sheet(checks: &mut Checks, almanac: &Almanac) {
    let expected = "day cycle within weekday sun moon tithi nakshatra yoga karana\n\
                    33649 8 1521 0 128648 737042 14 15 18 7\n";
    let came = day_sheet(almanac, b"33649\n");
    checks.same(
        "the day sheet",
        || "33649".to_string(),
        expected.to_string(),
        came,
    );
}

/// L2: the plate of day 0, with "places of K" as document 002 prints these.
fn epoch_plate(checks: &mut Checks, almanac: &Almanac) {
    let expected = "body degrees minutes seconds thirds\n\
                    sun 349 41 0 0\n\
                    moon 349 6 0 0\n\
                    apogee 167 33 0 0\n\
                    node 27 38 0 0\n\
                    mars 307 8 0 0\n\
                    mercury 269 33 0 0\n\
                    jupiter 212 16 0 0\n\
                    venus 230 9 0 0\n\
                    saturn 285 21 0 0\n";
    let input = || "0".to_string();
    let came = plate(almanac, b"0\n");
    checks.same("the plate", input, expected.to_string(), came);
}

/// "Days on both sides" has all fields of the record of day 0, in edition 1.
const EPOCH: Record = [
    0, 0, 1258860, 1256760, 603180, 99480, 1105680, 970380, 764160, 828540, 1027260, 1266701,
    1257257, 29, 26, 25, 10,
];

/// L1: rows with day 0 once, twice and beside day 33649; and their refusals.
fn rows(checks: &mut Checks, almanac: &Almanac) {
    let row = |days: &[u32]| -> Vec<Record> {
        let lent = |day: &u32| std::array::from_fn(|field| if field == 0 { *day } else { 7 });
        days.iter().map(lent).collect()
    };
    let filled = |edition, days: &[u32]| filled(almanac, edition, &row(days));
    let mut case = |edition, days: &[u32], expected| {
        let input = || format!("edition {edition}, days {days:?}");
        checks.same("the row", input, expected, filled(edition, days));
    };
    case(1, &[], Ok(vec![]));
    case(1, &[0], Ok(vec![EPOCH]));
    case(1, &[0, 0], Ok(vec![EPOCH, EPOCH]));
    case(1, &[LAST_DAY + 1], Err(2));
    case(2, &[0, LAST_DAY + 1], Err(2));
    case(1, &[0, u32::MAX, 0], Err(2));
    case(3, &[LAST_DAY + 1], Err(14));
    case(0, &[], Err(14));

    let came = filled(1, &[33649, 0]).expect("both are days");
    let input = || "days 33649 and 0".to_string();
    let [_, weekday, sun, moon, apogee, .., true_sun, true_moon, tithi, nakshatra, yoga, karana] =
        came[0];
    let mean = [sun, moon, apogee];
    checks.same("mean places", input, [123220, 720622, 1133683], mean);
    let others = [weekday, true_sun, true_moon, tithi, nakshatra, yoga, karana];
    let expected = [MONDAY, 128648, 737042, 14, 15, 18, 7];
    checks.same("the day sheet's numbers", input, expected, others);
    checks.same("day 0 behind it", input, EPOCH, came[1]);
}

/// L1: the first and the last month that there is, and numbers and inputs without one.
fn months(checks: &mut Checks, almanac: &Almanac) {
    let input = || "0".to_string();
    let came = month(almanac, b"0\n");
    let expected = "day weekday sun moon apogee node mars mercury jupiter venus saturn true_sun \
                    true_moon tithi nakshatra yoga karana\n\
                    0 0 1258860 1256760 603180 99480 1105680 970380 764160 828540 1027260 1266701 \
                    1257257 29 26 25 10\n\
                    1 1 ";
    let begins = came.starts_with(expected);
    checks.same("the month's beginning", input, true, begins);
    checks.same("the month's lines", input, 31, came.lines().count());
    let ends = came.contains("\n29 1 ");
    checks.same("the month's last day", input, true, ends);

    let input = || "401570".to_string();
    let came = month(almanac, b"401570\n");
    checks.same("the month's lines", input, 31, came.lines().count());
    let ends = came.contains("\n401599 2 ");
    checks.same("the month's last day", input, true, ends);
    for (number, refusal) in [("401571\n", 2), ("999999\n", 2), ("401570", 3)] {
        let expected = format!("refused {refusal}\n");
        let came = month(almanac, number.as_bytes());
        checks.same("the month", || number.to_string(), expected, came);
    }
}

/// "Days on both sides" as pages: the limbs of two days, and the search's beginning; L8's day 2, whose
/// tithi differs from edition to edition; and L9's sets and second arcs.
fn pages(checks: &mut Checks, almanac: &Almanac) {
    let heading = "day date weekday tithi nakshatra yoga karana";
    let cases = [
        (
            "span 0 1520-3-19\n",
            "found 1 looked 1",
            "0 1520-3-19 monday 29 26 25 10\n",
        ),
        (
            "span 1612-5-14 33649\n",
            "found 1 looked 1",
            "33649 1612-5-14 monday 14 15 18 7\n",
        ),
        (
            "span 0 729\nsun 0 1:0:0\n",
            "found 2 looked 5",
            "11 1520-3-30 friday ",
        ),
        (
            "edition 2\nspan 2 2\n",
            "found 1 looked 1 edition 2",
            "2 1520-3-21 wednesday 2 1 0 4\n",
        ),
        (
            "span 2 2\nedition 1\n",
            "found 1 looked 1",
            "2 1520-3-21 wednesday 1 1 0 3\n",
        ),
        (
            "span 2 2\nedition 2\ntithi 1\n",
            "found 0 looked 1 edition 2",
            "",
        ),
        (
            "span 0 729\nsun 0 1:0:0 180:0:0 1:0:0\nweekday thursday 4\n",
            "found 1 looked 9",
            "11 1520-3-30 friday ",
        ),
    ];
    for (page, counts, days) in cases {
        let expected = format!("{counts}\n{heading}\n{days}");
        let mut came = printed(almanac, page.as_bytes()).output;
        came.truncate(expected.len());
        checks.same("what a page finds", || page.to_string(), expected, came);
    }
    for (page, refusal) in [
        ("span 1520-3-18 5\n", 2),
        ("span 1582-10-10 5\n", 1),
        ("span 5 2619-10-14\n", 2),
        ("edition 2 2\n", 3),
        ("edition 3\n", 14),
        ("x\nspan 9 5\nedition 14\n", 14),
        ("weekday\n", 3),
        ("weekday 1 tuesday\n", 3),
        ("weekday 9 1 1\n", 3),
        ("weekday 9 9\n", 6),
        ("weekday 0 1 2 3 4 5 9\n", 6),
        ("weekday 9 9 9 9 9 9 9 9\n", 3),
        ("sun 0 3600 7200\n", 3),
        ("sun 0 3600 7200 0\n", 6),
        ("sun 0 0 7200 3600\n", 6),
        ("sun 0 3600 7200 3600 0\n", 3),
        ("tithi 30 30\n", 3),
        ("tithi 30 29\n", 6),
        ("tithi 31 31\n", 6),
        ("nakshatra 3 27\n", 6),
        ("yoga 3 3\n", 3),
        ("karana\n", 3),
        ("karana 0\n", 6),
        ("karana 0 0\n", 3),
        ("karana 12\n", 6),
        ("karana 11 x\n", 3),
        ("true_sun 0\n", 3),
        ("true_sun 0 0\n", 6),
        ("true_saturn 0 1 1296000 1\n", 6),
        ("true_node 0 1\n", 3),
    ] {
        let expected = format!("refused {refusal}\n");
        let came = printed(almanac, page.as_bytes()).output;
        checks.same("what a page finds", || page.to_string(), expected, came);
    }
}

pub fn run(checks: &mut Checks, almanac: &Almanac) {
    dates(checks, almanac);
    every_day(checks, almanac);
    places(checks, almanac);
    thirds(checks, almanac);
    second_rule(checks, almanac);
    moons_apart(checks, almanac);
    saka_dates(checks);
    a_month_earlier(checks);
    search(checks, almanac);
    smudged(checks, almanac);
    either(checks, almanac);
    largest_equation(checks, almanac);
    half_read(checks, almanac);
    sheet(checks, almanac);
    epoch_plate(checks, almanac);
    rows(checks, almanac);
    months(checks, almanac);
    pages(checks, almanac);
}
