//! The program `find`, run on pages good and bad; what it prints is compared byte for byte.

use crate::checks::Checks;
use crate::random::Random;
use crate::reference::almanac::Almanac;
use crate::reference::catalogue::WEEKDAYS;
use crate::reference::days::LAST_DAY;
use crate::reference::edition::Edition;
use crate::reference::page::{printed, read, BODIES, SETS, TOO_LONG};
use crate::reference::planets::TRUE_SUN;
use crate::reference::search::{set_of, LARGEST_EQUATION, RANGES, TITHI, WEEKDAY};

use super::half_read::{arcs_at, days_apart};
use super::page_text::*;
use super::programs;
use super::queries::Kind;
use super::EDITIONS;

const PROGRAM: &str = "target/bin/find";

fn compare_pieces(checks: &mut Checks, almanac: &Almanac, pieces: &[&[u8]]) {
    let expected = printed(almanac, &pieces.concat());
    programs::compare(checks, PROGRAM, expected, pieces);
}

fn compare(checks: &mut Checks, almanac: &Almanac, page: &[u8]) {
    compare_pieces(checks, almanac, &[page]);
}

/// A page of one line; a line that isn't a span has one before it, so that few days are looked at.
fn compare_line(checks: &mut Checks, almanac: &Almanac, line: &str) {
    let span = if line.to_lowercase().starts_with("span") {
        ""
    } else {
        "span 1000 1360\n"
    };
    compare(checks, almanac, format!("{span}{line}\n").as_bytes());
}

/// Each kind of line alone, at its edges and with a fault; and each with a line that names an edition,
/// behind it or before it: one that there is and one that there isn't.
fn lines(checks: &mut Checks, almanac: &Almanac) {
    let sound = [&SPANS[..], &VALUES, &EDITION_LINES, &FORMS].concat();
    let refused = [&NO_DATES[..], &DAYS_OUTSIDE, &REVERSED, &BAD_CONDITIONS].concat();
    let other = [&OTHER_FORMS[..], &BAD_EDITIONS].concat();
    let mut lines = [sound, refused, other].concat();
    let arcs: Vec<String> = BODIES
        .into_iter()
        .flat_map(|body| ARCS.map(|arc| format!("{body} {arc}")))
        .collect();
    lines.extend(arcs.iter().map(String::as_str));
    for line in lines {
        compare_line(checks, almanac, line);
        compare_line(checks, almanac, &format!("{line}\nedition 2"));
        compare_line(checks, almanac, &format!("{line}\nedition 3"));
        compare(checks, almanac, format!("edition 0\n{line}\n").as_bytes());
    }
}

/// No value, one, and so on to nine for each word, and for what is none; and each word twice, with the
/// first line refused for its value.
fn values(checks: &mut Checks, almanac: &Almanac) {
    let words = [
        "span",
        "edition",
        "weekday",
        "tithi",
        "nakshatra",
        "yoga",
        "karana",
        "rahu",
    ];
    for word in words.into_iter().chain(BODIES) {
        for values in ["2 6 5 4 3 1 0 7 8", "5 6 7"] {
            let values: Vec<&str> = values.split(' ').collect();
            for count in 0..=values.len() {
                let line = [&[word], &values[..count]].concat().join(" ");
                compare_line(checks, almanac, &line);
            }
        }
        for values in [
            "2",
            "5",
            "5 6",
            "500000",
            "500000 0",
            "5 6 6 5",
            "5 6 500000 0",
        ] {
            let twice = format!("{word} {values}\n#\n{word} {values}");
            compare_line(checks, almanac, &twice);
        }
    }
}

/// Every byte as a blank, and in a number.
fn bytes(checks: &mut Checks, almanac: &Almanac) {
    for byte in 0..=255 {
        for (before, after) in [
            ("yoga", "3\n"),
            ("tithi 1", "\n"),
            ("edition", "2\n"),
            ("edition ", "\n"),
            ("edition 2", "\n"),
        ] {
            let line = [before.as_bytes(), &[byte], after.as_bytes()].concat();
            compare(checks, almanac, &[b"span 90 200\n", &line[..]].concat());
        }
    }
}

/// Ends, comments and blanks in odd places.
fn odd(checks: &mut Checks, almanac: &Almanac) {
    let pages: [&[u8]; 30] = [
        b"span 5 9",
        b"span 5 9\nweekday 1",
        b"span 5 9\n ",
        b"span 5 9\n#",
        b"span 5 9\n# the end",
        b"span 5 9\n\r",
        b"span 5 9\n\0",
        b"span 5 9\r\nweekday 1\r\n",
        b"span 5 9\rweekday 1\n",
        b"\n\n\nspan 5 9\n\n\n",
        b"span 5 9#\n",
        b"span 5#9\n",
        b"span#5 9\n",
        b"#span 5 9\nspan 6 7\n",
        b"span 5 9 # 10\n",
        b"span 5 9 10 # 10\n",
        b"sp#an 5 9\n",
        b"\r\t span\r\t 5\r\t 9\r\t \n",
        b"span 5\n9\n",
        b"weekday 9\n\n\nspan 9 5\n",
        b"weekday 9\nspan 9 5\nspan 5 9\n",
        b"weekday 9\ntithi 99\nyoga 99\nspan 5 9\n",
        b"tithi x\ntithi 3\nspan 1582-10-10 9\n",
        b"tithi 30\ntithi 3\nspan 5 9\n",
        b"tithi 3\ntithi 30\nspan 5 9\n",
        b"span 9 5\nspan 5 9\n",
        b"span 5 9\nspan 1582-10-10 9\n",
        b"weekday 1\nweekday tuesday\nspan 5 9\n",
        b"\xEF\xBB\xBFspan 5 9\n",
        b"s\0p\0a\0n\0 \05\0 \09\0\n\0",
    ];
    for page in pages {
        compare(checks, almanac, page);
    }
}

/// Every set of weekdays, in any order and form; and each weekday twice, by number and by name, and with
/// the number behind Sunday's.
fn weekday_sets(checks: &mut Checks, almanac: &Almanac) {
    let mut random = Random::from_seed();
    for set in 1..128 {
        let values = values_of(&mut random, WEEKDAY, set).join(" ");
        compare_line(checks, almanac, &format!("weekday {values}"));
    }
    for (number, name) in WEEKDAYS.iter().enumerate() {
        for values in [
            format!("{number} {number}"),
            format!("{number} {name}"),
            format!("{name} 0{number}"),
            format!("{name} {name}"),
            format!("{number} 7"),
            format!("7 {name} 7"),
        ] {
            compare_line(checks, almanac, &format!("weekday {values}"));
        }
    }
}

/// Sets of weekdays and second arcs with blanks and comments in odd places, over several lines, and
/// beside other faults.
fn smudged(checks: &mut Checks, almanac: &Almanac) {
    let pages: [&[u8]; 29] = [
        b"\t weekday\r\tmonday\t\ttuesday \r\nspan 5 19\r\n",
        b"weekday\t0\r2 \t4\tsunday\nspan 5 19\n",
        b"weekday monday # tuesday\nspan 5 19\n",
        b"weekday monday#tuesday wednesday\nspan 5 19\n",
        b"weekday monday tues#day\nspan 5 19\n",
        b"weekday # monday tuesday\nspan 5 19\n",
        b"weekday 0 1 2 3 4 5 6 # 0\nspan 5 19\n",
        b"weekday monday\ntuesday\nspan 5 19\n",
        b"weekday monday\nweekday tuesday\nspan 5 19\n",
        b"weekday monday tuesday\nweekday 9 9\nspan 5 19\n",
        b"weekday 9 9\nweekday monday tuesday\nspan 5 19\n",
        b"weekday monday tuesday\nweekday 1 1\nspan 5 19\n",
        b"weekday monday tuesday\nweekday 0 1 2 3 4 5 6 7\nspan 5 19\n",
        b"weekday monday tuesday\nspan 5 19\nweekday",
        b"span 5 19\nweekday monday tuesday",
        b"weekday 9 9\nspan 9 5\n",
        b"weekday 9 1 1\nspan 1582-10-10 5\n",
        b"weekday 9 1 1\nedition 3\n",
        b"weekday 0 1 2 3 4 5 6 7\nedition 0\n",
        b"weekday 9 9\nsun 0 1296001 0 1\nedition 2\n",
        b"sun\t0\t1:0:0\r180:0:0  1:0:0 \nspan 0 729\n",
        b"sun 0 3600 # 648000 3600\nspan 0 729\n",
        b"sun 0 3600 648000 # 3600\nspan 0 729\n",
        b"sun 0 3600 648000#3600\nspan 0 729\n",
        b"sun 0 3600\nsun 648000 3600\nspan 0 729\n",
        b"sun 0 3600 648000 3600\nsun 0 3600 648000 3600 5\nspan 0 729\n",
        b"sun 0 3600 648000 3600 5\nsun 0 3600\nspan 0 729\n",
        b"sun 0 3600 648000 0\nmoon 0 3600 648000\nspan 9 5\n",
        b"sun 0 3600 648000 3600\nedition 2\nweekday friday 3\nmoon 0 180:0:0 200:0:0 60:0:0\nspan 0 729\n",
    ];
    for page in pages {
        compare(checks, almanac, page);
    }
}

/// Sets of limbs and true places with blanks and comments in odd places, beside the mean places, and
/// beside other faults.
fn half_read(checks: &mut Checks, almanac: &Almanac) {
    let pages: [&[u8]; 27] = [
        b"\t tithi\r\t13\t\t14 \r\nspan 5 99\r\n",
        b"tithi 13 # 14\nspan 5 99\n",
        b"tithi 13#14\nspan 5 99\n",
        b"tithi # 13 14\nspan 5 99\n",
        b"tithi 13\n14\nspan 5 99\n",
        b"tithi 13\ntithi 14\nspan 5 99\n",
        b"tithi 13 13\ntithi 14\nspan 5 99\n",
        b"tithi 13 30\ntithi 13 13\nspan 9 5\n",
        b"tithi 13 14\nnakshatra 3 4 5 6 7\nyoga 1 2 3 4 5 6\nkarana 1 2 3\nspan 5 999\n",
        b"tithi 13 14\nnakshatra 3 4 5 6 7\nyoga 1 2 3 4 5 6\nkarana 1 2 3\nspan 5 999\nedition 2\n",
        b"karana 7\nspan 5 99",
        b"span 5 99\nkarana 7",
        b"karana 7\nkarana 8\nspan 5 99\n",
        b"karana 0\nspan 9 5\n",
        b"karana 0\nedition 3\n",
        b"karana 7 7\nspan 1582-10-10 5\n",
        b"karana 12\nspan 1582-10-10 5\n",
        b"true_sun\t0\t1:0:0\r180:0:0  1:0:0 \nspan 0 729\n",
        b"true_sun 0 3600 # 648000 3600\nspan 0 729\n",
        b"true_sun 0 3600 648000 # 3600\nspan 0 729\n",
        b"true_sun 0 3600\ntrue_sun 0 3600\nspan 0 729\n",
        b"sun 0 3600\ntrue_sun 0 3:0:0\nspan 0 729\n",
        b"true_sun 0 3:0:0\nsun 0 3600 648000 3600\nspan 0 729\n",
        b"sun 0 1296000\ntrue_sun 0 3:0:0\nspan 0 729\n",
        b"sun 0 3600\ntrue_sun 0 0\nspan 0 729\n",
        b"true_sun 0 3600\nsun 0 0\nspan 0 729\n",
        b"true_moon 350:0:0 20:0:0\nmoon 350:0:0 20:0:0\nspan 0 729\nedition 2\n",
    ];
    for page in pages {
        compare(checks, almanac, page);
    }
    let mut random = Random::from_seed();
    for at in TITHI..5 {
        let (least, largest) = RANGES[at];
        for (first, last) in (least..=largest).flat_map(|last| [(least, last), (last, largest)]) {
            let set = set_of(&Vec::from_iter(first..=last));
            let values = values_of(&mut random, at, set).join(" ");
            compare_line(checks, almanac, &format!("{} {values}", SETS[at]));
        }
    }
}

/// Pages for the true Sun: where it is as far from the mean Sun as it comes, the list has that day; and
/// arcs that cross 0, or that made wider are the whole circle, or not quite.
fn haste(checks: &mut Checks, almanac: &Almanac) {
    let mut random = Random::from_seed();
    let largest = i64::from(LARGEST_EQUATION);
    for apart in [largest, -largest] {
        let days = days_apart(almanac, apart);
        for day in [(); 8].map(|()| random.one_of(&days)) {
            let place = almanac.days()[day as usize].place(TRUE_SUN, Edition::First);
            for arc in arcs_at(place) {
                let beside = if arc.width > 3600 { 3 } else { 400 };
                let (first, last) = (day.saturating_sub(beside), LAST_DAY.min(day + beside));
                let (start, width) = (arc.start, arc.width);
                let page = format!("span {first} {last}\ntrue_sun {start} {width}\n");
                compare(checks, almanac, page.as_bytes());
            }
        }
    }
    for arcs in [
        "0 1",
        "359:59:59 2",
        "359:0:0 3:0:0 179:0:0 3:0:0",
        "7844 1",
        "7845 1",
        "7846 1",
        "0 1280308",
        "0 1280309",
        "0 1280310",
        "0 1280311",
        "5 1 0 1280309",
        "0 1280310 648000 1",
        "0 1296000",
    ] {
        for edition in EDITIONS {
            let page = format!("span 20 1500\nedition {edition}\ntrue_sun {arcs}\n");
            compare(checks, almanac, page.as_bytes());
        }
    }
}

/// Pages with just so many days that `find` may list while it counts, or one more or fewer: from the
/// table's start, and with conditions.
fn many_matches(checks: &mut Checks, almanac: &Almanac) {
    let with_conditions = [
        "",
        "tithi 0 1 2 3 4 5 6 7 8 9 10 11 12 13\n",
        "true_sun 0 90:0:0\n",
    ];
    for conditions in with_conditions {
        let page = read(almanac, conditions).ok();
        let query = page.expect("the page is accepted").query;
        let matching = query.search(almanac).expect("the query is well-formed");
        let matching = matching.matching;
        for count in [175, 176, 177, 16_383, 16_384, 16_385, 32_769] {
            let last = matching[count - 1];
            let page = format!("{conditions}span 0 {last}\n");
            compare(checks, almanac, page.as_bytes());
        }
    }
}

/// Pages with several lines that name an edition, good and bad, and with other faults beside them.
fn editions(checks: &mut Checks, almanac: &Almanac) {
    let pages: [&[u8]; 30] = [
        b"edition 2\nspan 5 9\n",
        b"span 5 9\nedition 1\n",
        b"\t edition\r\t 2\r\n span 5 9\r\n",
        b"edition 2#3\nspan 5 9\n",
        b"#edition 3\nspan 5 9\n",
        b"edition#2\nspan 5 9\n",
        b"edition\n2\nspan 5 9\n",
        b"span 5 9\nedition 2",
        b"span 5 9\nedition 3",
        b"edition 3\nspan 5 9",
        b"edition 2\nspan 5 9\nedition 2\n",
        b"edition 1\nspan 5 9\nedition 2\n",
        b"edition 2\nspan 5 9\nedition 3\n",
        b"edition 3\nspan 5 9\nedition 3\n",
        b"edition 3\nspan 5 9\nedition 2\n",
        b"edition 3\nspan 5 9\nedition x\n",
        b"edition x\nspan 5 9\nedition 3\n",
        b"edition x\nspan 5 9\nedition 2\n",
        b"edition 2 3\nspan 5 9\nedition 14\n",
        b"edition 2\nedition 2\nedition 3\n",
        b"edition 0\nedition 2\nedition 3\n",
        b"tithi x\nspan 1582-10-10 9\nyoga 99\nedition 14\n",
        b"span 1582-10-10 9\nedition 14\n",
        b"span 9 401600\nedition 14\n",
        b"span 9 5\nedition 14\n",
        b"weekday 9\nedition 14\n",
        b"edition 2\nweekday 9\nspan 9 5\n",
        b"edition 2\nweekday 9\nspan 9 401600\n",
        b"edition 2\nspan 1582-10-10 9\ntithi 30\n",
        b"\xEF\xBB\xBFedition 3\nspan 5 9\n",
    ];
    for page in pages {
        compare(checks, almanac, page);
    }
}

/// Pages over all days or many: with no condition, with a few, and the examples of docs/find.md; each
/// in edition 2 too.
fn many_days(checks: &mut Checks, almanac: &Almanac) {
    let pages = [
        "",
        "weekday sunday\ntithi 29\n",
        "sun 0 1:0:0\n",
        "span 1520-3-19 2619-10-13\nsun 359:59:59 1\n",
        "tithi 14\nnode 1200000 200000\nnakshatra 3\n",
        "saturn 0 3600\njupiter 0 30:0:0\n",
        "# Bombay, fol. 3: upper half\nweekday monday\ntithi 14\nsun 34:0:0 1:0:0\n",
        "span 1607-4-15 1612-12-31\nweekday thursday\nnakshatra 7      # Pushya\nyoga 4\n",
        "jupiter 100:0:0  1:0:0\nsaturn  360000  3600\ntithi   12\n",
        "weekday monday tuesday\ntithi 14\nsun 34:0:0 1:0:0 64:0:0 1:0:0\n",
        "sun 0 1 180:0:0 1\n",
        "weekday 6 5 4\nsun 359:0:0 2:0:0 359:0:0 2:0:0\nyoga 3\n",
        "saturn 0 3600 180:0:0 3600\nmoon 0 1:0:0 1:0:0 1:0:0\n",
        "weekday monday\ntithi 14\ntrue_sun 35:0:0 1:0:0\n",
        "weekday monday\ntithi 13 14\nkarana 7 1\ntrue_moon 200:0:0 10:0:0\n",
        "true_jupiter 120:0:0 2:0:0\ntrue_saturn 326:0:0 2:0:0\n",
        "true_mars 359:0:0 2:0:0\ntrue_venus 0 60:0:0\ntrue_mercury 340:0:0 40:0:0\n",
        "karana 8 9 10 11\nweekday sunday\n",
    ];
    for page in pages {
        compare(checks, almanac, page.as_bytes());
        compare(checks, almanac, format!("{page}edition 2\n").as_bytes());
    }
}

/// A piece repeated as often as a page takes beside a few other lines.
pub fn many(piece: &[u8]) -> Vec<u8> {
    piece.repeat((TOO_LONG - 200) / piece.len())
}

/// Many lines, long lines, and pages about the largest size.
fn long(checks: &mut Checks, almanac: &Almanac) {
    let comments = many(b"# a line of a long page\n");
    let blanks = b" \t\r".repeat(TOO_LONG / 7);
    let span = b"span 1000 1360\n";
    let pages: [&[&[u8]]; 14] = [
        &[span, &comments, b"tithi 3\n"],
        &[b"weekday 9\n", &comments, b"span 9 5\n"],
        &[&many(b"\n"), b"tithi 3\n", span, b"tithi 3\n"],
        &[&comments, b"Tithi 3\n"],
        &[b"span", &blanks, b"1000", &blanks, b"1001\n"],
        &[b"span ", &many(b"0"), b" 1\n"],
        &[b"span ", &many(b"1 "), b"\n"],
        &[b"weekday ", &many(b"9 "), b"\n"],
        &[b"sun ", &many(b"1 "), b"\n"],
        &[&many(b"sun 0 0\n")],
        &[span, b"#", &many(b"weekday 9 "), b"\n"],
        &[b"edition 2\n", &comments, span],
        &[span, &many(b"sun 0 0\n"), b"edition 3\n"],
        &[span, &many(b"edition 2\n"), b"edition 3\n"],
    ];
    for pieces in pages {
        compare(checks, almanac, &pieces.concat());
    }
    for length in [
        TOO_LONG - 1,
        TOO_LONG,
        TOO_LONG + 1,
        2 * TOO_LONG,
        8 * TOO_LONG,
        5_000_000,
    ] {
        for first in [
            "span 1000 1360\n",
            "weekday 9\n",
            "edition 2\nspan 1000 1360\n",
            "edition 3\n",
        ] {
            let mut page = [first.as_bytes(), &comments].concat();
            page.resize(length - 1, b' ');
            page.push(b'\n');
            compare(checks, almanac, &page);
        }
        compare(checks, almanac, &b"\0".repeat(length));
    }
}

/// A page is the same however the pipe hands it over.
fn in_pieces(checks: &mut Checks, almanac: &Almanac) {
    compare_pieces(checks, almanac, &[b"span 5 ", b"9\n"]);
    compare_pieces(checks, almanac, &[b"span 5 9", b"\n"]);
    compare_pieces(checks, almanac, &[b"sp", b"an 5 9\nweek", b"day ", b"1\n"]);
    compare_pieces(checks, almanac, &[b"span 5 9\n", b"x"]);
    compare_pieces(checks, almanac, &[b"span 5 9\nedit", b"ion 2", b"\n"]);
    compare_pieces(checks, almanac, &[b"span 5 9\nx\n", b"edition 3\n"]);
    let comments = b"# a line\n".repeat(TOO_LONG / 20);
    compare_pieces(
        checks,
        almanac,
        &[&comments, b"span 5 9\n", &comments, b"span 9 5\n"],
    );
    // The last piece makes the page too long, or all but.
    let mut page = [b"span 5 9\n", &many(b"# a line\n")[..]].concat();
    page.resize(TOO_LONG - 2, b'\n');
    for last in [&b"\n"[..], b"\n\n", b"\n\n\n"] {
        compare_pieces(checks, almanac, &[&page, last]);
    }
}

/// The lines of a random query; any conditions, or one or two over a longer span.
pub fn random_lines(random: &mut Random, almanac: &Almanac, kind: Kind) -> Vec<Line> {
    let (given, most) = if random.once_in(2) {
        (kind.any(random), 400)
    } else {
        (kind.few(random), 3000)
    };
    let query = kind.draw(random, almanac, given, most);
    lines_of(random, almanac, &query)
}

/// Replaces or adds lines that are refused, of one to four kinds.
pub fn spoil(random: &mut Random, lines: &mut Vec<Line>) {
    let kinds: [&[&str]; 6] = [
        &BAD_EDITIONS,
        &OTHER_FORMS,
        &NO_DATES,
        &DAYS_OUTSIDE,
        &REVERSED,
        &BAD_CONDITIONS,
    ];
    // A graver refusal hides the others: a page draws from all kinds, or from the lighter ones.
    let first = random.one_of(&[0, 1, 2, 2, 5]);
    for _ in 0..random.between(1, 4) {
        let kind = random.between(first, 5) as usize;
        let line = words(random.one_of(kinds[kind]));
        put(random, lines, line);
    }
}

fn random_pages(checks: &mut Checks, almanac: &Almanac) {
    let mut random = Random::from_seed();
    let kinds = Kind::all().into_iter().chain(Kind::half_read());
    for (kind, round) in kinds.flat_map(|kind| kind.rounds(900).map(move |round| (kind, round))) {
        let mut lines = random_lines(&mut random, almanac, kind);
        if round % 3 == 1 {
            spoil(&mut random, &mut lines);
        }
        let mut page = page_of(&mut random, lines);
        if round % 3 == 2 {
            for _ in 0..random.between(1, 3) {
                damage(&mut random, &mut page);
            }
        }
        compare(checks, almanac, &page);
    }
}

pub fn run(checks: &mut Checks, almanac: &Almanac) {
    lines(checks, almanac);
    values(checks, almanac);
    bytes(checks, almanac);
    odd(checks, almanac);
    weekday_sets(checks, almanac);
    smudged(checks, almanac);
    half_read(checks, almanac);
    haste(checks, almanac);
    many_matches(checks, almanac);
    editions(checks, almanac);
    many_days(checks, almanac);
    long(checks, almanac);
    in_pieces(checks, almanac);
    random_pages(checks, almanac);
}
