//! Lines of dates and of days: texts into lent lists, lists into lent texts, and the programs
//! `dates_to_days` and `days_to_dates`.

use std::collections::BTreeSet;

use crate::calls::*;
use crate::checks::Checks;
use crate::random::Random;
use crate::reference::days::LAST_DAY;
use crate::reference::iso::{Form, IsoDates, MOST_LINES};
use crate::reference::list::{list_after, result_for};
use crate::reference::refusal::{LIST_TOO_SHORT, NO_SUCH_DATE, OTHER_FORM, OUT_OF_RANGE};

use super::iso::halves;
use super::lent::Lent;
use super::page_text::damage;
use super::programs::{self, shown};
use super::searches::with_tails;
use super::NO_DAYS;

const FORMS: [Form; 2] = [Form::Date, Form::Day];

/// Lines that are read, without their newline.
fn good_lines(form: Form) -> &'static [&'static str] {
    match form {
        Form::Date => &[
            "1520-03-29",
            "2619-10-13",
            "1612-05-24",
            "1582-10-04",
            "1582-10-05",
            "1582-10-14",
            "1582-10-15",
            "1600-02-29",
            "2000-02-29",
            "1999-12-31",
        ],
        Form::Day => &[
            "0", "401599", "33649", "7", "000007", "00", "9999", "10000", "400000", "099999",
        ],
    }
}

/// Lines of another form.
fn other_forms(form: Form) -> &'static [&'static str] {
    match form {
        Form::Date => &[
            "",
            " ",
            "-",
            "--",
            "1612-5-24",
            "1612-05-4",
            "1612-5-4",
            "612-05-24",
            "01612-05-24",
            "16120-5-24",
            "1612-005-24",
            "1612-05-024",
            "1612-05-240",
            "12345-01-01",
            "1612/05/24",
            "1612.05.24",
            "1612-05/24",
            "1612/05-24",
            "16120524",
            "1612-0524",
            "161205-24",
            "1612--05-24",
            "1612-05--24",
            "1612-05-24-",
            "-1612-05-24",
            "+1612-05-24",
            "-612-05-24",
            "+612-05-24",
            "1612-+5-24",
            "1612--5-24",
            "1612-05-+4",
            " 1612-05-24",
            "1612-05-24 ",
            "1612-05- 4",
            "1612- 5-24",
            " 612-05-24",
            "1612-05-24\r",
            "1612-05-24\t",
            "1612-05-24\0",
            "1612-05-2\0",
            "1612-05-2x",
            "1612-0a-24",
            "l612-05-24",
            "1612-05-2:",
            "1612-05-2/",
            "1612:05:24",
            "1612-05-24T00:00",
            "1612-W21-4",
            "1612-145",
            "1612-05",
            "1612",
            "33649",
            "24-05-1612",
            "1612-05-24 1612-05-25",
            "1612-05-241612-05-25",
            "1612\u{2013}05\u{2013}24",
            "\u{661}\u{666}-05-24",
            "\u{ff11}612-05-24",
            "\u{feff}1612-05-24",
            "# 1612-05-24",
            "2619-10-1",
            "2619-13-1",
            "0000-0-00",
            "99999-99-99",
        ],
        Form::Day => &[
            "",
            " ",
            "-",
            "0000000",
            "0000007",
            "1234567",
            "4015990",
            "4294967296",
            "18446744073709551616",
            "+5",
            "-1",
            "-0",
            " 5",
            "5 ",
            "5\r",
            "5\t",
            "5\0",
            "\05",
            "5.0",
            "5,",
            "0x5",
            "1e3",
            "five",
            "4 5",
            "5/",
            "5:",
            "1520-03-29",
            "\u{663}",
            "\u{ff13}",
            "\u{feff}5",
            "# 5",
        ],
    }
}

/// Dates that there aren't "by Gregorian rules with no lost days".
const NO_DATES: [&str; 24] = [
    "1612-00-24",
    "1612-13-01",
    "1612-05-00",
    "1612-05-32",
    "1612-04-31",
    "1612-06-31",
    "1612-09-31",
    "1612-11-31",
    "1612-02-30",
    "1611-02-29",
    "1500-02-29",
    "1700-02-29",
    "1800-02-29",
    "1900-02-29",
    "2100-02-29",
    "2600-02-29",
    "1582-02-29",
    "1582-10-32",
    "0000-00-00",
    "0000-02-30",
    "0001-02-29",
    "0100-02-29",
    "9999-02-29",
    "9999-99-99",
];

const DATES_OUTSIDE: [&str; 16] = [
    "1520-03-28",
    "1520-03-19",
    "1520-02-29",
    "1519-12-31",
    "0000-01-01",
    "0000-02-29",
    "0001-01-01",
    "0400-02-29",
    "1200-02-29",
    "2619-10-14",
    "2619-11-01",
    "2620-01-01",
    "2620-02-29",
    "2800-02-29",
    "9996-02-29",
    "9999-12-31",
];

const DAYS_OUTSIDE: [&str; 6] = ["401600", "401601", "401700", "500000", "999999", "900000"];

/// Lines that are refused, by their refusal.
fn bad_lines(form: Form) -> Vec<(u32, &'static str)> {
    let of = |refusal: u32, lines: &[&'static str]| -> Vec<(u32, &'static str)> {
        lines.iter().map(|line| (refusal, *line)).collect()
    };
    let other = of(OTHER_FORM, other_forms(form));
    match form {
        Form::Date => [
            other,
            of(NO_SUCH_DATE, &NO_DATES),
            of(OUT_OF_RANGE, &DATES_OUTSIDE),
        ]
        .concat(),
        Form::Day => [other, of(OUT_OF_RANGE, &DAYS_OUTSIDE)].concat(),
    }
}

fn text_of(lines: &[&str]) -> Vec<u8> {
    lines
        .iter()
        .flat_map(|line| format!("{line}\n").into_bytes())
        .collect()
}

fn text_of_days(iso: &IsoDates, form: Form, days: &[u32]) -> Vec<u8> {
    let lines = days.iter().map(|day| iso.line(form, *day).expect("a day"));
    lines.collect::<String>().into_bytes()
}

fn lines_in(text: &[u8]) -> usize {
    text.split_inclusive(|byte| *byte == b'\n').count()
}

/// A text into a list of so many bytes.
fn compare_reading(checks: &mut Checks, iso: &IsoDates, form: Form, text: &[u8], length: usize) {
    let (name, call) = match form {
        Form::Date => ("bridge_dates_to_list", bridge_dates_to_list as Call),
        Form::Day => ("bridge_days_to_list", bridge_days_to_list as Call),
    };
    let mut list = Lent::new(length);
    let (expected, after) = match iso.read(form, text) {
        Ok(days) => (
            u64::from(result_for(&days, length / 4)) << 32 | days.len() as u64,
            list_after(&days, list.bytes()),
        ),
        Err(refusal) => (halves(Err(refusal)), list.bytes().to_vec()),
    };
    make(checks, name, call, text, &mut list, expected, &after);
}

/// A list into a text of so many bytes.
fn compare_writing(checks: &mut Checks, iso: &IsoDates, form: Form, list: &[u8], room: usize) {
    let (name, call) = match form {
        Form::Date => ("bridge_list_to_dates", bridge_list_to_dates as Call),
        Form::Day => ("bridge_list_to_days", bridge_list_to_days as Call),
    };
    let mut text = Lent::new(room);
    let mut after = text.bytes().to_vec();
    let expected = match iso.written(form, list) {
        Ok(lines) if lines.len() <= room => {
            after[..lines.len()].copy_from_slice(lines.as_bytes());
            lines.len() as u64
        }
        Ok(lines) => u64::from(LIST_TOO_SHORT) << 32 | lines.len() as u64,
        Err(refusal) => halves(Err(refusal)),
    };
    make(checks, name, call, list, &mut text, expected, &after);
}

/// Bytes that are read, and bytes that are written.
type Call = unsafe extern "C" fn(*const u8, usize, *mut u8, usize) -> u64;

/// Makes one call and compares its number and all memory, that of the bytes read too.
fn make(
    checks: &mut Checks,
    name: &str,
    call: Call,
    read: &[u8],
    written: &mut Lent,
    expected: u64,
    after: &[u8],
) {
    let lent = Lent::holding(read);
    let (from, to) = (lent.bytes(), written.bytes_mut());
    let came = unsafe { call(from.as_ptr(), from.len(), to.as_mut_ptr(), to.len()) };
    let input = || format!("{}, into {} bytes", shown(read), after.len());
    checks.same(name, input, expected, came);
    written.compare(checks, name, input, after);
    let of_read = || format!("{}, what it reads", input());
    lent.compare(checks, name, of_read, read);
}

/// A text into lists of no entry, one fewer than it has lines, as many and one more, each with tails.
fn compare_text(checks: &mut Checks, iso: &IsoDates, form: Form, text: &[u8]) {
    let lines = lines_in(text);
    for length in with_tails([0, lines.saturating_sub(1), lines, lines + 1]) {
        compare_reading(checks, iso, form, text, length);
    }
}

/// The same into one list that may suffice and into one that is an entry short.
fn compare_text_shortly(checks: &mut Checks, iso: &IsoDates, form: Form, text: &[u8]) {
    let lines = lines_in(text);
    let tail = text.len() % 4;
    compare_reading(checks, iso, form, text, 4 * lines + tail);
    compare_reading(checks, iso, form, text, 4 * lines.saturating_sub(1) + tail);
}

/// The reference by itself, on the lines that are given here by their refusal.
fn laws(checks: &mut Checks, iso: &IsoDates, form: Form) {
    for (refusal, line) in bad_lines(form) {
        let came = iso.read(form, &text_of(&[line]));
        let input = || format!("{form:?}, {line:?}");
        checks.same("a refused line", input, Err(refusal), came);
    }
    for line in good_lines(form) {
        let came = iso.read(form, &text_of(&[line])).map(|days| days.len());
        let input = || format!("{form:?}, {line:?}");
        checks.same("a good line", input, Ok(1), came);
    }
    let none = iso.read(form, b"");
    let input = || "no lines".to_string();
    checks.same("an empty list", input, Ok(Vec::new()), none);
    // "Reading what was written gives the list back, and each day has one line."
    let mut lines = BTreeSet::new();
    for day in 0..=LAST_DAY {
        let line = iso.line(form, day).expect("a day");
        let input = || format!("day {day}");
        let back = iso.read(form, line.as_bytes());
        checks.same("what was written", input, Ok(vec![day]), back);
        lines.insert(line);
    }
    let all = || "all days".to_string();
    checks.same("as many lines as days", all, 401_600, lines.len());
}

/// Each refused line at each place among good ones; and each two kinds at each two places.
fn faults(checks: &mut Checks, iso: &IsoDates, form: Form) {
    let good = good_lines(form);
    for lines in 1..=6 {
        for (_, bad) in bad_lines(form) {
            for place in 0..lines {
                let mut text = Vec::from_iter(good.iter().copied().cycle().skip(place).take(lines));
                text[place] = bad;
                compare_text(checks, iso, form, &text_of(&text));
                compare_text_shortly(checks, iso, form, text.join("\n").as_bytes());
            }
        }
    }
    let kinds: &[&str] = match form {
        Form::Date => &["1612-5-24", "1700-02-29", "1520-03-28"],
        Form::Day => &["1234567", "401600", ""],
    };
    for one in kinds {
        for other in kinds {
            for (first, second) in (0..5).flat_map(|at| (at + 1..6).map(move |to| (at, to))) {
                let mut text = good[..6].to_vec();
                (text[first], text[second]) = (one, other);
                compare_text(checks, iso, form, &text_of(&text));
            }
        }
    }
}

/// In each of three lines every byte in place of each byte, and before it; each byte left out, twice and
/// behind its neighbour; and the text from each byte and up to it.
fn bytes(checks: &mut Checks, iso: &IsoDates, form: Form) {
    let lines = match form {
        Form::Date => ["1612-05-24", "1520-03-29", "2619-10-13"],
        Form::Day => ["33649", "0", "401599"],
    };
    let text = text_of(&lines);
    for at in 0..=text.len() {
        let (before, after) = text.split_at(at);
        compare_text(checks, iso, form, before);
        compare_text(checks, iso, form, after);
        for byte in 0..=255 {
            compare_text_shortly(checks, iso, form, &[before, &[byte], after].concat());
            if let [_, rest @ ..] = after {
                compare_text_shortly(checks, iso, form, &[before, &[byte], rest].concat());
            }
        }
        if let [byte, rest @ ..] = after {
            compare_text(checks, iso, form, &[before, rest].concat());
            compare_text(checks, iso, form, &[before, &[*byte, *byte], rest].concat());
            if let [next, rest @ ..] = rest {
                compare_text(checks, iso, form, &[before, &[*next, *byte], rest].concat());
            }
        }
    }
}

/// Single lines: dates of every year of four digits with many months and days; numbers of up to six
/// digits, all of them, and some with zeros before them.
fn single_lines(checks: &mut Checks, iso: &IsoDates, random: &mut Random) {
    for year in 0..=9999 {
        let dates = [(); 30].map(|()| (random.below(15), random.below(35)));
        let often_sound = [(2, 28), (2, 29), (2, 30), (12, 31), (1, 1), (99, 99)];
        for (month, day) in dates.into_iter().chain(often_sound) {
            let line = format!("{year:04}-{month:02}-{day:02}\n");
            compare_reading(checks, iso, Form::Date, line.as_bytes(), 5);
        }
    }
    for number in 0..=999_999 {
        let width = random.below(8) as usize;
        let line = format!("{number:0width$}\n");
        compare_reading(checks, iso, Form::Day, line.as_bytes(), 5);
    }
}

/// All days in one text and one list, and in pieces of drawn lengths, in order and drawn; lists and
/// texts that just suffice and that are an entry or a byte short.
fn every_day(checks: &mut Checks, iso: &IsoDates, random: &mut Random, form: Form) {
    let days: Vec<u32> = (0..=LAST_DAY).collect();
    compare_days(checks, iso, form, &days);
    let mut from = 0;
    while from < days.len() {
        let to = days.len().min(from + random.between(1, 3000) as usize);
        compare_days(checks, iso, form, &days[from..to]);
        let drawn: Vec<u32> = (from..to).map(|_| random.below(LAST_DAY + 1)).collect();
        compare_days(checks, iso, form, &drawn);
        from = to;
    }
    for lines in MOST_LINES - 1..=MOST_LINES + 2 {
        compare_days(checks, iso, form, &days[9_000..9_000 + lines]);
    }
}

fn compare_days(checks: &mut Checks, iso: &IsoDates, form: Form, days: &[u32]) {
    let text = text_of_days(iso, form, days);
    compare_text_shortly(checks, iso, form, &text);
    let mut list: Vec<u8> = days.iter().flat_map(|day| day.to_le_bytes()).collect();
    list.extend(&[9, 0, 0][..days.len() % 4]);
    for room in [text.len() - 1, text.len(), text.len() + 5] {
        compare_writing(checks, iso, form, &list, room);
    }
}

/// Short lists into texts of every length up to the need and a little beyond: days of every width of a
/// line, numbers that are no days at each place, tails, and drawn lists.
fn lists(checks: &mut Checks, iso: &IsoDates, random: &mut Random, form: Form) {
    let days = [
        0, LAST_DAY, 9, 10, 22_834, 22_835, 22_844, 22_845, 99_999, 100_000, 0,
    ];
    let mut entries: Vec<Vec<u32>> = (0..=days.len())
        .map(|count| days[..count].to_vec())
        .collect();
    for place in 0..6 {
        for no_day in NO_DAYS {
            let mut with = days[..6].to_vec();
            with[place] = no_day;
            entries.push(with);
        }
    }
    for _ in 0..100 {
        let count = random.below(8);
        entries.push((0..count).map(|_| random.below(LAST_DAY + 3)).collect());
    }
    for entries in entries {
        for tail in 0..4 {
            let mut list: Vec<u8> = entries.iter().flat_map(|day| day.to_le_bytes()).collect();
            list.extend(&[1, 0, 0][..tail]);
            let need = iso.written(form, &list).map_or(40, |text| text.len());
            for room in 0..=need + 3 {
                compare_writing(checks, iso, form, &list, room);
            }
        }
    }
}

/// Drawn texts of up to 30 lines, with damaged bytes or a refused line in most.
fn random_text(random: &mut Random, iso: &IsoDates, form: Form) -> Vec<u8> {
    let count = random.between(1, 30) as usize;
    let days: Vec<u32> = (0..count).map(|_| random.below(LAST_DAY + 1)).collect();
    let mut text = text_of_days(iso, form, &days);
    if random.once_in(3) {
        let (_, bad) = random.one_of(&bad_lines(form));
        let at = random.below(count as u32) as usize;
        let ends = text.iter().enumerate().filter(|(_, byte)| **byte == b'\n');
        let end = ends.map(|(place, _)| place + 1).nth(at).unwrap_or(0);
        text.splice(end..end, text_of(&[bad]));
    }
    for _ in 0..random.below(3) {
        damage(random, &mut text);
    }
    text
}

fn random_texts(checks: &mut Checks, iso: &IsoDates, random: &mut Random, form: Form) {
    for _ in 0..10_000 {
        let text = random_text(random, iso, form);
        compare_text_shortly(checks, iso, form, &text);
    }
}

/// A program that reads lines of one form.
fn compare_program(checks: &mut Checks, iso: &IsoDates, form: Form, pieces: &[&[u8]]) {
    let path = match form {
        Form::Date => "target/bin/dates_to_days",
        Form::Day => "target/bin/days_to_dates",
    };
    let expected = iso.printed(form, &pieces.concat());
    programs::compare(checks, path, expected, pieces);
}

/// Each refused line alone, behind a good one and before one; every byte in a line and behind the last;
/// all days; and drawn texts.
fn program_texts(checks: &mut Checks, iso: &IsoDates, random: &mut Random, form: Form) {
    let good = text_of(&good_lines(form)[..1]);
    compare_program(checks, iso, form, &[]);
    compare_program(checks, iso, form, &[&text_of(good_lines(form))]);
    for (_, bad) in bad_lines(form) {
        let bad = text_of(&[bad]);
        compare_program(checks, iso, form, &[&bad]);
        compare_program(checks, iso, form, &[&[&good[..], &bad].concat()]);
        compare_program(checks, iso, form, &[&[&bad[..], &good].concat()]);
    }
    for byte in 0..=255 {
        compare_program(checks, iso, form, &[&[&good[..], &[byte]].concat()]);
        let mut text = [&good[..], &good].concat();
        text[good.len()] = byte;
        compare_program(checks, iso, form, &[&text]);
    }
    let days: Vec<u32> = (0..=LAST_DAY).collect();
    for some in days.chunks(MOST_LINES) {
        compare_program(checks, iso, form, &[&text_of_days(iso, form, some)]);
    }
    for _ in 0..200 {
        compare_program(checks, iso, form, &[&random_text(random, iso, form)]);
    }
}

/// 4,095 to 4,098 lines, good or with a refused line at many places; and what may follow 4,096 good
/// ones.
fn about_most(checks: &mut Checks, iso: &IsoDates, form: Form) {
    let days: Vec<u32> = (0..MOST_LINES as u32 + 2).map(|at| 97 * at).collect();
    let bad: &[&str] = match form {
        Form::Date => &["1612-5-24", "1700-02-29", "2619-10-14"],
        Form::Day => &["1234567", "", "401600"],
    };
    for count in MOST_LINES - 1..=MOST_LINES + 2 {
        let text = text_of_days(iso, form, &days[..count]);
        compare_program(checks, iso, form, &[&text]);
        compare_program(checks, iso, form, &[&text[..text.len() - 1]]);
        for place in [0, 1, 2047, 4093, 4094, 4095, 4096, 4097] {
            let (before, after) = days[..count].split_at(place.min(count));
            let [before, after] = [before, after].map(|days| text_of_days(iso, form, days));
            for bad in bad {
                let text = [&before[..], &text_of(&[bad]), &after].concat();
                compare_program(checks, iso, form, &[&text]);
            }
        }
    }
    let full = text_of_days(iso, form, &days[..MOST_LINES]);
    let long = b"5".repeat(1 << 20);
    let lines = text_of(&good_lines(form)[..1]).repeat(100_000);
    let rest: [&[u8]; 10] = [
        b"\n",
        b"\n\n",
        b"x",
        b"\0",
        b" ",
        b"\r",
        b"1612-05-24",
        b"5",
        &long,
        &lines,
    ];
    for rest in rest {
        compare_program(checks, iso, form, &[&[&full[..], rest].concat()]);
    }
    for rest in rest.into_iter().take(3) {
        compare_program(checks, iso, form, &[&full, rest]);
    }
}

/// Long inputs, whose first bytes may be good lines, and such as come in pieces.
fn long_and_in_pieces(checks: &mut Checks, iso: &IsoDates, form: Form) {
    let line = text_of(&good_lines(form)[2..3]);
    for length in [
        15, 16, 17, 4095, 4096, 4097, 65_535, 65_536, 65_537, 4_000_000,
    ] {
        for byte in *b"5\n\0 " {
            compare_program(checks, iso, form, &[&vec![byte; length]]);
            let text = [&line[..], &vec![byte; length]].concat();
            compare_program(checks, iso, form, &[&text]);
        }
        let zeros = [&vec![b'0'; length][..], &line].concat();
        compare_program(checks, iso, form, &[&zeros]);
    }
    let two = line.repeat(2);
    for at in 0..=two.len() {
        let (one, other) = two.split_at(at);
        compare_program(checks, iso, form, &[one, other]);
    }
    let single: Vec<&[u8]> = two.chunks(1).collect();
    compare_program(checks, iso, form, &single);
    let whole = line.repeat(MOST_LINES);
    for at in [1, 4095, 4096, 4097, whole.len() - 1] {
        let (one, other) = whole.split_at(at);
        compare_program(checks, iso, form, &[one, other]);
        compare_program(checks, iso, form, &[one, other, &line]);
    }
}

pub fn run(checks: &mut Checks, iso: &IsoDates) {
    let mut random = Random::from_seed();
    single_lines(checks, iso, &mut random);
    for form in FORMS {
        laws(checks, iso, form);
        faults(checks, iso, form);
        bytes(checks, iso, form);
        every_day(checks, iso, &mut random, form);
        lists(checks, iso, &mut random, form);
        random_texts(checks, iso, &mut random, form);
        program_texts(checks, iso, &mut random, form);
        about_most(checks, iso, form);
        long_and_in_pieces(checks, iso, form);
    }
}
