//! P4: the program `saka`, on every Saka date of a century in words and numbers, on dates of each kind of
//! answer, and on lines good and bad.

use crate::checks::Checks;
use crate::random::Random;
use crate::reference::almanac::Almanac;
use crate::reference::edition::Edition;
use crate::reference::forms::Forms;
use crate::reference::names::Names;
use crate::reference::saka::SakaDate;
use crate::reference::saka_line::answers;
use crate::reference::saka_sheet::printed;

use super::glances::saka_dates;
use super::one_line::{saka_words, spoil, written, Program, Values};

/// The century's first year: it has all examples of document 000.
const FIRST: u32 = 1500;

/// Lines, and what is printed: the issue's own, docs/saka.md's, and some worked out with the papers' rule.
const WORKED: [(&str, &str); 12] = [
    (
        "1522 0 2 friday",
        "without the mark: 29208 1600-3-17 friday, tithi 2 shukla-tritiya, asked 2 shukla-tritiya: fits\n\
         with the mark: 29180 1600-2-18 friday, tithi 3 shukla-chaturthi, asked 2 shukla-tritiya: does not fit\n",
    ),
    (
        "1522, Chaitra, Śukla 3, FRI # as printed",
        "without the mark: 29208 1600-3-17 friday, tithi 2 shukla-tritiya, asked 2 shukla-tritiya: fits\n\
         with the mark: 29180 1600-2-18 friday, tithi 3 shukla-chaturthi, asked 2 shukla-tritiya: does not fit\n",
    ),
    (
        "1555 chaitra shukla 1 friday",
        "without the mark: 41283 1633-4-8 friday, tithi 29 amavasya, asked 0 shukla-pratipada: does not fit\n\
         with the mark: 41255 1633-3-11 friday, tithi 0 shukla-pratipada, asked 0 shukla-pratipada: fits\n",
    ),
    (
        "1534 1 14 0",
        "without the mark: 33649 1612-5-14 monday, tithi 14 purnima, asked 14 purnima: fits\n\
         with the mark: 33621 1612-4-16 monday, tithi ",
    ),
    (
        "1530 kārtika śukla-pratipadā saturday",
        "without the mark: 32366 1608-11-8 saturday, tithi 0 shukla-pratipada, asked 0 shukla-pratipada: fits\n\
         with the mark: refused 4, none of the three days has this weekday\n",
    ),
    (
        "1442 0 0 wednesday",
        "without the mark: refused 4, none of the three days has this weekday\n\
         with the mark: refused 8, no extra month is counted that may be to come\n",
    ),
    (
        "1442 0 0 monday",
        "without the mark: 0 1520-3-19 monday, tithi 29 amavasya, asked 0 shukla-pratipada: does not fit\n\
         with the mark: refused 8, ",
    ),
    (
        "1442 0 0 sunday",
        "without the mark: refused 2, a year outside 1442 to 2541 or a day outside 0 to 401599\n\
         with the mark: refused 8, no extra month is counted that may be to come\n",
    ),
    (
        "1441 0 0 monday",
        "without the mark: refused 2, a year outside 1442 to 2541 or a day outside 0 to 401599\n\
         with the mark: refused 2, a year outside 1442 to 2541 or a day outside 0 to 401599\n",
    ),
    ("2542 11 29 sunday", "without the mark: refused 2, "),
    ("1522 0 30 friday", "refused 3\n"),
    ("1522 12 3 friday", "refused 3\n"),
];

/// Lines that are refused with 3.
const REFUSED: [&str; 32] = [
    "",
    "#",
    "1522",
    "1522 0 2",
    "1522 0 friday",
    "0 2 friday",
    "1522 0 2 friday 1",
    "1522 0 2 friday friday",
    "saka 1522 0 2 friday",
    "x 0 2 friday",
    "1522 x 2 friday",
    "1522 0 x friday",
    "1522 0 2 x",
    "1522 0 2 7",
    "1522 0 2 fr",
    "1522 mesha 2 friday",
    "1522 chait 2 friday",
    "1522 chaitra vishakha friday",
    "1522 chaitra shukla friday",
    "1522 chaitra 3 shukla friday",
    "1522 chaitra shukla 0 friday",
    "1522 chaitra shukla 16 friday",
    "1522 chaitra krishna 99 friday",
    "1522 chaitra shukla-3 friday",
    "1522 chaitra shukla purnima friday",
    "1522 chaitra shukla 3 4 friday",
    "1522 0 shukla 3 friday edition 2",
    "-1522 0 2 friday",
    "0000001522 0 2 friday",
    "1522 0 0000000002 friday",
    "99 12 2 friday",
    "1522-0-2 friday",
];

fn worked(checks: &mut Checks, program: &Program) {
    for (line, begins) in WORKED {
        let mut own = (program.printed)(format!("{line}\n").as_bytes()).output;
        if !begins.ends_with('\n') {
            own.truncate(begins.len());
        }
        checks.same_lines("docs/saka.md", || line.to_string(), begins, &own);
    }
    for line in REFUSED {
        let own = (program.printed)(format!("{line}\n").as_bytes()).output;
        checks.same_lines("a refused line", || line.to_string(), "refused 3\n", &own);
    }
    program.lines(checks, WORKED.map(|(line, _)| line));
    program.lines(checks, REFUSED);
}

/// docs/saka.md: "the answers with the mark and without it are 28 days apart, where both have one", and "at most one
/// of the two answers has at sunrise the tithis that the date asks for"; and each has the weekday.
fn laws(checks: &mut Checks, almanac: &Almanac) {
    for (year, months) in (FIRST..FIRST + 100).flat_map(|year| (0..12).map(move |m| (year, m))) {
        for (tithis, weekday) in (0..30).flat_map(|tithi| (0..7).map(move |w| (tithi, w))) {
            let date = SakaDate {
                year,
                months,
                tithis,
                weekday,
                pending: false,
            };
            let input = || format!("{date:?}");
            let given = answers(almanac, Edition::First, date);
            for given in given.into_iter().flatten() {
                let own = &almanac.days()[given.day as usize];
                let tithi = own.elements(Edition::First).tithi;
                checks.same("its weekday", input, weekday, own.weekday);
                checks.same("it fits", input, tithi == tithis, given.fits);
            }
            if let [Ok(without), Ok(with)] = given {
                checks.same("28 days apart", input, 28, without.day - with.day);
                checks.same("one fits at most", input, false, without.fits && with.fits);
            }
        }
    }
}

/// The weekday of the day that the rule without the mark reckons, or one beside it; of every seventh date, any.
fn weekday(random: &mut Random, date: SakaDate) -> u32 {
    if random.once_in(7) {
        return random.below(7);
    }
    let reckoned = date.reckoned_day().expect("the mark isn't set");
    let near = reckoned + i64::from(random.below(3)) - 1;
    near.rem_euclid(7) as u32
}

/// Every date of the century, by names and by numbers.
fn century<'a>(random: &'a mut Random, names: &'a Names) -> impl Iterator<Item = Vec<u8>> + 'a {
    let years = FIRST..FIRST + 100;
    let months = years.flat_map(|year| (0..12).map(move |months| (year, months)));
    let dates = months.flat_map(|month| (0..30).map(move |tithis| (month, tithis)));
    dates.flat_map(|((year, months), tithis)| {
        let mut date = SakaDate {
            year,
            months,
            tithis,
            weekday: 0,
            pending: false,
        };
        date.weekday = weekday(random, date);
        [Values::Names, Values::Numbers].map(|values| {
            let line = saka_words(random, names, values, date).join(" ");
            format!("{line}\n").into_bytes()
        })
    })
}

pub fn run(checks: &mut Checks, almanac: &Almanac) {
    let program = Program {
        path: "target/bin/saka",
        printed: &|input| printed(almanac, input),
    };
    let names = &Forms::of_document().names;
    let mut random = Random::from_seed();
    laws(checks, almanac);
    worked(checks, &program);
    program.ends_of(checks, "1522 chaitra shukla 3 friday");
    for (before, after) in [
        ("", "1522 0 2 4\n"),
        ("1522 0 ", "2 4\n"),
        ("1522 0 2 4\n", ""),
    ] {
        program.every_byte(checks, before, after);
    }
    for date in saka_dates(almanac, &mut random) {
        let words = saka_words(&mut random, names, Values::Either, date);
        let mut input = written(&mut random, &words);
        program.compare(checks, &input);
        spoil(&mut random, &mut input);
        program.compare(checks, &input);
    }
    program.compare_many(checks, century(&mut random, names));
}
