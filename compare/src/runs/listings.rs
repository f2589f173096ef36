//! P3: what `find` prints by a page's line `print`, in columns with names and as a comma-separated table, over
//! all days, for each name and about the numbers of days that it lists at once; and what `why`
//! says by it. The reference's lists are read back, by their columns and by RFC 4180.

use std::collections::BTreeSet;

use crate::checks::Checks;
use crate::random::Random;
use crate::reference::almanac::Almanac;
use crate::reference::days::LAST_DAY;
use crate::reference::edition::Edition;
use crate::reference::forms::Forms;
use crate::reference::iso::{Form, IsoDates};
use crate::reference::names::Names;
use crate::reference::page::{self, Complaint, SETS};
use crate::reference::why;

use super::page_text::{day, lines_of, page_of, put_line, words};
use super::programs;
use super::reasons::{shutting_out, LAST_CONDITION};
use super::EDITIONS;

const FIND: &str = "target/bin/find";
const WHY: &str = "target/bin/why";

fn find(checks: &mut Checks, almanac: &Almanac, page: &[u8]) {
    programs::compare(checks, FIND, page::printed(almanac, page), &[page]);
}

fn why(checks: &mut Checks, almanac: &Almanac, text: &[u8]) {
    programs::compare(checks, WHY, why::printed(almanac, text), &[text]);
}

/// Pages, and all that is printed for them: what `print` was decided to do, worked out by hand.
const WORKED: [(&str, &str); 4] = [
    (
        "span 33649 33650\nprint names\n",
        concat!(
            "found 2 looked 2\n",
            "   day  date        weekday    tithi                nakshatra          yoga        karana\n",
            " 33649  1612-05-14  monday     purnima              vishakha           parigha     vishti\n",
            " 33650  1612-05-15  tuesday    krishna-pratipada    anuradha           shiva       balava\n",
        ),
    ),
    (
        "span 1582-10-3 1582-10-3\nprint csv\n",
        concat!(
            "day,date,iso,weekday_number,weekday,tithi_number,tithi,nakshatra_number,nakshatra,",
            "yoga_number,yoga,karana_number,karana\r\n",
            "22843,1582-10-03,1582-10-13,2,\"wednesday\",",
        ),
    ),
    (
        "tithi 14\nspan 33649 33649\nPRINT Csv\n",
        concat!(
            "day,date,iso,weekday_number,weekday,tithi_number,tithi,nakshatra_number,nakshatra,",
            "yoga_number,yoga,karana_number,karana\r\n",
            "33649,1612-05-14,1612-05-14,0,\"monday\",14,\"purnima\",15,\"vishakha\",18,\"parigha\",7,",
            "\"vishti\"\r\n",
        ),
    ),
    (
        "edition 2\nspan 0 0\ntithi 3\nprint names\n",
        concat!(
            "found 0 looked 1 edition 2\n",
            "   day  date        weekday    tithi                nakshatra          yoga        karana\n",
        ),
    ),
];

fn worked(checks: &mut Checks, almanac: &Almanac) {
    for (page, begins) in WORKED {
        let mut own = page::printed(almanac, page.as_bytes()).output;
        if !begins.ends_with('\n') {
            own.truncate(begins.len());
        }
        checks.same_lines("a list by `print`", || page.to_string(), begins, &own);
        find(checks, almanac, page.as_bytes());
    }
}

/// A day of a list, however it is printed: its number, its civil date, and its weekday and limbs by number.
type Row = (u32, Vec<u32>, Vec<u32>);

fn number(word: &str) -> u32 {
    word.parse().expect("a number")
}

fn date(word: &str) -> Vec<u32> {
    word.split('-').map(number).collect()
}

fn numbered(names: &Names, list: &str, name: &str) -> u32 {
    let name = names.list(list).iter().find(|one| one.spellings[0] == name);
    name.expect("a plain name").number
}

/// The catalogue as it always was: only the weekday has a name.
fn rows_in_numbers(names: &Names, text: &str) -> Vec<Row> {
    let row = |line: &str| {
        let words: Vec<&str> = line.split(' ').collect();
        let limbs = words[3..].iter().map(|word| number(word));
        let own = [numbered(names, "weekday", words[2])]
            .into_iter()
            .chain(limbs);
        (number(words[0]), date(words[1]), own.collect())
    };
    text.lines().skip(2).map(row).collect()
}

/// The columns, cut where the heading's words begin, but the first where it ends.
fn rows_in_columns(names: &Names, text: &str) -> Vec<Row> {
    let mut lines = text.lines().skip(1);
    let heading = lines.next().expect("a heading");
    let words = heading.split(' ').filter(|word| !word.is_empty()).skip(1);
    let begins = words.map(|word| heading.find(&format!("  {word}")).expect("two blanks"));
    let begins: Vec<usize> = [0].into_iter().chain(begins).collect();
    let row = |line: &str| {
        let ends = begins[1..].iter().copied().chain([line.len()]);
        let cells = begins
            .iter()
            .zip(ends)
            .map(|(begin, end)| &line[*begin..end]);
        let cells: Vec<&str> = cells.map(|cell| cell.trim_matches(' ')).collect();
        let named = SETS.into_iter().zip(&cells[2..]);
        let own = named.map(|(list, name)| numbered(names, list, name));
        (number(cells[0]), date(cells[1]), own.collect())
    };
    lines.map(row).collect()
}

/// A record of RFC 4180 whose fields have no commas, quotes and line ends within: those in quotes, and the bare
/// ones.
fn fields(record: &str) -> (Vec<&str>, Vec<&str>) {
    let record = record.strip_suffix("\r\n").expect("CRLF");
    let (quoted, bare): (Vec<&str>, Vec<&str>) =
        record.split(',').partition(|field| field.starts_with('"'));
    let within = |field: &&str| field[1..].strip_suffix('"').map(str::len) == Some(field.len() - 2);
    assert!(quoted.iter().all(within), "{record}");
    (
        quoted
            .iter()
            .map(|field| &field[1..field.len() - 1])
            .collect(),
        bare,
    )
}

/// The table: names in quotes and numbers bare, which have to agree, and so do the two dates.
fn rows_in_table(names: &Names, text: &str) -> Vec<Row> {
    let iso = IsoDates::of_all_days();
    let row = |record: &str| {
        let (quoted, bare) = fields(record);
        let day = number(bare[0]);
        let iso = iso.line(Form::Date, day).expect("a day");
        assert_eq!(iso.trim_end(), bare[2], "{record}");
        let named = SETS.into_iter().zip(quoted);
        let named: Vec<u32> = named
            .map(|(list, name)| numbered(names, list, name))
            .collect();
        let own: Vec<u32> = bare[3..].iter().map(|field| number(field)).collect();
        assert_eq!(own, named, "{record}");
        (day, date(bare[1]), own)
    };
    let records = text.split_inclusive("\r\n");
    records.skip(1).map(row).collect()
}

/// The reference by itself: the three lists of a page have the same days.
fn same_days(checks: &mut Checks, almanac: &Almanac, page: &str) {
    let names = &Forms::of_document().names;
    let [in_numbers, in_columns, in_table] = ["", "print names\n", "print csv\n"]
        .map(|line| page::printed(almanac, format!("{page}{line}").as_bytes()));
    let input = || page.to_string();
    let rows = rows_in_numbers(names, &in_numbers.output);
    let by_names = rows_in_columns(names, &in_columns.output);
    checks.same("the days in columns", input, &rows, &by_names);
    let in_records = rows_in_table(names, &in_table.output);
    checks.same("the days of the table", input, &rows, &in_records);
    let counted = |text: &str| text.lines().next().map(String::from);
    let numbers = counted(&in_numbers.output);
    checks.same("the counts", input, &numbers, &counted(&in_columns.output));
    let Complaint::Remarks(said) = in_table.complaint else {
        return checks.same("the page is accepted", input, true, false);
    };
    let last = said.lines().last().map(String::from);
    checks.same("the counts beside the table", input, numbers, last);
}

/// The line in odd places and forms, twice, and beside faults and remarks; a table beside which something is
/// said.
fn odd(checks: &mut Checks, almanac: &Almanac) {
    let pages = [
        "span 5 9\nprint names\n",
        "span 5 9\nprint csv\n",
        "span 5 9\n\u{feff}print csv\n",
        "\u{feff}PRINT,NAMES,\r\nspan 5 9\r\n",
        "span 5 9\n print\t csv # names\n",
        "span 5 9\n# print csv\n",
        "span 5 9\nprint # csv\n",
        "span 5 9\nprint#names\n",
        "span 5 9\nprint names\nprint names\n",
        "span 5 9\nprint names\nprint csv\n",
        "span 5 9\nprint csv\nprint x\n",
        "span 5 9\nprint x\nprint csv\n",
        "span 5 9\nprint names",
        "span 5 9\nprint names\ntithi 30\n",
        "span 9 5\nprint csv\n",
        "span 5 9\nprint numbers\nedition 3\n",
        "span 5 9\nprint csv\nedition 2\n",
        "edition 2\nspan 5 9\nprint names\n",
        "span 5 9\nprint names names\n",
        "span 5 9\nprint csv,names\n",
        "span 5 9\nPrint Csv\nyoga 3 4 5 6 7\n",
        "span 1607 1612\nprint csv\n",
        "span 1607 1612\nprint names\n",
        "print csv\nsun 34 1\nspan 300000 300003\n",
        "sun 34:0:0 35:0:0\nspan 300000 300003\nprint csv\nedition 2\n",
        "sun 34:0:0 to 69:0:0\nspan 300000 300003\nprint names\n",
        "span 300000 300003\nsun 34 to 35\n",
        "span 300000 300003\nSun 34 1 34 to 35\n",
        "span 300000 300003\nmoon 34 to 35 34 1\n",
        "span 300000 300003\ntrue_sun mesha 34:0 35:0\n",
        "span 300000 300003\nTRUE_SUN 34:0 35:0 Mīna\n",
        "span 300000 300003\ntrue_moon 34:0 TO 69:0 34:0 35:0\n",
    ];
    for page in pages {
        find(checks, almanac, page.as_bytes());
        why(checks, almanac, format!("33649\n{page}").as_bytes());
    }
}

/// All days in columns by edition 1 and in a table by edition 2; and just as many as are listed at once, and one
/// more.
fn many_days(checks: &mut Checks, almanac: &Almanac) {
    for page in [
        "print names\n",
        "edition 2\nprint csv\n",
        "span 0 131071\nprint names\n",
        "span 0 131072\nprint csv\n",
    ] {
        find(checks, almanac, page.as_bytes());
    }
}

/// The names that stand in a text as words or fields.
fn named_in(text: &str) -> BTreeSet<&str> {
    text.split([' ', ',', '"', '\n']).collect()
}

/// A text for `why`, and all names of the lists in what is said by `print names`: each name is asked alone, and
/// all but the day's, on a day that has it.
fn reasons(checks: &mut Checks, almanac: &Almanac, random: &mut Random) {
    let names = &Forms::of_document().names;
    let (mut asked, mut found) = (String::new(), String::new());
    for (at, set) in SETS.into_iter().enumerate() {
        let list = names.list(set);
        for name in list {
            let number = std::iter::repeat_with(|| random.below(LAST_DAY + 1));
            let has = |day: &u32| {
                almanac.days()[*day as usize].numbers(Edition::First)[at] == name.number
            };
            let number = number.into_iter().find(has).expect("each is on many days");
            let others = list.iter().filter(|other| other.number != name.number);
            let others: Vec<String> = others.map(|other| other.number.to_string()).collect();
            for values in [
                &others[..],
                &others[name.number as usize % others.len()..][..1],
            ] {
                let values = values.join(" ");
                for listing in ["names", "csv"] {
                    let text = format!("{number}\n{set} {values}\nprint {listing}\n");
                    why(checks, almanac, text.as_bytes());
                    let own = why::printed(almanac, text.as_bytes()).output;
                    let (before, behind) = own.split_once("found").unwrap_or_default();
                    if listing == "names" {
                        asked += before;
                        found += behind;
                    }
                }
            }
        }
    }
    for name in SETS.into_iter().flat_map(|set| names.list(set)) {
        let plain = &name.spellings[0][..];
        let input = || plain.to_string();
        checks.same(
            "a name asked",
            input,
            true,
            named_in(&asked).contains(plain),
        );
        checks.same(
            "a name found",
            input,
            true,
            named_in(&found).contains(plain),
        );
    }
    for edition in EDITIONS {
        for condition in (0..=LAST_CONDITION).flat_map(|condition| [condition; 4]) {
            let (query, number) = shutting_out(random, almanac, edition, condition);
            let mut lines = lines_of(random, almanac, &query);
            lines.push(words(random.one_of(&[
                "print names",
                "PRINT Names",
                "print csv",
            ])));
            let mut text = Vec::new();
            let word = day(random, almanac, number);
            put_line(random, &mut text, &vec![word]);
            text.extend(page_of(random, lines));
            why(checks, almanac, &text);
        }
    }
}

pub fn run(checks: &mut Checks, almanac: &Almanac) {
    let mut random = Random::from_seed();
    worked(checks, almanac);
    for page in [
        "span 33000 33999\n",
        "span 22800 22900\nedition 2\n",
        "span 0 120\n",
        "span 401500 401599\nedition 2\n",
        "tithi 14\nweekday monday\nsun 34:0:0 1:0:0\n",
        "span 5 5\ntithi 3\n",
    ] {
        same_days(checks, almanac, page);
    }
    odd(checks, almanac);
    many_days(checks, almanac);
    reasons(checks, almanac, &mut random);
}
