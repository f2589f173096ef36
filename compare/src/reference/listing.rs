//! P3: what `find` prints by a page's line `print`: the catalogue with names in columns, or a
//! comma-separated table by RFC 4180. Names and their columns' widths are those of the lists in
//! docs/find.md.

use super::almanac::Almanac;
use super::catalogue;
use super::civil::Date;
use super::iso::IsoDates;
use super::names::Names;
use super::page::{Listing, Printed, SETS};
use super::search::Found;

/// The width of the column of days: as many digits as the last day has.
const DAYS: usize = 6;

/// A date with "two digits a month and day".
pub fn in_digits(Date { year, month, day }: Date) -> String {
    format!("{year:04}-{month:02}-{day:02}")
}

/// The lines of cells: the first column to the right, the others to the left, two blanks between them and
/// none at a line's end.
fn columns(widths: &[usize], rows: &[Vec<String>]) -> String {
    let mut text = String::new();
    for row in rows {
        let mut line = String::new();
        for ((cell, width), at) in row.iter().zip(widths).zip(0..) {
            line += &match at {
                0 => format!("{cell:>width$}"),
                _ => format!("  {cell:width$}"),
            };
        }
        text += line.trim_end_matches(' ');
        text.push('\n');
    }
    text
}

/// A heading, and a line for each day: "names for the four elements, columns that line up, dates with two
/// digits a month and day".
fn in_columns(almanac: &Almanac, names: &Names, found: &Found) -> String {
    let heading = ["day", "date"].into_iter().chain(SETS);
    let heading: Vec<String> = heading.map(String::from).collect();
    let longest = |list: &str| {
        let names = names.list(list).iter().map(|name| name.spellings[0].len());
        names.max().expect("a list has names").max(list.len())
    };
    let mut widths = vec![DAYS, in_digits(Date::EPOCH).len()];
    widths.extend(SETS.map(longest));
    let mut rows = vec![heading];
    for number in &found.matching {
        let day = &almanac.days()[*number as usize];
        let mut row = vec![number.to_string(), in_digits(day.date)];
        for (list, own) in SETS.into_iter().zip(day.numbers(found.edition)) {
            row.push(names.plain(list, own).to_string());
        }
        rows.push(row);
    }
    columns(&widths, &rows)
}

/// "A comma-separated table with a heading, RFC 4180, numbers and names both, and the ISO date."
fn in_table(almanac: &Almanac, names: &Names, found: &Found) -> String {
    let mut heading: Vec<String> = ["day", "date", "iso"].map(String::from).to_vec();
    heading.extend(SETS.map(|list| format!("{list}_number,{list}")));
    let mut rows = vec![heading];
    for number in &found.matching {
        let day = &almanac.days()[*number as usize];
        let iso = IsoDates::of_all_days().dates()[*number as usize];
        let mut row = vec![number.to_string(), in_digits(day.date), in_digits(iso)];
        for (list, own) in SETS.into_iter().zip(day.numbers(found.edition)) {
            row.push(format!("{own},\"{}\"", names.plain(list, own)));
        }
        rows.push(row);
    }
    rows.iter().map(|row| row.join(",") + "\r\n").collect()
}

/// All that is written for a search. Beside a comma-separated table the numbers of days stand on standard
/// error, behind what is remarked.
pub fn printed(
    almanac: &Almanac,
    names: &Names,
    listing: Listing,
    found: &Found,
    remarks: String,
) -> Printed {
    let counts = [&found.matching, &found.visited].map(|days| days.len() as u32);
    let counted = catalogue::counted(found.edition, counts[0], counts[1]);
    match listing {
        Listing::Numbers => Printed::accepted(catalogue::text(almanac, found), remarks),
        Listing::Names => Printed::accepted(counted + &in_columns(almanac, names, found), remarks),
        Listing::Csv => Printed::accepted(in_table(almanac, names, found), remarks + &counted),
    }
}
