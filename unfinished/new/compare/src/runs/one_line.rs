//! Programs that read one line (P4), run on inputs good and bad: all that they write is compared.

use crate::checks::Checks;
use crate::random::Random;
use crate::reference::almanac::Almanac;
use crate::reference::days::LAST_DAY;
use crate::reference::names::Names;
use crate::reference::page::{Printed, TOO_LONG};
use crate::reference::saka::SakaDate;

use super::find::many;
use super::form_text::{name_of, number, put_line, shake, spelled};
use super::page_text::{damage, day, Line};
use super::programs;

const BYTE_ORDER_MARK: &[u8] = b"\xEF\xBB\xBF";

/// A program, and what it has to write for an input.
pub struct Program<'a> {
    pub path: &'static str,
    pub printed: &'a dyn Fn(&[u8]) -> Printed,
}

impl Program<'_> {
    pub fn compare_pieces(&self, checks: &mut Checks, pieces: &[&[u8]]) {
        let expected = (self.printed)(&pieces.concat());
        programs::compare(checks, self.path, expected, pieces);
    }

    pub fn compare(&self, checks: &mut Checks, input: &[u8]) {
        self.compare_pieces(checks, &[input]);
    }

    /// Short inputs.
    pub fn compare_many(&self, checks: &mut Checks, inputs: impl IntoIterator<Item = Vec<u8>>) {
        programs::compare_many(checks, self.path, self.printed, inputs);
    }

    pub fn lines<'b>(&self, checks: &mut Checks, lines: impl IntoIterator<Item = &'b str>) {
        let inputs = lines
            .into_iter()
            .map(|line| format!("{line}\n").into_bytes());
        self.compare_many(checks, inputs);
    }

    /// Every byte between two texts.
    pub fn every_byte(&self, checks: &mut Checks, before: &str, after: &str) {
        let input = |byte| [before.as_bytes(), &[byte], after.as_bytes()].concat();
        self.compare_many(checks, (0..=255).map(input));
    }

    /// A good line with no newline, with others about it, cut at each place, far behind blanks and before a long
    /// comment, about the largest size, and in pieces.
    pub fn ends_of(&self, checks: &mut Checks, line: &str) {
        for end in 0..line.len() {
            self.compare(checks, &line.as_bytes()[..end]);
        }
        let line = line.as_bytes();
        let about: [(&[u8], &[u8]); 12] = [
            (b"", b""),
            (b"", b"\n\n"),
            (b"", b"\n "),
            (b"", b"\n#"),
            (b"", b"\n\0"),
            (b"\n", b"\n"),
            (b"# a line\n", b"\n"),
            (b"\xEF\xBB\xBF", b"\n"),
            (b"\xEF\xBB\xBF\xEF\xBB\xBF", b"\n"),
            (b" \xEF\xBB\xBF", b"\n"),
            (b"\xEF\xBB", b"\n"),
            (b"\r\t ,", b",\r # a line\n"),
        ];
        for (before, after) in about {
            self.compare(checks, &[before, line, after].concat());
        }
        for (before, after) in [
            (many(b" \t\r,"), b"\n".to_vec()),
            (Vec::new(), [&many(b" ")[..], b"\n"].concat()),
            (Vec::new(), [b"#", &many(b"x ")[..], b"\n"].concat()),
            (Vec::new(), [b"\n", &many(b"\0")[..]].concat()),
            (many(b"0"), b"\n".to_vec()),
        ] {
            self.compare(checks, &[&before, line, &after].concat());
        }
        for length in [TOO_LONG - 1, TOO_LONG, TOO_LONG + 1, 4 * TOO_LONG] {
            let mut input = line.to_vec();
            input.resize(length - 1, b' ');
            input.push(b'\n');
            self.compare(checks, &input);
        }
        let (front, back) = line.split_at(line.len() / 2);
        self.compare_pieces(checks, &[front, back, b"\n"]);
        self.compare_pieces(checks, &[line, b"\n", b"\n"]);
        self.compare_pieces(checks, &[line, b"\n", b"x"]);
    }
}

/// Lines with a day, good and with each fault.
pub const DAYS: [&str; 48] = [
    "0",
    "33649",
    "401599",
    "000000",
    "1612-5-14",
    "01612-005-0014",
    "000001612-000000005-000000014",
    "1520-3-19",
    "2619-10-13",
    "1582-10-4",
    "1582-10-15",
    " 33649",
    "33649\r",
    "\t 33649 ,\r",
    ",1612-5-14,",
    "33649#",
    "33649 # the reading",
    "1612-5-14#1",
    "\u{feff}33649",
    "",
    " ",
    "#",
    "# 33649",
    "33649 33650",
    "33649 x",
    "x 33649",
    "33 649",
    "day 33649",
    "iso 1612-05-14",
    "monday",
    "0033649",
    "1234567",
    "1612-5",
    "1612-5-14-1",
    "1612--14",
    "1612-5-",
    "1612/5/14",
    "1612-5-0000000014",
    "-1",
    "+1",
    "1582-10-10",
    "1700-2-29",
    "1612-13-1",
    "0-0-0",
    "401600",
    "999999",
    "1520-3-18",
    "2619-10-14",
];

/// A line of words, with blanks and sometimes a comment about them, and with a byte order mark or without.
pub fn written(random: &mut Random, words: &Line) -> Vec<u8> {
    let mut input = Vec::new();
    if random.once_in(6) {
        input.extend(BYTE_ORDER_MARK);
    }
    put_line(random, &mut input, words);
    input
}

/// An input with a fault, or with two: a byte or a word is another, its newline is missing or isn't the last byte, or
/// it is too long.
pub fn spoil(random: &mut Random, input: &mut Vec<u8>) {
    for _ in 0..random.between(1, 2) {
        match random.below(12) {
            0..=4 => damage(random, input),
            5..=8 => shake(random, input),
            9 => drop(input.pop()),
            10 => input.extend(random.one_of(&[&b"\n"[..], b"\r", b" \n", b"33649\n", b"\0"])),
            _ => input.splice(..0, b" ".repeat(TOO_LONG)).for_each(drop),
        }
    }
}

/// Lines with drawn days by number and date, a third of them spoilt.
pub fn day_words(random: &mut Random, almanac: &Almanac, count: u32) -> Vec<Vec<u8>> {
    let mut inputs = Vec::new();
    for round in 0..count {
        let drawn = random.below(LAST_DAY + 1);
        let words = vec![day(random, almanac, drawn)];
        let mut input = written(random, &words);
        if round % 3 == 0 {
            spoil(random, &mut input);
        }
        inputs.push(input);
    }
    inputs
}

/// How a Saka date's values are written.
#[derive(Clone, Copy)]
pub enum Values {
    Names,
    Numbers,
    Either,
}

/// The words of a Saka date; a value that has no name is a number.
pub fn saka_words(random: &mut Random, names: &Names, values: Values, date: SakaDate) -> Line {
    let by_name = |random: &mut Random| match values {
        Values::Names => true,
        Values::Numbers => false,
        Values::Either => random.once_in(2),
    };
    let value = |random: &mut Random, list: &str, own: u32| {
        let known = names.list(list).iter().any(|name| name.number == own);
        match by_name(random) && known {
            true => spelled(random, name_of(names.list(list), own)),
            false => number(random, own),
        }
    };
    let mut words = vec![number(random, date.year)];
    words.push(value(random, "month", date.months));
    if date.tithis < 30 && by_name(random) && random.once_in(2) {
        let half = &names.halves[date.tithis as usize / 15];
        words.extend([spelled(random, half), number(random, date.tithis % 15 + 1)]);
    } else {
        words.push(value(random, "tithi", date.tithis));
    }
    words.push(value(random, "weekday", date.weekday));
    words
}
