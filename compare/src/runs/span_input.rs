//! The programs that read a line with two days, run on lines good and bad; what they print is compared
//! byte for byte.

use crate::checks::Checks;
use crate::random::Random;
use crate::reference::almanac::Almanac;
use crate::reference::page::TOO_LONG;

use super::find::many;
use super::page_text::{
    damage, day, put_line, DAYS_OUTSIDE, NO_DATES, OTHER_FORMS, REVERSED, SPANS,
};
use super::programs::{self, shown};
use super::queries::{random_span, Span};

/// A program, and what it has to print for an input.
pub struct Program<'a> {
    pub path: &'static str,
    pub printed: &'a dyn Fn(&[u8]) -> Vec<u8>,
}

/// Lines without their newline that are accepted: blanks and a comment may stand about the two days.
const ACCEPTED: [&str; 13] = [
    "0 401599",
    "1520-3-19 2619-10-13",
    "0 729",
    "4010 4020",
    "1582-9-1 1582-11-30",
    " 5 50",
    "5   50   ",
    "5,50",
    "\t\r 5\t\r50 \t\r",
    "5 50#",
    "5 50 # two days",
    "5 50 ## 60 70",
    "1607-4-15 1612-12-31\r",
];

/// Lines that are refused with 3; a few would be sound with a word more or less.
const REFUSED: [&str; 25] = [
    "",
    " ",
    "\r",
    "#",
    "# 5 50",
    "5 # 50",
    "5#50",
    "5 5#0",
    "5",
    "1520-3-19",
    "5 50 60",
    "5 50 x",
    "x 5 50",
    "5 50 60 70 80 90",
    "401600",
    "401600 401600 401600",
    "9 5 0",
    "span 5 50",
    "span 5",
    "span",
    "monday sunday",
    "5-50",
    "5 .. 50",
    "5\u{b}50",
    "5\u{a0}50",
];

/// Lines with P2's word, behind the two days and elsewhere: `signs` takes it there, other programs nowhere.
const WITH_TRUE: [&str; 30] = [
    "5 50 true",
    " 5\t50\r true \r",
    "5 50 true#",
    "5 50 true # the true Sun",
    "5 50 # true",
    "5 50#true",
    "1520-3-19 50 true",
    "0 401599 true",
    "true",
    "true true",
    "true true true",
    "5 true",
    "true 5",
    "true 5 50",
    "5 true 50",
    "5 50 true true",
    "5 50 true 60",
    "5 50 60 true",
    "5 # 50 true",
    "5 50 True",
    "5 50 TRUE",
    "5 50 tru",
    "5 50 truee",
    "5 50 true5",
    "5 50true",
    "5 50 t rue",
    "5 50 mean",
    "5 50 1",
    "span 5 50 true",
    "5 50 \"true\"",
];

/// Inputs that are not one line with a newline at its end.
const NOT_A_LINE: [&[u8]; 21] = [
    b"",
    b"5 50",
    b"5 50 ",
    b"5 50\r",
    b"5 50#",
    b"x",
    b"401600 401600",
    b"9 5",
    b"5 50\n\n",
    b"5 50\n ",
    b"5 50\n#",
    b"5 50\n# two days\n",
    b"5 50\n5 50\n",
    b"5 50\nx",
    b"5 50\n\0",
    b"\n5 50\n",
    b"# two days\n5 50\n",
    b"5\n50\n",
    b"401600 5\n\n",
    b"9 5\n\n",
    b"1582-10-10 5\n5 50\n",
];

/// Days at the edges, by number and by date, good and bad.
const DAYS: [&str; 10] = [
    "0",
    "22844",
    "1582-10-15",
    "401599",
    "2619-10-13",
    "401600",
    "1520-3-18",
    "1582-10-14",
    "1700-2-29",
    "x",
];

/// Lines good and bad, those of a page's span without the word among them.
fn good_and_bad() -> Vec<&'static str> {
    let of_pages = [
        &SPANS[..],
        &OTHER_FORMS,
        &NO_DATES,
        &DAYS_OUTSIDE,
        &REVERSED,
    ]
    .concat();
    let spans = of_pages
        .iter()
        .filter_map(|line| line.strip_prefix("span "));
    spans.chain(ACCEPTED).chain(REFUSED).collect()
}

impl Program<'_> {
    /// On acceptance nothing may stand on standard error.
    fn compare_pieces(&self, checks: &mut Checks, pieces: &[&[u8]]) {
        let input = pieces.concat();
        let expected = (self.printed)(&input);
        let input = || format!("{}, in {} pieces", shown(&input), pieces.len());
        let written = programs::run(checks, self.path, input, pieces);
        match std::str::from_utf8(&expected) {
            Ok(lines) => checks.same_lines(self.path, input, lines, &written.output),
            Err(_) => checks.same_bytes(self.path, input, &expected, &written.bytes),
        }
        if !expected.starts_with(b"refused ") {
            checks.same("its standard error", input, String::new(), written.error);
        }
    }

    fn compare(&self, checks: &mut Checks, input: &[u8]) {
        self.compare_pieces(checks, &[input]);
    }

    /// Lines good and bad, and inputs that are no line.
    fn lines(&self, checks: &mut Checks) {
        for line in good_and_bad().into_iter().chain(WITH_TRUE) {
            self.compare(checks, format!("{line}\n").as_bytes());
        }
        for input in NOT_A_LINE {
            self.compare(checks, input);
        }
    }

    /// Every byte between two texts.
    fn every_byte(&self, checks: &mut Checks, before: &str, after: &str) {
        for byte in 0..=255 {
            let input = [before.as_bytes(), &[byte], after.as_bytes()].concat();
            self.compare(checks, &input);
        }
    }

    /// Every byte before a day, between the two, in one of them, and behind the newline.
    fn bytes(&self, checks: &mut Checks) {
        for (before, after) in [("", "5 50\n"), ("5", "50\n"), ("5 5", "\n"), ("5 50\n", "")] {
            self.every_byte(checks, before, after);
        }
    }

    /// Each two of the days at the edges, and what is behind them.
    fn pairs(&self, checks: &mut Checks, behind: &str) {
        for first in DAYS {
            for last in DAYS {
                self.compare(checks, format!("{first} {last}{behind}\n").as_bytes());
            }
        }
    }

    /// Random spans in every form that a day has, with these words behind them, a third of them with one
    /// word or both of a refused line, and a third with damaged bytes.
    fn random_lines(&self, checks: &mut Checks, almanac: &Almanac, behind: &[&str]) {
        let mut random = Random::from_seed();
        let refused = [&NO_DATES[..], &DAYS_OUTSIDE, &REVERSED].concat();
        for round in 0..600 {
            let (first, last) = random_span(&mut random, 3000);
            let mut words = [first, last].map(|number| day(&mut random, almanac, number));
            if round % 3 == 1 {
                let line = random.one_of(&refused).split(' ').skip(1);
                let which = random.below(3);
                for (at, word) in (0..).zip(line).filter(|(at, _)| *at != which) {
                    words[at as usize] = word.to_string();
                }
            }
            let mut input = Vec::new();
            let behind = behind.iter().map(|word| word.to_string());
            let line = words.into_iter().chain(behind).collect();
            put_line(&mut random, &mut input, &line);
            if round % 3 == 2 {
                for _ in 0..random.between(1, 3) {
                    damage(&mut random, &mut input);
                }
            }
            self.compare(checks, &input);
        }
    }

    /// Long inputs, whose first bytes may be a good line, and such as come in pieces.
    fn long(&self, checks: &mut Checks) {
        let inputs: [&[&[u8]]; 8] = [
            &[b"5 50 #", &many(b"x "), b"\n"],
            &[&many(b" \t\r"), b"5 50\n"],
            &[b"5", &many(b" "), b"50\n"],
            &[b"5 50", &many(b"\r"), b"\n"],
            &[&many(b"0"), b"5 50\n"],
            &[&many(b"5 "), b"\n"],
            &[&many(b"5 50\n")],
            &[b"5 50\n", &many(b"\0")],
        ];
        for pieces in inputs {
            self.compare(checks, &pieces.concat());
        }
        for length in [TOO_LONG - 1, TOO_LONG, TOO_LONG + 1, 8 * TOO_LONG] {
            for first in ["5 50 ", "9 5 #", "x", "5 50\n"] {
                let mut input = first.as_bytes().to_vec();
                input.resize(length - 1, b' ');
                input.push(b'\n');
                self.compare(checks, &input);
            }
        }
        let in_pieces: [&[&[u8]]; 6] = [
            &[b"5 5", b"0\n"],
            &[b"5", b" ", b"50", b"\n"],
            &[b"5 50", b"\n"],
            &[b"5 50\n", b"\n"],
            &[b"5 50\n", b"x"],
            &[b"1582-10-", b"10 5\n"],
        ];
        for pieces in in_pieces {
            self.compare_pieces(checks, pieces);
        }
    }

    /// All these, and the spans of a program's own.
    pub fn compare_inputs(&self, checks: &mut Checks, almanac: &Almanac, spans: &[Span]) {
        self.lines(checks);
        self.bytes(checks);
        self.pairs(checks, "");
        self.random_lines(checks, almanac, &[]);
        self.long(checks);
        for (first, last) in spans {
            self.compare(checks, format!("{first} {last}\n").as_bytes());
        }
    }

    /// The word behind lines good and bad, before a comment and in it, and in inputs that are no line.
    fn lines_with(&self, checks: &mut Checks, word: &str) {
        for line in good_and_bad() {
            self.compare(checks, format!("{line} {word}\n").as_bytes());
            if let Some((days, comment)) = line.split_once('#') {
                let input = format!("{days} {word} #{comment}\n");
                self.compare(checks, input.as_bytes());
            }
        }
        for input in NOT_A_LINE {
            let end = input.iter().position(|byte| *byte == b'\n');
            let (days, rest) = input.split_at(end.unwrap_or(input.len()));
            self.compare(checks, &[days, b" ", word.as_bytes(), rest].concat());
        }
    }

    /// Every byte before the word, in place of each of its letters and between two, and behind it; the
    /// line cut at each place; and each letter in capitals, left out and doubled.
    fn letters_of(&self, checks: &mut Checks, word: &str) {
        for before in ["5 50", "5 50 ", "5 50#"] {
            self.every_byte(checks, before, &format!("{word}\n"));
        }
        self.every_byte(checks, &format!("5 50 {word}"), "\n");
        self.every_byte(checks, &format!("5 50 {word}\n"), "");
        let line = format!("5 50 {word}\n");
        for end in 0..line.len() {
            self.compare(checks, line[..end].as_bytes());
        }
        for at in 0..word.len() {
            let (front, back) = word.split_at(at);
            let (letter, rest) = back.split_at(1);
            self.every_byte(checks, &format!("5 50 {front}"), &format!("{rest}\n"));
            for other in [&letter.to_uppercase(), "", &letter.repeat(2)] {
                let input = format!("5 50 {front}{other}{rest}\n");
                self.compare(checks, input.as_bytes());
            }
        }
    }

    /// The word far behind the days, before many blanks, many times, and in pieces.
    fn long_with(&self, checks: &mut Checks, word: &str) {
        let (word, spaced) = (word.as_bytes(), format!("{word} "));
        let inputs: [&[&[u8]]; 6] = [
            &[b"5 50", &many(b" \t\r"), word, b"\n"],
            &[b"5 50 ", word, &many(b" "), b"\n"],
            &[b"5 50 ", word, b"#", &many(b"x "), b"\n"],
            &[b"5 50 ", &many(spaced.as_bytes()), b"\n"],
            &[b"5 50 ", &many(word), b"\n"],
            &[b"5 50 ", word, b"\n", &many(b"\0")],
        ];
        for pieces in inputs {
            self.compare(checks, &pieces.concat());
        }
        for length in [TOO_LONG - 1, TOO_LONG, TOO_LONG + 1] {
            let mut input = [b"5 50 ", word].concat();
            input.resize(length - 1, b' ');
            input.push(b'\n');
            self.compare(checks, &input);
        }
        let (front, back) = word.split_at(2);
        let in_pieces: [&[&[u8]]; 4] = [
            &[b"5 50 ", front, back, b"\n"],
            &[b"5 50", b" ", word, b"\n"],
            &[b"5 50 ", word, b"\n", b"\n"],
            &[b"5 50\n", word],
        ];
        for pieces in in_pieces {
            self.compare_pieces(checks, pieces);
        }
    }

    /// With a word that may stand behind the two days (P2).
    pub fn compare_word(&self, checks: &mut Checks, almanac: &Almanac, word: &str, spans: &[Span]) {
        self.lines_with(checks, word);
        self.letters_of(checks, word);
        self.pairs(checks, &format!(" {word}"));
        self.random_lines(checks, almanac, &[word]);
        self.long_with(checks, word);
        for (first, last) in spans {
            self.compare(checks, format!("{first} {last} {word}\n").as_bytes());
        }
    }
}
