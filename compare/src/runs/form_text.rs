//! Pages in P3's forms, each beside its plain form: the issue's own, each name by itself, and drawn queries
//! written in every mixture of forms; and lines that are refused.

use std::collections::BTreeMap;

use crate::checks::Checks;
use crate::random::Random;
use crate::reference::almanac::Almanac;
use crate::reference::days::LAST_DAY;
use crate::reference::edition::Edition;
use crate::reference::names::{without_marks, Name, Names, LISTS};
use crate::reference::page::{in_degrees, BODIES, SETS};
use crate::reference::search::{Arc, Arcs, Query, TITHI};

use super::page_text::{day, Line};
use super::queries::Kind;

const CIRCLE: u32 = 1_296_000;
const SIGN: u32 = 108_000;

/// A page in P3's forms, and the same page without them, line for line.
#[derive(Clone)]
pub struct Case {
    pub form: Vec<u8>,
    pub plain: Vec<u8>,
}

/// So that few days are looked at, and each name has some.
pub const SPAN: &str = "span 33000 33399";

/// How many pages are drawn of each kind of query.
const ROUNDS: u32 = 160;

/// Lines in the issue's forms, and what they are without them.
pub const WORKED: [(&str, &str); 81] = [
    ("weekday Monday", "weekday 0"),
    ("WEEKDAY SUNDAY", "weekday 6"),
    ("weekday mon", "weekday 0"),
    ("Weekday Wed, thu", "weekday 2 3"),
    ("weekday sun 0 TUESDAY", "weekday 6 0 1"),
    ("tithi purnima", "tithi 14"),
    ("tithi amavasya", "tithi 29"),
    ("tithi shukla-pratipada", "tithi 0"),
    ("tithi krishna-panchami", "tithi 19"),
    ("Tithi Kṛṣṇa-Pañcamī", "tithi 19"),
    ("tithi pūrṇimā, AMĀVĀSYĀ", "tithi 14 29"),
    ("tithi shukla 1", "tithi 0"),
    ("tithi shukla 5", "tithi 4"),
    ("tithi shukla 15", "tithi 14"),
    ("tithi krishna 8", "tithi 22"),
    ("tithi Kṛṣṇa 08", "tithi 22"),
    ("tithi krishna 1", "tithi 15"),
    ("tithi KRISHNA 15", "tithi 29"),
    ("tithi 5", "tithi 5"),
    ("nakshatra vishakha anuradha", "nakshatra 15 16"),
    ("nakshatra Viśākhā", "nakshatra 15"),
    ("NAKSHATRA ĀŚLEṢĀ", "nakshatra 8"),
    ("nakshatra ashvini revati", "nakshatra 0 26"),
    ("yoga shukla", "yoga 23"),
    ("yoga Śukla vaidhṛti", "yoga 23 26"),
    ("karana bava", "karana 1"),
    ("karana Kiṃstughna,NĀGA", "karana 11 10"),
    ("true_sun vrishabha", "true_sun 30:0:0 30:0:0"),
    ("True_Sun Vṛṣabha", "true_sun 30:0:0 30:0:0"),
    (
        "jupiter karka simha",
        "jupiter 90:0:0 30:0:0 120:0:0 30:0:0",
    ),
    ("MOON MĪNA mesha", "moon 330:0:0 30:0:0 0:0:0 30:0:0"),
    ("sun 34:0:0 to 35:0:0", "sun 34:0:0 1:0:0"),
    ("SUN 34:0:0 TO 35:0:0", "sun 34:0:0 1:0:0"),
    ("sun 34:0:0 to 34:0:1", "sun 34:0:0 0:0:1"),
    ("sun 34:0 to 35:0", "sun 34:0:0 1:0:0"),
    ("sun 122400 to 126000", "sun 122400 3600"),
    ("sun 34:0:0 to 126000", "sun 34:0:0 3600"),
    ("node 350:0:0 to 10:0:0", "node 350:0:0 20:0:0"),
    ("node 350:0:0 to 0:0", "node 350:0:0 10:0:0"),
    ("true_moon 200:30 to 200:29", "true_moon 200:30:0 359:59:0"),
    ("sun 34:13 0:1", "sun 34:13:0 0:1:0"),
    (
        "mars 299:55, 0:30  20:0:0, 3600",
        "mars 299:55:0 0:30:0 20:0:0 3600",
    ),
    (",tithi,13,,14,", "tithi 13 14"),
    ("eDITION, 2", "edition 2"),
    // Numbers beside names.
    ("tithi purnima 3", "tithi 14 3"),
    ("nakshatra 7 ashlesha", "nakshatra 7 8"),
    ("yoga priti 07", "yoga 1 07"),
    ("yoga shukla 5", "yoga 23 5"),
    ("karana 1 vishti", "karana 1 7"),
    // Halves of the month more than once, beside names and beside numbers.
    ("tithi shukla 5 krishna 8", "tithi 4 22"),
    ("tithi shukla 5 purnima", "tithi 4 14"),
    ("tithi 3 krishna 15", "tithi 3 29"),
    ("tithi shukla 5 6", "tithi 4 6"),
    // Numbers that a half hasn't are refused with 6.
    ("tithi shukla 0", "tithi 999"),
    ("tithi krishna 16", "tithi 999"),
    // Two arcs with ends, and arcs of two kinds.
    (
        "sun 34:0:0 to 35:0:0 64:0:0 to 65:0:0",
        "sun 34:0:0 1:0:0 64:0:0 1:0:0",
    ),
    (
        "sun 34:0:0 to 35:0:0 64:0:0 1:0:0",
        "sun 34:0:0 1:0:0 64:0:0 1:0:0",
    ),
    (
        "sun 34:0:0 1:0:0 64:0:0 to 65:0:0",
        "sun 34:0:0 1:0:0 64:0:0 1:0:0",
    ),
    ("sun mesha 64:0:0 1:0:0", "sun 0:0:0 30:0:0 64:0:0 1:0:0"),
    (
        "sun 64:0:0 to 65:0:0 mesha",
        "sun 64:0:0 1:0:0 0:0:0 30:0:0",
    ),
    // The same sign twice.
    ("sun mesha meṣa", "sun 0:0:0 30:0:0 0:0:0 30:0:0"),
    // An end that is the start is refused with 6.
    ("sun 34:0:0 to 34:0:0", "sun 34:0:0 0:0:0"),
    ("sun 0 to 0:0", "sun 0 0:0:0"),
    // The circle's end, and ends and starts from there on.
    ("sun 330:0:0 to 360:0:0", "sun 330:0:0 30:0:0"),
    ("sun 0 to 1296000", "sun 0 1296000"),
    ("sun 34:0:0 to 360:0:1", "sun 34:0:0 0:0:0"),
    ("sun 360:0:0 to 10:0:0", "sun 360:0:0 0:0:0"),
    ("sun 999:0:0 to 10:0:0", "sun 999:0:0 0:0:0"),
    ("sun 0:0 to 360:0", "sun 0 1296000"),
    ("sun 359:59:59 to 360:0", "sun 359:59:59 1"),
    ("sun 0 to 999999999", "sun 0 0:0:0"),
    // One that is refused beside one that isn't.
    ("sun mesha 34:0 to 34:0", "sun 0:0:0 30:0:0 34:0:0 0:0:0"),
    ("sun 34:0 to 34:0 mesha", "sun 34:0:0 0:0:0 0:0:0 30:0:0"),
    ("tithi shukla 16 purnima", "tithi 999 14"),
    ("tithi 30 shukla 5", "tithi 30 4"),
    ("karana bava 12", "karana 1 12"),
    ("weekday mon 7", "weekday 0 7"),
    // How the list is printed.
    ("print names", "print names"),
    ("Print Names", "print names"),
    ("PRINT, CSV", "print csv"),
    (" print\tcsv # numbers and names", "print csv"),
];

/// Lines that are refused with 3.
pub const REFUSED: [&str; 75] = [
    "weekday mo",
    "weekday mond",
    "weekday tues",
    "weekday thurs",
    "weekday monday mon",
    "weekday 0 Mon",
    "weekday mesha",
    "weekday soma",
    "weekday mon-tue",
    "tithi shukla",
    "tithi krishna",
    "tithi shukla krishna 5",
    "tithi shukla-5",
    "tithi shukla5",
    "tithi 5 shukla",
    "tithi shukla purnima",
    "tithi shukla panchami",
    "tithi panchami",
    "tithi shukla-purnima",
    "tithi krishna-amavasya",
    "tithi shukla-pañcamī",
    "tithi purnima 14",
    "tithi purnima pūrṇimā",
    "tithi shukla 15 purnima",
    "tithi shukla -5",
    "tithi shukla 0000000005",
    "tithi shukla x",
    "tithi shukla-chaturthi-",
    "nakshatra 7 pushya",
    "nakshatra pushya PUṢYA",
    "nakshatra purva phalguni",
    "nakshatra purvaphalguni",
    "nakshatra purva_phalguni",
    "nakshatra viśakha",
    "nakshatra vishākhā",
    "nakshatra visakha",
    "nakshatra māgha",
    "nakshatra jyeṣṭha",
    "nakshatra śrāvaṇa",
    "nakshatra \u{212A}rittika",
    "nakshatra vi\u{17F}hakha",
    "nakshatra vis\u{301}a\u{304}kha\u{304}",
    "yoga krishna",
    "karana purnima",
    "karana kim-stughna",
    "sun to 35:0:0",
    "sun 34:0:0 to",
    "sun to",
    "sun 34:0:0 to to 35:0:0",
    "sun 34:0:0 35:0:0 to 36:0:0 37:0:0 38:0:0",
    "sun 34:0:0 until 35:0:0",
    "sun 34:0:0 - 35:0:0",
    "sun 34:60 1:0:0",
    "sun 1000:0 1:0:0",
    "sun 34: 1:0:0",
    "sun :13 1:0:0",
    "sun 34:0:0 to 35:60",
    "sun mesha karka simha",
    "sun mesha 1:0:0",
    "sun mesha to karka",
    "to 34:0:0 35:0:0",
    "sun mesha karka 1:0:0",
    "sun 34:0 to 35:0 36:0 to 37:0 38:0 to 39:0",
    "sun mesha 34:0 to 34:0 karka",
    "tithi shukla 16 14 14",
    "print",
    "print x",
    "print numbers",
    "print name",
    "print names csv",
    "print csv csv",
    "print csv names 3",
    "print 0",
    "prints names",
    "names",
];

/// How often each form was written.
type Used = BTreeMap<&'static str, u32>;

const BLANKS: [&str; 12] = [
    " ", " ", " ", "\t", "\r", "   ", ",", ", ", " ,", " , ", ",,", "\t,\r",
];

const INDENTS: [&str; 6] = ["", "", "", " ", "\t", ", "];

const TAILS: [&[u8]; 9] = [
    b"",
    b"",
    b"",
    b" ",
    b",",
    b" ,\r",
    b"# to, purnima",
    " # viśākhā".as_bytes(),
    b"\t#\0\xFF\xC3",
];

const SILENT: [&[u8]; 5] = [b"", b" ", b",", b"# tithi purnima", b"\t,\r# \xC4"];

fn capital(letter: char) -> char {
    let mut capitals = letter.to_uppercase();
    capitals
        .next()
        .filter(|_| capitals.len() == 0)
        .expect("one capital")
}

fn in_capitals(word: &str, is_capital: impl Fn(usize, Option<char>) -> bool) -> String {
    let mut before = None;
    let letters = word.chars().enumerate().map(|(at, letter)| {
        let cased = if is_capital(at, before) {
            capital(letter)
        } else {
            letter
        };
        before = Some(letter);
        cased
    });
    letters.collect()
}

/// Ways to write a word in letters of either case.
const CASES: [fn(&str) -> String; 5] = [
    |word| word.to_string(),
    |word| in_capitals(word, |_, _| true),
    |word| in_capitals(word, |at, _| at == 0),
    |word| in_capitals(word, |_, before| matches!(before, None | Some('-' | '_'))),
    |word| in_capitals(word, |at, _| at % 2 == 1),
];

/// A word in letters of either case.
fn cased(random: &mut Random, word: &str) -> String {
    if random.once_in(3) {
        let capitals = random.number();
        in_capitals(word, |at, _| capitals >> (at % 32) & 1 == 1)
    } else {
        random.one_of(&CASES)(word)
    }
}

/// A number, sometimes with zeros before it.
fn number(random: &mut Random, number: u32) -> String {
    let width = random.one_of(&[1, 1, 1, 2, 9]);
    format!("{number:0width$}")
}

pub fn name_of(names: &[Name], number: u32) -> &Name {
    let name = names.iter().find(|name| name.number == number);
    name.expect("each number has a name")
}

/// A name in either spelling and any letter case.
fn spelled(random: &mut Random, name: &Name) -> String {
    let spelling = random.below(2) as usize;
    cased(random, &name.spellings[spelling])
}

fn shuffled<T>(random: &mut Random, mut left: Vec<T>) -> Vec<T> {
    let mut shuffled = Vec::new();
    while !left.is_empty() {
        shuffled.push(left.swap_remove(random.below(left.len() as u32) as usize));
    }
    shuffled
}

/// Writes queries in forms, and counts them.
struct Writer<'a> {
    names: &'a Names,
    almanac: &'a Almanac,
    used: Used,
}

impl Writer<'_> {
    fn use_form(&mut self, form: &'static str) {
        *self.used.entry(form).or_default() += 1;
    }

    /// A number of a set in this way, where it has it: by its number, its name, or its half of the month.
    fn value(&mut self, random: &mut Random, at: usize, own: u32, way: u32) -> Line {
        if way == 0 {
            self.use_form("numbers");
            vec![number(random, own)]
        } else if way == 1 && at == TITHI {
            self.use_form("halves");
            let halves = self.names.halves.iter().rev();
            let half = halves.clone().find(|half| half.number <= own);
            let half = half.expect("the bright half begins at 0");
            let which = number(random, own - half.number + 1);
            vec![spelled(random, half), which]
        } else {
            self.use_form(SETS[at]);
            vec![spelled(random, name_of(self.names.list(SETS[at]), own))]
        }
    }

    /// The numbers of a set in forms, and plain: all in one way, or each in its own.
    fn set(&mut self, random: &mut Random, at: usize, set: u32) -> (Line, Line) {
        let numbers = (0..31).filter(|number| set >> number & 1 == 1).collect();
        let numbers: Vec<u32> = shuffled(random, numbers);
        let plain = numbers.iter().map(u32::to_string).collect();
        let way = random.below(4);
        let mut form = Vec::new();
        for own in numbers {
            let way = if way == 3 { random.below(3) } else { way };
            form.extend(self.value(random, at, own, way));
        }
        (form, plain)
    }

    /// An angle in seconds, in two parts or in three.
    fn angle(&mut self, random: &mut Random, seconds: u32) -> String {
        let parts = [seconds / 3600, seconds / 60 % 60, seconds % 60];
        let [d, m, s] = parts.map(|part| number(random, part));
        match random.below(4) {
            0 => number(random, seconds),
            1 | 2 if seconds % 60 == 0 => {
                self.use_form("two parts");
                format!("{d}:{m}")
            }
            _ => format!("{d}:{m}:{s}"),
        }
    }

    /// An arc in a form that it has: by its sign, by its end, or by its width.
    fn arc(&mut self, random: &mut Random, arc: Arc) -> Line {
        let Arc { start, width } = arc;
        if start % SIGN == 0 && width == SIGN && !random.once_in(4) {
            self.use_form("a sign");
            let signs = self.names.list("sign");
            return vec![spelled(random, name_of(signs, start / SIGN))];
        }
        let [from, to] = [start, start + width];
        if (to < from + CIRCLE || from == 0) && random.once_in(2) {
            self.use_form("an end");
            let to = match to {
                CIRCLE if from == 0 || random.once_in(2) => CIRCLE,
                _ => to % CIRCLE,
            };
            let [from, to] = [from, to].map(|angle| self.angle(random, angle));
            vec![from, cased(random, "to"), to]
        } else {
            let values = [start, width].map(|value| self.angle(random, value));
            values.to_vec()
        }
    }

    /// Arcs in forms, and plain.
    fn arcs(&mut self, random: &mut Random, arcs: Arcs) -> (Line, Line) {
        let (mut form, mut plain) = (Vec::new(), Vec::new());
        for arc in arcs.given() {
            plain.extend([arc.start, arc.width].map(in_degrees));
            form.extend(self.arc(random, arc));
        }
        (form, plain)
    }

    /// The lines of a query in forms, and plain.
    fn lines(&mut self, random: &mut Random, query: &Query) -> Vec<(Line, Line)> {
        let ends = [query.first, query.last].map(|end| day(random, self.almanac, end));
        let mut lines = vec![("span", (ends.to_vec(), ends.to_vec()))];
        if query.edition != 1 || random.once_in(2) {
            let values = (
                vec![number(random, query.edition)],
                vec![query.edition.to_string()],
            );
            lines.push(("edition", values));
        }
        if let Some(listing) = random.one_of(&[None, Some("names"), Some("csv")]) {
            self.use_form(listing);
            let values = (vec![cased(random, listing)], vec![listing.to_string()]);
            lines.push(("print", values));
        }
        for (at, set) in query.sets.into_iter().enumerate() {
            if let Some(set) = set {
                lines.push((SETS[at], self.set(random, at, set)));
            }
        }
        for (body, arcs) in BODIES.into_iter().zip(query.arcs) {
            if arcs.given().count() > 0 {
                lines.push((body, self.arcs(random, arcs)));
            }
        }
        let with_word = |(word, (form, plain)): (&str, (Line, Line))| {
            let form = [vec![cased(random, word)], form].concat();
            (form, [vec![word.to_string()], plain].concat())
        };
        lines.into_iter().map(with_word).collect()
    }

    /// The lines in any order; in forms with commas and other blanks, comments, lines that say nothing, and
    /// sometimes a byte order mark in front.
    fn case(&mut self, random: &mut Random, lines: Vec<(Line, Line)>) -> Case {
        let mut case = Case {
            form: Vec::new(),
            plain: Vec::new(),
        };
        if random.once_in(4) {
            self.use_form("a byte order mark");
            case.form.extend("\u{feff}".bytes());
        }
        for (form, plain) in shuffled(random, lines) {
            while random.once_in(4) {
                case.form.extend(random.one_of(&SILENT));
                case.form.push(b'\n');
                case.plain.push(b'\n');
            }
            put_line(random, &mut case.form, &form);
            case.plain.extend(format!("{}\n", plain.join(" ")).bytes());
        }
        case
    }

    /// A drawn query, in a page; any conditions, or one or two over a longer span.
    fn draw(&mut self, random: &mut Random, kind: Kind) -> (Query, Case) {
        let (given, most) = match random.below(2) {
            0 => (kind.any(random), 400),
            _ => (kind.few(random), 3000),
        };
        let mut query = kind.draw(random, self.almanac, given, most);
        self.round(random, &mut query);
        let lines = self.lines(random, &query);
        let case = self.case(random, lines);
        (query, case)
    }

    /// Makes whole signs, or whole minutes, of some of a query's arcs; mostly such that hold the body on a day of
    /// the span.
    fn round(&self, random: &mut Random, query: &mut Query) {
        let day = &self.almanac.days()[random.between(query.first, query.last) as usize];
        let edition = Edition::numbered(query.edition).expect("an edition");
        for (body, arcs) in query.arcs.iter_mut().enumerate() {
            let given = arcs.given().count();
            let own = day.place(body, edition) / SIGN;
            let sign = |sign: u32| Arc::new(sign * SIGN, SIGN);
            let in_minutes = |arc: Arc| {
                let [start, width] = [arc.start, arc.width].map(|value| value - value % 60);
                Arc::new(start, width.max(60))
            };
            match (given, random.below(3)) {
                (0, _) | (_, 0) => {}
                (1, 1) => *arcs = Arcs::one(sign(own)),
                (_, 1) => {
                    let signs = [own, random.below(12)];
                    let first = random.below(2) as usize;
                    *arcs = Arcs::two(sign(signs[first]), sign(signs[1 - first]));
                }
                _ => {
                    let [first, second] = [arcs.first, arcs.second].map(|arc| arc.map(in_minutes));
                    *arcs = Arcs { first, second };
                }
            }
        }
    }
}

/// Adds a line, with commas and other blanks about its words, and sometimes a comment.
pub fn put_line(random: &mut Random, page: &mut Vec<u8>, line: &Line) {
    page.extend(random.one_of(&INDENTS).bytes());
    for (at, word) in line.iter().enumerate() {
        if at > 0 {
            page.extend(random.one_of(&BLANKS).bytes());
        }
        page.extend(word.bytes());
    }
    page.extend(random.one_of(&TAILS));
    page.push(b'\n');
}

/// A page of one line in a form, and of the same plain.
pub fn one_line(span: &str, form: &str, plain: &str) -> Case {
    let [form, plain] = [form, plain].map(|line| format!("{span}\n{line}\n").into_bytes());
    Case { form, plain }
}

/// The tithis by their halves of the month, and each name of each list that a page has, in both spellings
/// and in letters of either case; and each body in each sign.
pub fn every_name(names: &Names) -> Vec<Case> {
    let mut cases = Vec::new();
    let long = "span 33000 43999";
    let in_all_letters = |name: &Name| {
        let spellings = name.spellings.clone();
        spellings
            .map(|spelling| CASES.map(|cased| cased(&spelling)))
            .concat()
    };
    for set in SETS {
        for name in names.list(set) {
            for spelled in in_all_letters(name) {
                let [form, plain] = [spelled, name.number.to_string()];
                let [form, plain] = [form, plain].map(|value| format!("{set} {value}"));
                cases.push(one_line(SPAN, &form, &plain));
            }
        }
    }
    for half in &names.halves {
        for which in 1..=15 {
            let plain = format!("tithi {}", half.number + which - 1);
            for spelled in in_all_letters(half) {
                cases.push(one_line(SPAN, &format!("tithi {spelled} {which}"), &plain));
            }
        }
    }
    for sign in names.list("sign") {
        let arc = format!("{}:0:0 30:0:0", 30 * sign.number);
        for spelled in in_all_letters(sign) {
            let [form, plain] = [&spelled, &arc].map(|value| format!("true_sun {value}"));
            cases.push(one_line(SPAN, &form, &plain));
        }
        for body in BODIES {
            let [form, plain] = [&sign.spellings[1], &arc].map(|value| format!("{body} {value}"));
            cases.push(one_line(long, &form, &plain));
        }
    }
    cases
}

pub fn worked() -> Vec<Case> {
    let cases = WORKED
        .iter()
        .map(|(form, plain)| one_line(SPAN, form, plain));
    let mut cases: Vec<Case> = cases.collect();
    let mut marked = one_line(SPAN, "tithi purnima", "tithi 14");
    marked.form.splice(0..0, "\u{feff}".bytes());
    cases.push(marked);
    cases
}

/// Lines with words that are all but names: of other lists, and misspelled. Some are names all the same.
pub fn all_but_names(random: &mut Random, names: &Names) -> Vec<Vec<u8>> {
    let mut lines: Vec<Vec<u8>> = REFUSED
        .iter()
        .map(|line| line.as_bytes().to_vec())
        .collect();
    let words = || SETS.into_iter().chain(["true_sun"]);
    let of_word = |word: &str| if word == "true_sun" { "sign" } else { word }.to_string();
    let mut add = |word: &str, value: &[u8]| lines.push([word.as_bytes(), b" ", value].concat());
    for word in words() {
        for (list, _, _) in LISTS
            .into_iter()
            .filter(|(list, _, _)| *list != of_word(word))
        {
            for name in names.list(list) {
                let spelling = random.below(2) as usize;
                add(word, name.spellings[spelling].as_bytes());
            }
        }
        for name in names.list(&of_word(word)) {
            for spelling in &name.spellings {
                for damaged in misspelled(random, spelling) {
                    add(word, &damaged);
                }
            }
        }
    }
    for half in names.halves.iter().flat_map(|half| &half.spellings) {
        for damaged in misspelled(random, half) {
            add("tithi", &[&damaged, &b" 5"[..]].concat());
        }
    }
    lines
}

/// The marked letters, each as its plain letter and the mark behind it, and with another mark.
const MARKED: [(char, &str, char); 11] = [
    ('ā', "a\u{304}", 'ă'),
    ('ī', "i\u{304}", 'ĭ'),
    ('ū', "u\u{304}", 'ŭ'),
    ('ṛ', "r\u{323}", 'ṝ'),
    ('ṭ', "t\u{323}", 'ț'),
    ('ḍ', "d\u{323}", 'ḏ'),
    ('ṇ', "n\u{323}", 'ṅ'),
    ('ñ', "n\u{303}", 'ń'),
    ('ṃ', "m\u{323}", 'ṁ'),
    ('ś', "s\u{301}", 'ŝ'),
    ('ṣ', "s\u{323}", 'ṡ'),
];

/// Of a marked letter: its plain letter, the mark behind that, another mark, its last byte left out, and others
/// in its place; and of any letter: left out, doubled, and all from it on left out; or one put behind.
fn misspelled(random: &mut Random, name: &str) -> Vec<Vec<u8>> {
    let mut words: Vec<Vec<u8>> = Vec::new();
    let mut letters: Vec<char> = name.chars().collect();
    let places = 0..letters.len();
    let marked: Vec<usize> = places.filter(|at| !letters[*at].is_ascii()).collect();
    if !marked.is_empty() {
        let at = random.one_of(&marked);
        let [before, behind] = [&letters[..at], &letters[at + 1..]].map(String::from_iter);
        let letter = MARKED.iter().find(|(letter, _, _)| *letter == letters[at]);
        let (letter, apart, other) = letter.expect("a marked letter");
        let (letter, other) = (letter.to_string(), other.to_string());
        let first = &letter.as_bytes()[..letter.len() - 1];
        let last = random.between(0x80, 0xBF) as u8;
        for instead in [
            without_marks(&letter).as_bytes(),
            apart.as_bytes(),
            other.as_bytes(),
            first,
            &[first, &[last]].concat(),
            &[first, b"A"].concat(),
        ] {
            words.push([before.as_bytes(), instead, behind.as_bytes()].concat());
        }
    }
    let at = random.below(letters.len() as u32) as usize;
    match random.below(4) {
        0 => drop(letters.remove(at)),
        1 => letters.insert(at, letters[at]),
        2 => letters.push(random.one_of(&['a', 's', '-', '1', '\u{301}'])),
        _ => letters.truncate(at),
    }
    if !letters.is_empty() {
        words.push(String::from_iter(letters).into_bytes());
    }
    words
}

pub fn with_span(line: &[u8]) -> Vec<u8> {
    [SPAN.as_bytes(), b"\n", line, b"\n"].concat()
}

/// Drawn pages in forms. Each form has to have been written often enough to tell.
pub fn drawn(checks: &mut Checks, almanac: &Almanac, names: &Names) -> Vec<(String, Case)> {
    let mut random = Random::from_seed();
    let mut writer = Writer {
        names,
        almanac,
        used: Used::new(),
    };
    let mut cases = Vec::new();
    for kind in Kind::all().into_iter().chain(Kind::half_read()) {
        for _ in 0..ROUNDS {
            let (query, case) = writer.draw(&mut random, kind);
            let asked = random.between(query.first, query.last);
            cases.push((day(&mut random, almanac, asked), case));
        }
    }
    for (form, times) in writer.used {
        checks.same(
            "a form that is written often",
            || form.to_string(),
            true,
            times >= ROUNDS / 4,
        );
    }
    cases
}

/// Arcs by their ends, with a day: each body's place on it is the arc's end, the second before that, or the
/// start; and arcs that end or start at 0, where the place is beside it.
pub fn ends(almanac: &Almanac) -> Vec<(String, Case)> {
    let mut random = Random::from_seed();
    let mut cases = Vec::new();
    for (body, word) in BODIES.iter().enumerate() {
        let days = [(); 3].map(|()| random.below(LAST_DAY + 1));
        let near_zero = (0..=LAST_DAY).min_by_key(|day| {
            let place = almanac.days()[*day as usize].place(body, Edition::First);
            place.min(CIRCLE - place)
        });
        for day in days.into_iter().chain(near_zero) {
            let place = almanac.days()[day as usize].place(body, Edition::First);
            let width = random.between(1, 40_000);
            let behind = |seconds: u32| (place + seconds) % CIRCLE;
            let starts = [behind(CIRCLE - width), behind(CIRCLE + 1 - width), place, 0];
            let widths = [width, width, width, place.max(1)];
            let (first, last) = (day.saturating_sub(30), LAST_DAY.min(day + 30));
            for (start, width) in starts.into_iter().zip(widths) {
                let end = (start + width) % CIRCLE;
                let [start, end, width] = [start, end, width].map(in_degrees);
                let span = format!("span {first} {last}");
                let [form, plain] = [format!("{start} to {end}"), format!("{start} {width}")];
                let [form, plain] = [form, plain].map(|values| format!("{word} {values}"));
                cases.push((day.to_string(), one_line(&span, &form, &plain)));
            }
        }
    }
    cases
}

/// All names of each list on one line, in either spelling; and with one of them once more, which is refused in
/// both forms.
pub fn whole_lists(names: &Names) -> Vec<Case> {
    let mut cases = Vec::new();
    for set in SETS {
        let list = names.list(set);
        let numbers: Vec<String> = list.iter().map(|name| name.number.to_string()).collect();
        for at in 0..2 {
            let names: Vec<&str> = list.iter().map(|name| &name.spellings[at][..]).collect();
            let [form, plain] = [names.join(", "), numbers.join(" ")];
            let [form, plain] = [form, plain].map(|values| format!("{set} {values}"));
            cases.push(one_line(SPAN, &form, &plain));
            let again = |line: &str, value: &str| format!("{line} {value}");
            let [form, plain] = [again(&form, names[3]), again(&plain, &numbers[3])];
            cases.push(one_line(SPAN, &form, &plain));
        }
    }
    cases
}

/// Words that mean something in P3's forms, and some that are beside it.
const WORDS: [&str; 23] = [
    "to",
    "TO",
    "print",
    "names",
    "csv",
    "shukla",
    "krishna",
    "śukla",
    "Kṛṣṇa",
    "purnima",
    "mesha",
    "mīna",
    "vishakha",
    "bava",
    "mon",
    "0",
    "5",
    "15",
    "16",
    "34:13",
    "35:0:0",
    "360:0",
    "360:0:1",
];

/// Leaves out a word of a line, doubles it, puts another before it or in its place, or exchanges it with the next.
pub fn shake(random: &mut Random, page: &mut Vec<u8>) {
    let mut lines: Vec<Vec<u8>> = page.split(|byte| *byte == b'\n').map(Vec::from).collect();
    let at = random.below(lines.len() as u32) as usize;
    let words = lines[at].split(|byte| *byte == b' ');
    let mut words: Vec<Vec<u8>> = words.map(Vec::from).collect();
    let count = words.len();
    let place = random.below(count as u32) as usize;
    let other = random.one_of(&WORDS).as_bytes().to_vec();
    match random.below(5) {
        0 => drop(words.remove(place)),
        1 => words.insert(place, words[place].clone()),
        2 => words.insert(place, other),
        3 => words[place] = other,
        _ => words.swap(place, (place + 1) % count),
    }
    lines[at] = words.join(&b" "[..]);
    *page = lines.join(&b"\n"[..]);
}
