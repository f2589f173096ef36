//! P3: the programs `find` and `why`, on pages in every mixture of forms and on the same pages without them,
//! on each name, on words that are all but names, and on damaged pages.

use std::collections::HashMap;

use crate::checks::Checks;
use crate::random::Random;
use crate::reference::almanac::Almanac;
use crate::reference::forms::Forms;
use crate::reference::page::Printed;

use super::form_text::*;
use super::page_text::damage;
use super::programs::{self, shown};

/// A program, and what it has to write for a text.
#[derive(Clone, Copy)]
struct Program {
    path: &'static str,
    printed: fn(&Forms, &Almanac, &[u8]) -> Printed,
}

const FIND: Program = Program {
    path: "target/bin/find",
    printed: Forms::find,
};

const WHY: Program = Program {
    path: "target/bin/why",
    printed: Forms::why,
};

struct Programs<'a> {
    almanac: &'a Almanac,
    forms: &'a Forms,
    /// What came of plain pages.
    plain: HashMap<Vec<u8>, String>,
}

impl Programs<'_> {
    /// Runs a program on a text that comes in pieces, and gives back what it printed.
    fn hold_pieces(&self, checks: &mut Checks, program: Program, pieces: &[&[u8]]) -> String {
        let expected = (program.printed)(self.forms, self.almanac, &pieces.concat());
        programs::compare(checks, program.path, expected, pieces)
    }

    fn hold(&self, checks: &mut Checks, program: Program, text: &[u8]) -> String {
        self.hold_pieces(checks, program, &[text])
    }

    /// A text in forms and the same without them: the program prints the same.
    fn hold_both(&mut self, checks: &mut Checks, program: Program, form: &[u8], plain: Vec<u8>) {
        let by_form = self.hold(checks, program, form);
        let by_plain = self.plain.entry(plain).or_insert_with_key(|plain| {
            programs::run(checks, program.path, || shown(plain), &[plain]).output
        });
        checks.same_lines("its plain form", || shown(form), by_plain, &by_form);
    }

    fn find(&mut self, checks: &mut Checks, case: &Case) {
        self.hold_both(checks, FIND, &case.form, case.plain.clone());
    }

    /// With a day before the page.
    fn why(&mut self, checks: &mut Checks, day: &str, case: &Case) {
        let mark = "\u{feff}".as_bytes();
        let (in_front, page) = match case.form.strip_prefix(mark) {
            Some(page) => (mark, page),
            None => (&b""[..], &case.form[..]),
        };
        let form = [in_front, day.as_bytes(), b",\n", page].concat();
        let plain = [day.as_bytes(), b"\n", &case.plain].concat();
        self.hold_both(checks, WHY, &form, plain);
    }
}

/// The message that the issue has itself.
fn message(checks: &mut Checks) {
    let page = b"tithi 14\nweekday moonday\n";
    let written = programs::run(checks, FIND.path, || shown(page), &[page]);
    let due = "line 2: weekday takes one to seven of monday to sunday or 0 to 6\n";
    checks.same_lines("the issue's message", || shown(page), due, &written.error);
}

/// Marks in front, twice, cut and elsewhere; and letters and marks that come in pieces.
fn odd(checks: &mut Checks, programs: &Programs) {
    let pages: [&[u8]; 12] = [
        b"\xEF\xBB\xBF\nspan 5 99\n",
        b"\xEF\xBB\xBF# a page\nspan 5 99\ntithi 30\n",
        b"\xEF\xBB\xBF,span 5 99\n",
        b"\xEF\xBB\xBF\xEF\xBB\xBFspan 5 99\n",
        b"\xEF\xBB\xBFspan 5 99",
        b"\xEF\xBB\xBF\xEF",
        b" \xEF\xBB\xBFspan 5 99\n",
        b"\xEF\xBBspan 5 99\n",
        b"\xBFspan 5 99\n",
        b"\xFE\xFFspan 5 99\n",
        b"span 5 99\n\xEF\xBB\xBFtithi 3\n",
        b"span 5 99\ntithi 3 \xEF\xBB\xBF\n",
    ];
    for page in pages {
        programs.hold(checks, FIND, page);
        programs.hold(checks, WHY, page);
        let behind_day = [b"33649\n", page].concat();
        programs.hold(checks, WHY, &behind_day);
        if let Some(page) = page.strip_prefix(b"\xEF\xBB\xBF") {
            let day_first = [b"\xEF\xBB\xBF33649\n", page].concat();
            programs.hold(checks, WHY, &day_first);
        }
    }
    for pieces in [
        &[&b"\xEF\xBB"[..], b"\xBFspan 5 99\ntithi p", b"urnima\n"][..],
        &[b"span 5 99\nnakshatra vi\xC5", b"\x9B\xC4\x81kh\xC4\x81\n"],
        &[b"span 5 99\nsun 34:0:0 t", b"o 35:0:0\n"],
    ] {
        programs.hold_pieces(checks, FIND, pieces);
    }
}

pub fn run(checks: &mut Checks, almanac: &Almanac) {
    let forms = Forms::of_document();
    let mut programs = Programs {
        almanac,
        forms,
        plain: HashMap::new(),
    };
    let names = &forms.names;
    let mut random = Random::from_seed();
    for case in [worked(), every_name(names), whole_lists(names)].concat() {
        programs.find(checks, &case);
    }
    for line in all_but_names(&mut random, names) {
        programs.hold(checks, FIND, &with_span(&line));
    }
    odd(checks, &programs);
    message(checks);
    for (day, case) in ends(almanac) {
        programs.find(checks, &case);
        programs.why(checks, &day, &case);
    }
    for (day, case) in drawn(checks, almanac, names) {
        programs.find(checks, &case);
        programs.why(checks, &day, &case);
        let mut damaged = case.form;
        for _ in 0..random.between(1, 3) {
            random.one_of(&[damage, shake])(&mut random, &mut damaged);
        }
        programs.hold(checks, FIND, &damaged);
        if random.once_in(3) {
            let mut text = Vec::new();
            put_line(&mut random, &mut text, &vec![day]);
            text.extend(damaged);
            programs.hold(checks, WHY, &text);
        }
    }
}
