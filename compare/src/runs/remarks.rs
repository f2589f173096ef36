//! P1, "Errors that pass today": what `find` and `why` say on standard error of pages that they accept, on
//! pages at every edge of it and on drawn ones, alone, together and beside refused lines. The examples of
//! the request are held against the reference by itself.

use crate::checks::Checks;
use crate::random::Random;
use crate::reference::almanac::Almanac;
use crate::reference::page::{in_degrees, Complaint, Printed, BODIES};
use crate::reference::{page, why};

use super::page_text::{page_of, words, Line};
use super::programs;

/// A program, and all that it writes for an input.
type Program = (&'static str, fn(&Almanac, &[u8]) -> Printed);

const FIND: Program = ("target/bin/find", page::printed);
const WHY: Program = ("target/bin/why", why::printed);

/// Behind an arc's line, so that few days are looked at and nothing is said of the span.
const SHORT_SPAN: &str = "span 300000 300003";

fn compare(checks: &mut Checks, almanac: &Almanac, (program, printed): Program, input: &[u8]) {
    programs::compare(checks, program, printed(almanac, input), &[input]);
}

/// A page for `find`, and behind a day for `why`.
fn compare_page(checks: &mut Checks, almanac: &Almanac, page: &[u8]) {
    compare(checks, almanac, FIND, page);
    compare(checks, almanac, WHY, &[b"33649\n", page].concat());
}

/// The request's own examples, and what it says of each.
const EXAMPLES: [(&str, &str); 4] = [
    (
        "span 300000 300003\nsun 34 1\n",
        "line 2: sun from 0:0:34, 0:0:1 wide; degrees are written 34:0:0\n",
    ),
    (
        "span 1607 1612\nweekday monday\n",
        "line 1: days 1607 to 1612, 1524-8-12 to 1524-8-17; years are written 1607-1-1\n",
    ),
    (
        "span 300000 300003\nsun 34:0:0 35:0:0\n",
        "line 2: sun from 34:0:0, 35:0:0 wide, up to 69:0:0; the second value is the width\n",
    ),
    (
        "span 300000 300003\n",
        "nothing is asked: every day of the span is listed\n",
    ),
];

fn examples(checks: &mut Checks, almanac: &Almanac) {
    for (page, said) in EXAMPLES {
        let input = || page.escape_debug().to_string();
        let Complaint::Remarks(own) = page::printed(almanac, page.as_bytes()).complaint else {
            return checks.same("the page is accepted", input, true, false);
        };
        checks.same_lines("the request's example", input, said, &own);
        compare_page(checks, almanac, page.as_bytes());
    }
}

/// Numbers of an arc about 59 seconds, 360, and 10° and a few others; and where both together come to
/// a circle.
const STARTS: [u32; 9] = [0, 34, 359, 360, 35_999, 36_000, 122_400, 648_000, 1_295_999];

/// Widths about the edges for a start.
fn widths(start: u32) -> Vec<u32> {
    let about = [0, 1, 2, 36_000, 36_001].map(|more| start + more);
    let widths = [1, 59, 60, 359, 360, 1_296_000].into_iter();
    let widths = widths.chain(about).chain([start.saturating_sub(1)]);
    widths
        .filter(|width| (1..=1_296_000).contains(width))
        .collect()
}

/// An arc's two values in each form: both bare, both in degrees, and one of each; and with zeros before
/// them.
fn forms(start: u32, width: u32) -> [String; 5] {
    [
        format!("{start} {width}"),
        format!("{} {}", in_degrees(start), in_degrees(width)),
        format!("{start} {}", in_degrees(width)),
        format!("{} {width}", in_degrees(start)),
        format!("{start:09} {width:08}"),
    ]
}

/// Each start with each width; in each form where both are small, else in one.
fn arcs(checks: &mut Checks, almanac: &Almanac) {
    let mut bodies = BODIES.into_iter().cycle();
    for start in STARTS {
        for (width, at) in widths(start).into_iter().zip(0..) {
            let forms = forms(start, width);
            let few = [forms[at % 4].clone()];
            let forms = if start <= 360 && width <= 360 {
                &forms[..]
            } else {
                &few
            };
            for form in forms {
                let body = bodies.next().expect("they go round");
                let page = format!("{body} {form}\n{SHORT_SPAN}\n");
                compare(checks, almanac, FIND, page.as_bytes());
            }
        }
    }
    for body in BODIES {
        for arcs in ["34 1", "34:0:0 35:0:0", "34 1 100:0:0 101:0:0", "5 5 6 6"] {
            let page = format!("{SHORT_SPAN}\n{body} {arcs}\n");
            compare_page(checks, almanac, page.as_bytes());
        }
    }
}

/// Two arcs: of either, of both and of none something is said.
fn two_arcs(checks: &mut Checks, almanac: &Almanac) {
    let arcs = [
        "34 1",
        "34 60",
        "0:0:34 1",
        "34:0:0 35:0:0",
        "34:0:0 44:0:1",
        "350:0:0 360:0:0",
    ];
    for (one, two) in arcs.into_iter().flat_map(|one| arcs.map(|two| (one, two))) {
        let page = format!("true_sun {one} {two}\n{SHORT_SPAN}\n");
        compare(checks, almanac, FIND, page.as_bytes());
    }
}

/// Spans about 1000 and 2619, by numbers and dates.
fn spans(checks: &mut Checks, almanac: &Almanac) {
    let ends = [999, 1000, 1001, 1607, 2618, 2619, 2620];
    for (first, last) in ends
        .into_iter()
        .flat_map(|first| ends.map(|last| (first, last)))
    {
        let page = format!("span {first} {last}\nyoga 7\n");
        compare(checks, almanac, FIND, page.as_bytes());
    }
    for span in [
        "span 0001607 01612",
        "span 1607 1524-8-17",
        "span 1524-8-12 1612",
        "span 1524-8-12 1524-8-17",
        "span 1607-1-1 1607-1-3",
        "span\t1607\r1612 # years",
        "span 160 1612",
        "span 1607 16120",
    ] {
        compare_page(checks, almanac, format!("{span}\nyoga 7\n").as_bytes());
    }
}

/// Pages that ask for nothing and pages that do, several remarks on one page, and pages with refused
/// lines, of which none of this is said.
fn pages(checks: &mut Checks, almanac: &Almanac) {
    let pages: [&[u8]; 26] = [
        b"",
        b"span 5 9\n",
        b"# nothing\nspan 5 9\n\r\n \t\n",
        b"edition 1\nspan 5 9\n",
        b"edition 2\nspan 5 9\n",
        b"span 5 9\n#tithi 3\n",
        b"span 1607 1612\nedition 2\n",
        b"edition 2\n\nspan 1607 1612\n",
        b"span 5 9\nweekday 0 1 2 3 4 5 6\n",
        b"span 5 9\nkarana 1 2 3 4 5 6 7 8 9 10 11\n",
        b"span 5 9\nsun 0 1296000\n",
        b"span 5 9\ntrue_saturn 0 1296000\n",
        b"# a page\n\nsun 34 1 35 2\r\n \t\r\n#\nspan 1607 1612\ntrue_moon 20:0:0 25:0:0 12 12\n",
        b"true_venus 34 1\nspan 1607 1612\nmoon 34 1\nedition 2\nnode 36000 36001\n",
        b"\tsun\t34\r1# 2 3 4\nspan 5 9\n",
        b"sun 34 1\nspan 1607 1612\ntithi 30\n",
        b"tithi 30\nsun 34 1\nspan 1607 1612\n",
        b"sun 34 1\nspan 1612 1607\n",
        b"sun 34 1\nspan 1607 1612",
        b"sun 34 1\nspan 1607 1612\nedition 3\n",
        b"sun 34 0\nspan 5 9\n",
        b"sun 34 1\nsun 34 1\nspan 5 9\n",
        b"span 5 9\nx\n",
        b"span 5 9",
        b"edition 3\n",
        b" ",
    ];
    for page in pages {
        compare_page(checks, almanac, page);
    }
    for day in [
        "1607",
        "34",
        "1524-8-12",
        " 33649 # sun 34 1",
        "401600",
        "x",
        "",
    ] {
        for page in [
            "",
            "span 1607 1612\n",
            "\nsun 34 1\n",
            "sun 34 1\ntithi 30\n",
        ] {
            compare(checks, almanac, WHY, format!("{day}\n{page}").as_bytes());
        }
    }
}

/// A number about one of the edges.
fn near(random: &mut Random, edges: &[u32]) -> u32 {
    (random.one_of(edges) + random.below(3)).saturating_sub(1)
}

fn random_angle(random: &mut Random, seconds: u32) -> String {
    if random.once_in(3) {
        in_degrees(seconds)
    } else {
        seconds.to_string()
    }
}

/// A line of a word and one or two arcs, whose widths are often about the edges.
fn random_arcs(random: &mut Random, body: &str) -> Line {
    let mut line = words(body);
    for _ in 0..random.between(1, 2) {
        let start = near(
            random,
            &[1, 34, 359, 36_000, 300_000, 630_000, 648_000, 1_295_998],
        );
        let more = near(random, &[1, 18_000, 36_000]);
        let narrow = near(random, &[2, 30, 59, 359, 3600]);
        let width = random
            .one_of(&[narrow, narrow, start + more])
            .min(1_296_000);
        line.extend([start, width].map(|value| random_angle(random, value)));
    }
    line
}

/// A few bodies, a span and other lines, in any order and with comments between; some are refused.
fn drawn(checks: &mut Checks, almanac: &Almanac) {
    let mut random = Random::from_seed();
    for round in 0..240 {
        let mut bodies = BODIES.to_vec();
        let mut lines = Vec::new();
        for _ in 0..random.below(5) {
            let at = random.below(bodies.len() as u32) as usize;
            let body = bodies.swap_remove(at);
            lines.push(random_arcs(&mut random, body));
        }
        let first = near(&mut random, &[1000, 1607, 2000, 2619]);
        let last = first + random.below(20);
        let span = match random.below(4) {
            0 => SHORT_SPAN.to_string(),
            _ => format!("span {first} {last}"),
        };
        lines.push(words(&span));
        let others = [
            "edition 2",
            "tithi 3 4",
            "karana 2 3 4",
            "weekday 1 2",
            "tithi 31",
        ];
        if random.once_in(2) {
            lines.push(words(random.one_of(&others)));
        }
        let page = page_of(&mut random, lines);
        match round % 2 {
            0 => compare(checks, almanac, FIND, &page),
            _ => compare(checks, almanac, WHY, &[b"1612-5-14\n", &page[..]].concat()),
        }
    }
}

pub fn run(checks: &mut Checks, almanac: &Almanac) {
    examples(checks, almanac);
    arcs(checks, almanac);
    two_arcs(checks, almanac);
    spans(checks, almanac);
    pages(checks, almanac);
    drawn(checks, almanac);
}
