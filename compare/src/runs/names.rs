//! P3's names: the tables of docs/find.md, and the reference's reading of them and of pages in forms, by
//! themselves. Wrong readings are put in its place, and each has to show in a page that the programs are held to.

use crate::checks::Checks;
use crate::random::Random;
use crate::reference::almanac::Almanac;
use crate::reference::forms::Forms;
use crate::reference::names::{without_marks, Half, Name, Names, LISTS};
use crate::reference::page::{letters, read};

use super::form_text::*;
use super::programs::shown;

/// The names that the issue has itself, with their numbers.
const NAMED: [(&str, u32, &str); 27] = [
    ("tithi", 0, "shukla-pratipada"),
    ("tithi", 13, "shukla-chaturdashi"),
    ("tithi", 14, "purnima"),
    ("tithi", 15, "krishna-pratipada"),
    ("tithi", 19, "krishna-panchami"),
    ("tithi", 29, "amavasya"),
    ("nakshatra", 0, "ashvini"),
    ("nakshatra", 15, "vishakha"),
    ("nakshatra", 15, "viśākhā"),
    ("nakshatra", 16, "anuradha"),
    ("nakshatra", 26, "revati"),
    ("yoga", 0, "vishkambha"),
    ("yoga", 26, "vaidhriti"),
    ("karana", 1, "bava"),
    ("karana", 7, "vishti"),
    ("karana", 8, "shakuni"),
    ("karana", 9, "chatushpada"),
    ("karana", 10, "naga"),
    ("karana", 11, "kimstughna"),
    ("sign", 0, "mesha"),
    ("sign", 1, "vrishabha"),
    ("sign", 3, "karka"),
    ("sign", 11, "mina"),
    ("month", 0, "chaitra"),
    ("month", 11, "phalguna"),
    ("weekday", 0, "monday"),
    ("weekday", 6, "sun"),
];

/// "Each with a number from its place"; "names differ from one another in their list"; and the rule that
/// docs/find.md has for their spellings.
fn lists(checks: &mut Checks, names: &Names) {
    for ((list, least, count), entries) in LISTS.into_iter().zip(&names.lists) {
        let mut numbers: Vec<u32> = entries.iter().map(|name| name.number).collect();
        numbers.sort();
        let due: Vec<u32> = (least..).take(count).collect();
        checks.same("each number once", || list.to_string(), due, numbers);
        for name in entries {
            let input = || format!("{list} {name:?}");
            let [plain, other] = &name.spellings;
            let is_plain = |letter: char| letter.is_ascii_lowercase() || letter == '-';
            checks.same("plain letters", input, true, plain.chars().all(is_plain));
            let due = match list {
                "weekday" => plain[..3] == *other,
                _ => without_marks(other) == *plain,
            };
            checks.same("the spellings' rule", input, true, due);
            let alike =
                |own: &&Name| own.spellings.contains(plain) || own.spellings.contains(other);
            let times = entries.iter().filter(alike).count();
            checks.same("no other is spelled so", input, 1, times);
        }
    }
    for (list, number, name) in NAMED {
        let spellings = &name_of(names.list(list), number).spellings;
        let so_named = spellings.iter().any(|spelling| spelling == name);
        let input = || format!("{list} {number} {name}");
        checks.same("the issue's names", input, true, so_named);
    }
}

/// "Signs, 30° each from 0° on"; and of the tithis, that the two halves of the month have the same names but for
/// the half's, and for the last one's.
fn signs_and_halves(checks: &mut Checks, names: &Names) {
    let due: Vec<u32> = (0..12).map(|sign| 30 * sign).collect();
    let input = || "the signs' table".to_string();
    checks.same("where signs begin", input, due, names.begins.clone());
    let input = || "the tithis' table".to_string();
    let halves = names.halves.iter();
    let halves: Vec<(u32, &str)> = halves
        .map(|half| (half.number, &half.spellings[0][..]))
        .collect();
    let due = vec![(0, "shukla"), (15, "krishna")];
    checks.same("the halves of a month", input, due, halves);
    let tithis = names.list("tithi");
    for (which, at) in (0..15).flat_map(|which| [(which, 0), (which, 1)]) {
        let in_half = |half: &Half| {
            let name = &name_of(tithis, half.number + which).spellings[at];
            name.strip_prefix(&format!("{}-", half.spellings[at]))
        };
        let [bright, dark] = [&names.halves[0], &names.halves[1]].map(in_half);
        checks.same("a tithi of each half", || which.to_string(), bright, dark);
        checks.same(
            "the last has its own",
            || which.to_string(),
            which == 14,
            bright.is_none(),
        );
    }
}

/// What a page asks for, or its refusal, as text.
fn query_of(almanac: &Almanac, page: &[u8]) -> String {
    let page = letters(page);
    match read(almanac, &page) {
        Ok(page) => format!("{page:?}"),
        Err((fault, line)) => format!("refused {}, line {line}", fault.refusal()),
    }
}

/// The reference by itself: a page in forms is the query that its plain form is.
fn same_query(checks: &mut Checks, almanac: &Almanac, forms: &Forms, case: &Case) {
    let [form, plain] = [&case.form, &case.plain].map(|page| forms.plain(page));
    checks.same(
        "the plain form is plain",
        || shown(&case.plain),
        case.plain.clone(),
        plain.clone(),
    );
    checks.same(
        "the same query",
        || shown(&case.form),
        query_of(almanac, &plain),
        query_of(almanac, &form),
    );
}

/// Wrong readings of letters: marked ones by their first byte, whatever comes behind it; without that which comes
/// behind it; each byte for a letter with a case of its own; and no capitals but plain ones.
const WRONG_LETTERS: [(&str, fn(&[u8], &str) -> bool); 4] = [
    ("a mark's first byte taken for the letter", |word, name| {
        let alike = |(own, names): (&u8, u8)| {
            own.eq_ignore_ascii_case(&names) || (0x80..0xC0).contains(&names)
        };
        word.len() == name.len() && word.iter().zip(name.bytes()).all(alike)
    }),
    ("a mark's bytes taken for one", |word, name| {
        let first = |byte: &u8| !(0x80..0xC0).contains(byte);
        let word: Vec<u8> = word.iter().copied().filter(first).collect();
        let name: Vec<u8> = name.bytes().filter(first).collect();
        word.eq_ignore_ascii_case(&name)
    }),
    ("each byte taken for a letter", |word, name| {
        let small = |bytes: &[u8]| letters(bytes).to_lowercase();
        small(word) == small(name.as_bytes())
    }),
    ("no capitals with marks", |word, name| {
        word.eq_ignore_ascii_case(name.as_bytes())
    }),
];

/// Readings that have one rule wrong.
fn wrong_readings(right: &Forms) -> Vec<(String, Forms)> {
    let mut wrong = Vec::new();
    let mut add = |what: &str, change: &dyn Fn(&mut Forms)| {
        let mut forms = right.clone();
        change(&mut forms);
        wrong.push((what.to_string(), forms));
    };
    for (list, (name, least, count)) in LISTS.into_iter().enumerate().take(6) {
        for (at, spelling) in (0..count).flat_map(|at| [(at, 0), (at, 1)]) {
            let next = (at + 1) % count;
            let spellings = |forms: &Forms| {
                let names = &forms.names.lists[list];
                [at, next].map(|at| names[at].spellings[spelling].clone())
            };
            add(&format!("{name} {at} one place off"), &|forms| {
                let [own, others] = spellings(forms);
                forms.names.lists[list][at].spellings[spelling] = others;
                forms.names.lists[list][next].spellings[spelling] = own;
            });
            add(&format!("{name} {at} and the next alike"), &|forms| {
                let [_, others] = spellings(forms);
                forms.names.lists[list][at].spellings[spelling] = others;
            });
        }
        add(&format!("{name}: elapsed for current"), &|forms| {
            for name in &mut forms.names.lists[list] {
                name.number = (name.number + 1 - least) % count as u32 + least;
            }
        });
    }
    add("a half's: elapsed for current", &|forms| forms.current = 0);
    add("the dark half from 14", &|forms| {
        forms.names.halves[1].number = 14
    });
    add("an end that is counted", &|forms| forms.end = 1);
    add("a sign of 29 degrees", &|forms| forms.sign = 29 * 3600);
    add("signs from the second on", &|forms| {
        forms.names.begins.rotate_left(1)
    });
    add("two parts for minutes and seconds", &|forms| {
        forms.three_parts = |two| format!("0:{two}");
    });
    for (what, spells) in WRONG_LETTERS {
        add(what, &|forms| forms.spells = spells);
    }
    wrong
}

/// Each wrong reading shows in what `find` prints for one of the texts.
fn wrong_ones_show(checks: &mut Checks, almanac: &Almanac, right: &Forms, texts: &[Vec<u8>]) {
    for (what, wrong) in wrong_readings(right) {
        let shows = texts.iter().any(|text| {
            let [own, wrongs] = [right, &wrong].map(|forms| forms.plain(text));
            let printed = |forms: &Forms| forms.find(almanac, text).output;
            own != wrongs && printed(right) != printed(&wrong)
        });
        checks.same("a wrong reading shows", || what, true, shows);
    }
}

fn refused_forms(checks: &mut Checks, almanac: &Almanac, forms: &Forms) {
    for line in REFUSED {
        let came = forms.find(almanac, &with_span(line.as_bytes())).output;
        checks.same_lines("a refused form", || line.to_string(), "refused 3\n", &came);
    }
}

pub fn run(checks: &mut Checks, almanac: &Almanac) {
    let forms = Forms::of_document();
    let names = &forms.names;
    lists(checks, names);
    signs_and_halves(checks, names);
    refused_forms(checks, almanac, forms);
    let mut cases = [worked(), every_name(names), whole_lists(names)].concat();
    let drawn = [ends(almanac), drawn(checks, almanac, names)].concat();
    cases.extend(drawn.into_iter().map(|(_, case)| case));
    for case in &cases {
        same_query(checks, almanac, forms, case);
    }
    let all_but = all_but_names(&mut Random::from_seed(), names);
    let mut texts: Vec<Vec<u8>> = cases.into_iter().map(|case| case.form).collect();
    texts.extend(all_but.iter().map(|line| with_span(line)));
    wrong_ones_show(checks, almanac, forms, &texts);
}
