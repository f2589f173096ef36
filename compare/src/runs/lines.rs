//! The catalogue's heading and lines in both editions, put into lent buffers of every length: the
//! numbers that the calls give, every byte of the buffer, and the text that the pieces make together;
//! and what editions that there aren't give.

use std::collections::{BTreeMap, BTreeSet};

use crate::calls::*;
use crate::checks::Checks;
use crate::random::Random;
use crate::reference::almanac::Almanac;
use crate::reference::catalogue::{self, Lines, Put};
use crate::reference::days::LAST_DAY;
use crate::reference::edition::Edition;
use crate::reference::refusal::{Answer, LIST_TOO_SHORT, NO_SUCH_EDITION, OUT_OF_RANGE};

use super::lent::Lent;
use super::queries::random_query;
use super::query_bytes::numbers;
use super::{EDITIONS, NO_DAYS, NO_EDITIONS, WIDTH_EDGES};

/// The longest buffer of those that are tried one by one.
const MOST_ROOM: usize = 700;

/// Numbers of entries that no list here has; four bytes each, some of them wrap to a sound place.
const FAR_ENTRIES: [u32; 8] = [
    1 << 16,
    (1 << 30) - 1,
    1 << 30,
    (1 << 30) + 1,
    1 << 31,
    3 << 30,
    u32::MAX - 1,
    u32::MAX,
];

/// A list as bytes, and the line of each of its entries in an edition.
struct Listed {
    edition: u32,
    bytes: Vec<u8>,
    lines: Answer<Lines>,
}

impl Listed {
    /// The entries' bytes and a tail of 0 to 3.
    fn new(almanac: &Almanac, edition: u32, entries: &[u32], tail: usize) -> Listed {
        let mut bytes: Vec<u8> = entries.iter().flat_map(|day| day.to_le_bytes()).collect();
        bytes.extend(&[1, 0, 0][..tail]);
        let lines = catalogue::lines(almanac, edition, &bytes);
        Listed {
            edition,
            bytes,
            lines,
        }
    }

    fn entries(&self) -> u32 {
        self.bytes.len() as u32 / 4
    }

    /// The lines; none in an edition that there isn't.
    fn lines(&self) -> &[Answer<String>] {
        self.lines.as_deref().unwrap_or_default()
    }

    fn longest_line(&self) -> usize {
        let lengths = self.lines().iter().flatten().map(String::len);
        lengths.max().unwrap_or(0)
    }

    /// Cut where it is long.
    fn shown(&self) -> String {
        let entries = numbers(&self.bytes);
        let start = &entries[..entries.len().min(40)];
        let (edition, length) = (self.edition, self.bytes.len());
        format!("edition {edition}, a list of {length} bytes: {start:?}")
    }
}

/// A call that fills a buffer, its name, and where the second program has the number that it gives.
type Call<'a> = (
    &'a str,
    &'a dyn Fn(*mut u8, usize) -> usize,
    fn(&Put) -> usize,
);

/// Makes each call with a buffer of its own, compares its number and all memory about the buffer,
/// and hands back the text that came.
fn compare_calls(
    checks: &mut Checks,
    calls: &[Call],
    input: impl Fn() -> String,
    expected: &Put,
    room: usize,
) -> Vec<u8> {
    let input = || format!("{}, a buffer of {room} bytes", input());
    let mut text = Vec::new();
    for (name, call, number) in calls {
        let mut buffer = Lent::new(room);
        let buffer_after = expected.buffer_after(buffer.bytes());
        let lent = buffer.bytes_mut();
        let came = call(lent.as_mut_ptr(), lent.len());
        checks.same(name, &input, number(expected), came);
        buffer.compare(checks, name, &input, &buffer_after);
        text = buffer.bytes()[..expected.text.len()].to_vec();
    }
    text
}

/// The lines of the entries from one on.
fn compare(checks: &mut Checks, list: &Listed, from: u32, room: usize) -> Put {
    let expected = catalogue::put_lines(&list.lines, from, room);
    let edition = list.edition;
    let (bytes, count) = (list.bytes.as_ptr(), list.bytes.len());
    let calls: [Call; 3] = [
        (
            "bridge_lines_result",
            &|buffer, room| unsafe {
                bridge_lines_result(edition, bytes, count, from, buffer, room) as usize
            },
            |put| put.result as usize,
        ),
        (
            "bridge_lines_bytes",
            &|buffer, room| unsafe {
                bridge_lines_bytes(edition, bytes, count, from, buffer, room)
            },
            |put| put.bytes,
        ),
        (
            "bridge_lines_next",
            &|buffer, room| unsafe { bridge_lines_next(edition, bytes, count, from, buffer, room) },
            |put| put.next,
        ),
    ];
    let input = || format!("{}, from {from}", list.shown());
    let text = compare_calls(checks, &calls, input, &expected, room);
    Put { text, ..expected }
}

fn compare_heading(
    checks: &mut Checks,
    edition: u32,
    length: u32,
    looked: u32,
    room: usize,
) -> Put {
    let expected = catalogue::put_heading(edition, length, looked, room);
    let calls: [Call; 2] = [
        (
            "bridge_heading_result",
            &|buffer, room| unsafe {
                bridge_heading_result(edition, length, looked, buffer, room) as usize
            },
            |put| put.result as usize,
        ),
        (
            "bridge_heading_bytes",
            &|buffer, room| unsafe { bridge_heading_bytes(edition, length, looked, buffer, room) },
            |put| put.bytes,
        ),
    ];
    let input = || format!("edition {edition}, length {length}, looked {looked}");
    let text = compare_calls(checks, &calls, input, &expected, room);
    Put { text, ..expected }
}

/// The text that is made from entry to entry by buffers of one length. Where a line doesn't fit, a
/// buffer of the length that would do is lent once; an entry that is refused is passed over.
fn text_in_pieces(checks: &mut Checks, list: &Listed, room: usize) -> Vec<u8> {
    let mut text = Vec::new();
    let mut from = 0;
    while from < list.entries() {
        let mut put = compare(checks, list, from, room);
        if put.result == LIST_TOO_SHORT {
            put = compare(checks, list, from, put.bytes);
        }
        from = match put.result {
            OUT_OF_RANGE | NO_SUCH_EDITION => from + 1,
            _ => put.next as u32,
        };
        text.extend(put.text);
    }
    text
}

/// The pieces together are the lines of all the listed days, each once, in order.
fn compare_pieces(checks: &mut Checks, list: &Listed, room: usize) {
    let came = text_in_pieces(checks, list, room);
    let expected: String = list.lines().iter().flatten().map(String::as_str).collect();
    let input = || format!("{}, by buffers of {room} bytes", list.shown());
    checks.same_bytes("the pieces together", input, expected.as_bytes(), &came);
}

/// A list at buffers of every length up to the most, from each entry on, and in pieces.
fn every_room(checks: &mut Checks, list: &Listed) {
    for from in 0..=list.entries() + 2 {
        for room in 0..=MOST_ROOM {
            compare(checks, list, from, room);
        }
        for room in [1000, 4095, 4096, 65_536] {
            compare(checks, list, from, room);
        }
    }
    for from in FAR_ENTRIES {
        for room in [0, 1, 40, MOST_ROOM] {
            compare(checks, list, from, room);
        }
    }
    for room in 0..=200 {
        compare_pieces(checks, list, room);
    }
}

/// A list at the buffers where one more line fits, a byte short of each and a byte over, from each
/// entry on; and in pieces of some lengths.
fn sharp_rooms(checks: &mut Checks, random: &mut Random, list: &Listed) {
    for from in 0..=list.entries() + 1 {
        let mut rooms = BTreeSet::from([0, 1, MOST_ROOM, random.below(300) as usize]);
        let mut end = 0;
        for line in list.lines().iter().skip(from as usize) {
            end += line.as_ref().map_or(0, String::len);
            rooms.extend([end.saturating_sub(1), end, end + 1]);
        }
        for room in rooms {
            compare(checks, list, from, room);
        }
    }
    for from in FAR_ENTRIES {
        compare(checks, list, from, 100);
    }
    let longest = list.longest_line();
    let room = random.between(0, 400) as usize;
    for room in [0, longest, longest + 1, 2 * longest, room] {
        compare_pieces(checks, list, room);
    }
}

/// For each length that a line has, the first day, the last and some between.
fn days_by_length(
    almanac: &Almanac,
    random: &mut Random,
    edition: u32,
) -> BTreeMap<usize, Vec<u32>> {
    let mut days: BTreeMap<usize, Vec<u32>> = BTreeMap::new();
    let edition = Edition::numbered(edition).expect("an edition");
    for day in 0..=LAST_DAY {
        let line = catalogue::line(almanac, edition, day).expect("a day");
        days.entry(line.len()).or_default().push(day);
    }
    for of_length in days.values_mut() {
        let ends = [of_length[0], of_length[of_length.len() - 1]];
        let between = [(); 2].map(|()| random.one_of(of_length));
        *of_length = [ends, between].concat();
    }
    days
}

/// Lists of all kinds of days, some of them with numbers that are none, and tails.
fn chosen(checks: &mut Checks, almanac: &Almanac, random: &mut Random, edition: u32) {
    let listed = |entries: &[u32], tail| Listed::new(almanac, edition, entries, tail);
    let by_length = days_by_length(almanac, random, edition);
    let lengths: Vec<usize> = by_length.keys().copied().collect();
    let (shortest, longest) = (lengths[0], lengths[lengths.len() - 1]);
    let extremes = [&by_length[&shortest][..], &by_length[&longest]].concat();
    let one_of_each: Vec<u32> = by_length.values().map(|days| days[0]).collect();
    let lists: [&[u32]; 17] = [
        &[],
        &[0],
        &[LAST_DAY],
        &[33_649],
        &[LAST_DAY, 0, LAST_DAY, 0],
        &[22_842, 22_843, 22_844, 22_845, 22_846, 22_847],
        &[9, 10, 99, 100, 999, 1000, 9999, 10_000, 99_999, 100_000],
        &extremes,
        &one_of_each,
        &[5, 5, 5, 4, 4, 3],
        &[LAST_DAY + 1],
        &[u32::MAX],
        &[LAST_DAY + 1, LAST_DAY],
        &[LAST_DAY, LAST_DAY + 1],
        &[0, 1, 0x0100_0000, 2, 3],
        &[22_844, u32::MAX, 1 << 31, 22_845, 401_600],
        &[300, 70_000, 0x0007_0000, 400_000],
    ];
    for (at, entries) in lists.into_iter().enumerate() {
        every_room(checks, &listed(entries, at % 4));
    }
    for tail in 0..4 {
        for entries in [&[][..], &[0], &[22_844, 22_845]] {
            every_room(checks, &listed(entries, tail));
        }
    }
    for days in by_length.values() {
        sharp_rooms(checks, random, &listed(days, 0));
    }
}

/// A number that is no day at each place of a list.
fn no_day_at_each_place(checks: &mut Checks, almanac: &Almanac, random: &mut Random, edition: u32) {
    let days = [(); 10].map(|()| random.below(LAST_DAY + 1));
    for place in 0..days.len() {
        for no_day in NO_DAYS {
            let mut entries = days;
            entries[place] = no_day;
            let list = Listed::new(almanac, edition, &entries, random.below(4) as usize);
            sharp_rooms(checks, random, &list);
        }
    }
}

/// Random lists, every third of them with numbers that are no days at any places.
fn random_lists(checks: &mut Checks, almanac: &Almanac, random: &mut Random, edition: u32) {
    for round in 0..600 {
        let mut entries: Vec<u32> = (0..random.below(24))
            .map(|_| random.below(LAST_DAY + 1))
            .collect();
        if round % 3 == 0 {
            for entry in &mut entries {
                match random.below(8) {
                    0 => *entry = random.one_of(&NO_DAYS),
                    1 => *entry = random.number(),
                    _ => {}
                }
            }
        }
        let list = Listed::new(almanac, edition, &entries, random.below(4) as usize);
        sharp_rooms(checks, random, &list);
    }
}

/// Every day's line: in lists of some days by buffers for one line and for a few, and in one list by
/// large buffers.
fn every_day(checks: &mut Checks, almanac: &Almanac, random: &mut Random, edition: u32) {
    let days: Vec<u32> = (0..=LAST_DAY).collect();
    for some in days.chunks(500) {
        let list = Listed::new(almanac, edition, some, random.below(4) as usize);
        compare_pieces(checks, &list, list.longest_line());
        let room = random.between(80, 4096) as usize;
        compare_pieces(checks, &list, room);
    }
    let list = Listed::new(almanac, edition, &days, 3);
    for room in [65_536, 1 << 20, 1 << 24] {
        compare_pieces(checks, &list, room);
    }
}

/// Numbers of every width, and buffers of every length about the heading's own.
fn headings(checks: &mut Checks, random: &mut Random, edition: u32) {
    let named = Edition::numbered(edition).expect("an edition");
    let widths = (0..10).map(|power| 10_u32.pow(power));
    let mut counts: Vec<u32> = widths.flat_map(|first| [first - 1, first]).collect();
    counts.extend([6, 2311, 401_599, 401_600, 401_601]);
    counts.extend(WIDTH_EDGES);
    counts.extend([(); 10].map(|()| random.number()));
    for length in &counts {
        for looked in &counts {
            let need = catalogue::heading(named, *length, *looked).len();
            for room in [0, need - 1, need, need + 1, 100] {
                compare_heading(checks, edition, *length, *looked, room);
            }
        }
    }
    for (length, looked) in [
        (0, 0),
        (6, 2311),
        (401_600, 401_600),
        (u32::MAX, u32::MAX),
        (0, u32::MAX),
    ] {
        for room in (0..=MOST_ROOM).chain([4096, 65_536, 1 << 20]) {
            compare_heading(checks, edition, length, looked, room);
        }
    }
}

/// A heading and the pieces of a search's list are all that `find` prints for it.
fn searches(checks: &mut Checks, almanac: &Almanac, random: &mut Random, edition: u32) {
    for _ in 0..300 {
        let given = 1 << random.below(13) | 1 << random.below(13);
        let query = random_query(random, almanac, edition, given, 1000);
        let found = query.search(almanac).expect("the query is well-formed");
        let counts = [found.matching.len() as u32, found.visited.len() as u32];
        let room = random.between(100, 2000) as usize;
        let list = Listed::new(almanac, edition, &found.matching, 0);
        let mut came = compare_heading(checks, edition, counts[0], counts[1], room).text;
        came.extend(text_in_pieces(checks, &list, room));
        let expected = catalogue::text(almanac, &found);
        let input = || format!("{query:?}, by buffers of {room} bytes");
        checks.same_bytes("the whole catalogue", input, expected.as_bytes(), &came);
    }
}

/// Editions that there aren't, with good and bad lists and entries, and headings, by buffers of many
/// lengths.
fn no_editions(checks: &mut Checks, almanac: &Almanac, random: &mut Random) {
    for edition in NO_EDITIONS {
        for entries in [&[][..], &[0], &[33_649, LAST_DAY + 1], &[u32::MAX, 5]] {
            let tail = random.below(4) as usize;
            every_room(checks, &Listed::new(almanac, edition, entries, tail));
        }
        for (length, looked) in [(0, 0), (6, 2311), (u32::MAX, u32::MAX)] {
            for room in (0..=MOST_ROOM).chain([4096, 65_536]) {
                compare_heading(checks, edition, length, looked, room);
            }
        }
    }
    for _ in 0..200 {
        let edition = random.one_of(&NO_EDITIONS);
        let mut entries = [(); 10].map(|()| random.below(LAST_DAY + 1));
        entries[random.below(10) as usize] = random.one_of(&NO_DAYS);
        let list = Listed::new(almanac, edition, &entries, random.below(4) as usize);
        sharp_rooms(checks, random, &list);
    }
}

pub fn run(checks: &mut Checks, almanac: &Almanac) {
    let mut random = Random::from_seed();
    for edition in EDITIONS {
        headings(checks, &mut random, edition);
        chosen(checks, almanac, &mut random, edition);
        no_day_at_each_place(checks, almanac, &mut random, edition);
        random_lists(checks, almanac, &mut random, edition);
        every_day(checks, almanac, &mut random, edition);
        searches(checks, almanac, &mut random, edition);
    }
    no_editions(checks, almanac, &mut random);
}
