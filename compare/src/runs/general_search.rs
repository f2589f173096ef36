//! The search with all its conditions, over the bridge.

use crate::calls::*;
use crate::checks::Checks;
use crate::random::Random;
use crate::reference::almanac::Almanac;
use crate::reference::days::LAST_DAY;
use crate::reference::refusal::BAD_INPUT;
use crate::reference::search::{set_of, Arc, Arcs, Query, TITHI};

use super::queries::{at_range_ends, most_entries, spoil, Kind, REFUSED_SPANS};
use super::query_bytes::{encode, other_lengths, shown};
use super::searches::{self, SearchCalls};
use super::{EDITIONS, NO_EDITIONS};

/// The query's bytes, as the bridge takes them.
pub struct BridgeSearch {
    pub bytes: Vec<u8>,
}

impl SearchCalls for BridgeSearch {
    const NAMES: [&'static str; 3] = ["bridge_search", "bridge_length", "bridge_looked"];

    fn search(&self, list: &mut [u8]) -> u32 {
        let query = &self.bytes;
        unsafe { bridge_search(query.as_ptr(), query.len(), list.as_mut_ptr(), list.len()) }
    }

    fn length(&self) -> u32 {
        unsafe { bridge_length(self.bytes.as_ptr(), self.bytes.len()) }
    }

    fn looked(&self) -> u32 {
        unsafe { bridge_looked(self.bytes.as_ptr(), self.bytes.len()) }
    }

    fn list_first(&self, list: &mut [u8]) -> Option<u32> {
        let query = &self.bytes;
        Some(unsafe {
            bridge_list_first(query.as_ptr(), query.len(), list.as_mut_ptr(), list.len())
        })
    }

    fn input(&self) -> String {
        shown(&self.bytes)
    }
}

pub fn compare(checks: &mut Checks, almanac: &Almanac, random: &mut Random, query: &Query) {
    let calls = BridgeSearch {
        bytes: encode(random, query),
    };
    let expected = query.search(almanac);
    searches::compare(
        checks,
        &calls,
        &expected,
        most_entries((query.first, query.last)),
    );
}

fn combinations(checks: &mut Checks, almanac: &Almanac, random: &mut Random, kind: Kind) {
    for given in kind.combinations(random) {
        let query = kind.draw(random, almanac, given, 400);
        compare(checks, almanac, random, &query);
    }
}

/// One or two conditions, over longer spans; some are as long as the table, or a hundred years for
/// smudged queries.
fn few_conditions(checks: &mut Checks, almanac: &Almanac, random: &mut Random, kind: Kind) {
    let longest = if kind.smudged() { 36_525 } else { LAST_DAY + 1 };
    for round in kind.rounds(2000) {
        let given = kind.few(random);
        let most = if round % 100 == 0 { longest } else { 3000 };
        let query = kind.draw(random, almanac, given, most);
        compare(checks, almanac, random, &query);
    }
}

/// Wide arcs of any bodies, with a weekday or without, so that many days match.
fn wide_arcs(checks: &mut Checks, almanac: &Almanac, random: &mut Random, kind: Kind) {
    for _ in kind.rounds(2000) {
        let given = kind.any(random) & !0b1110;
        let mut query = kind.draw(random, almanac, given, 800);
        for arcs in &mut query.arcs {
            for arc in arcs.first.iter_mut().chain(&mut arcs.second) {
                arc.width = random.between(1_000_000, 1_296_000);
            }
        }
        compare(checks, almanac, random, &query);
    }
}

/// The whole span: with no condition, and with a tithi and an arc of the node that crosses 0.
fn whole(checks: &mut Checks, almanac: &Almanac, random: &mut Random, edition: u32) {
    let mut query = Query::without_conditions(0, LAST_DAY);
    query.edition = edition;
    compare(checks, almanac, random, &query);
    query.sets[TITHI] = Some(set_of(&[14]));
    query.arcs[3] = Arcs::one(Arc::new(1_200_000, 200_000));
    compare(checks, almanac, random, &query);
}

/// The largest value of each condition, and the smallest that is refused, with sound and refused
/// spans, in editions that there are and that there aren't: of several faults 14 comes before 2, then
/// 5, then 6, and 7 last.
fn order(checks: &mut Checks, almanac: &Almanac, random: &mut Random) {
    for span in [(1000, 1400)].into_iter().chain(REFUSED_SPANS) {
        let queries = [0, 1].map(|past| at_range_ends(span, past)).concat();
        for mut query in queries {
            for edition in EDITIONS.into_iter().chain(NO_EDITIONS) {
                query.edition = edition;
                compare(checks, almanac, random, &query);
            }
        }
    }
}

/// Any conditions, some of them ill-formed.
fn refused(checks: &mut Checks, almanac: &Almanac, random: &mut Random, kind: Kind) {
    for _ in kind.rounds(4000) {
        let given = kind.any(random);
        let mut query = kind.draw(random, almanac, given, 400);
        spoil(random, &mut query);
        compare(checks, almanac, random, &query);
    }
}

/// Bytes that are no query: "refusal 3 and zeros, the list untouched".
fn no_queries(checks: &mut Checks, random: &mut Random) {
    for bytes in other_lengths(random) {
        searches::compare(checks, &BridgeSearch { bytes }, &Err(BAD_INPUT), 10);
    }
}

pub fn run(checks: &mut Checks, almanac: &Almanac) {
    let mut random = Random::from_seed();
    for kind in Kind::all().into_iter().chain(Kind::half_read()) {
        combinations(checks, almanac, &mut random, kind);
        few_conditions(checks, almanac, &mut random, kind);
        wide_arcs(checks, almanac, &mut random, kind);
        refused(checks, almanac, &mut random, kind);
    }
    for edition in EDITIONS {
        whole(checks, almanac, &mut random, edition);
    }
    order(checks, almanac, &mut random);
    no_queries(checks, &mut random);
}
