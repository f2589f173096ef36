//! The calls that take a cycle and a day within it, on every pair in range, all about the ranges'
//! ends, and pairs whose day number would wrap into the table.

use crate::calls::*;
use crate::checks::Checks;
use crate::reference::days::{Pair, LAST_CYCLE, LAST_WITHIN};
use crate::reference::refusal::result_number;

use super::WIDTH_EDGES;

fn compare(checks: &mut Checks, cycle: u32, within: u32) {
    let input = || format!("cycle {cycle}, day within it {within}");
    let pair = Pair { cycle, within };

    let day = pair.day();
    checks.same(
        "graha_pair_result",
        input,
        result_number(&day),
        graha_pair_result(cycle, within),
    );
    checks.same(
        "graha_pair_day",
        input,
        day.unwrap_or(0),
        graha_pair_day(cycle, within),
    );

    let next = pair.next();
    let after = next.unwrap_or(Pair {
        cycle: 0,
        within: 0,
    });
    checks.same(
        "graha_next_result",
        input,
        result_number(&next),
        graha_next_result(cycle, within),
    );
    checks.same(
        "graha_next_cycle",
        input,
        after.cycle,
        graha_next_cycle(cycle, within),
    );
    checks.same(
        "graha_next_within",
        input,
        after.within,
        graha_next_within(cycle, within),
    );
}

pub fn run(checks: &mut Checks) {
    for cycle in 0..=LAST_CYCLE + 2 {
        for within in 0..=LAST_WITHIN + 2 {
            compare(checks, cycle, within);
        }
    }
    let in_range = [0, 1, 50, LAST_CYCLE, LAST_WITHIN];
    for edge in WIDTH_EDGES {
        for other in in_range.into_iter().chain(WIDTH_EDGES) {
            compare(checks, edge, other);
            compare(checks, other, edge);
        }
    }
    // 4016 × C passes a multiple of 2^32 by at most 2 × 4016.
    for turns in 1..4016_u64 {
        let cycle = ((turns << 32) / 4016 + 1) as u32;
        compare(checks, cycle, 0);
        compare(checks, cycle + 1, LAST_WITHIN);
    }
}
