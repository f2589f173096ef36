//! The program `month`, run on many inputs.

use crate::checks::Checks;
use crate::random::Random;
use crate::reference::almanac::Almanac;
use crate::reference::days::LAST_DAY;
use crate::reference::month::{month, DAYS};

use super::day_input::Program;

const MONTH: Program = Program {
    path: "target/bin/month",
    printed: month,
};

/// The last first day whose month ends in the table.
const LAST_FIRST: u32 = LAST_DAY + 1 - DAYS;

/// First days at both ends of the table, and past the last that is accepted.
fn at_ends() -> Vec<u32> {
    (0..=DAYS).chain(LAST_FIRST - DAYS..=LAST_DAY + 5).collect()
}

/// First days whose months have the first day of a cycle at a drawn line, for each cycle but the
/// first; and at each line, and beyond the first and the last, for three of them.
fn at_turns(random: &mut Random) -> Vec<u32> {
    let mut days: Vec<u32> = (1..=99)
        .map(|cycle| 4016 * cycle - random.below(DAYS))
        .collect();
    for cycle in [1, 50, 99] {
        let turn = 4016 * cycle;
        days.extend(turn - DAYS..=turn + 1);
    }
    days
}

pub fn run(checks: &mut Checks, almanac: &Almanac) {
    MONTH.compare_inputs(checks, almanac);
    let mut random = Random::from_seed();
    let turns = at_turns(&mut random);
    let drawn = [(); 300].map(|()| random.below(LAST_FIRST + 1));
    for number in at_ends().into_iter().chain(turns).chain(drawn) {
        MONTH.compare(checks, almanac, format!("{number}\n").as_bytes());
    }
}
