//! The day sheet's program, run on many inputs.

use crate::checks::Checks;
use crate::reference::almanac::Almanac;
use crate::reference::sheet::day_sheet;

use super::day_input::Program;

const DAY_SHEET: Program = Program {
    path: "target/bin/day_sheet",
    printed: day_sheet,
};

pub fn run(checks: &mut Checks, almanac: &Almanac) {
    DAY_SHEET.compare_inputs(checks, almanac);
}
