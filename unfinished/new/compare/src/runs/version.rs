//! The version's number, as the header says it.

use crate::calls::graha_version;
use crate::checks::Checks;

const HEADER: &str = include_str!("../../../include/grahalaghava.h");

pub fn run(checks: &mut Checks) {
    let said = HEADER
        .lines()
        .find_map(|line| line.strip_prefix("#define GRAHA_VERSION "))
        .and_then(|number| number.parse().ok());
    checks.same("graha_version", String::new, said, Some(graha_version()));
}
