//! Paper 02, "L8. The Moon's second rule": the editions.

use super::refusal::{Answer, NO_SUCH_EDITION};

#[derive(Clone, Copy, PartialEq, Eq, Debug)]
pub enum Edition {
    /// "Edition 1 is the present rule." "The day sheet and the C calls stay edition 1."
    First,
    /// "Edition 2 has the addition after the Moon's own equation."
    Second,
}

impl Edition {
    /// "Refusals: 14, edition other than 1 or 2."
    pub fn numbered(number: u32) -> Answer<Edition> {
        match number {
            1 => Ok(Edition::First),
            2 => Ok(Edition::Second),
            _ => Err(NO_SUCH_EDITION),
        }
    }

    pub fn number(self) -> u32 {
        match self {
            Edition::First => 1,
            Edition::Second => 2,
        }
    }
}
