//! P2: which places are asked for, paper 01's mean ones or the true ones.

use super::almanac::Day;
use super::edition::Edition;
use super::longitudes::{MOON_APOGEE, MOON_NODE};
use super::planets::{TRUE_MARS, TRUE_MOON, TRUE_SUN};

#[derive(Clone, Copy, PartialEq, Eq, Debug)]
pub enum Places {
    Mean,
    True,
}

/// The numbers under which a day has the bodies' true places: "of bodies 0 Sun, 1 Moon, 4 to 8 the
/// planets; of 2 apogee and 3 node the mean one, which is all there is".
const TRUE: [usize; 9] = [
    TRUE_SUN,
    TRUE_MOON,
    MOON_APOGEE,
    MOON_NODE,
    TRUE_MARS,
    TRUE_MARS + 1,
    TRUE_MARS + 2,
    TRUE_MARS + 3,
    TRUE_MARS + 4,
];

impl Places {
    /// A body's on a day, and none of a body above 8. "The C calls stay edition 1" (paper 02, L8).
    pub fn of(self, day: &Day, body: usize) -> Option<u32> {
        match self {
            Places::Mean => day.mean.get(body).copied(),
            Places::True => {
                let number = TRUE.get(body)?;
                Some(day.place(*number, Edition::First))
            }
        }
    }
}
