//! Document 002, from which paper 01 condenses its table of mean places: K and D in degrees,
//! minutes and seconds, and the motion a day as a sum of fractions of a degree. From these the exact
//! mean places are added up day by day, another way than `longitudes` goes.

use std::iter::successors;

use super::days::Pair;
use super::exact::{Fraction, CIRCLE};

/// What the document prints of a body.
struct Body {
    k: [i128; 3],
    d: [i128; 3],
    motion: &'static [(i128, i128)],
}

/// In the order of the document, which is paper 01's. The Moon's node goes backwards, and Mercury's
/// last term is 1/(38 × 60), as paper 01 decides.
const BODIES: [Body; 9] = [
    Body {
        k: [349, 41, 0],
        d: [1, 49, 11],
        motion: &[(1, 1), (-1, 70), (-1, 150 * 60)],
    },
    Body {
        k: [349, 6, 0],
        d: [3, 46, 11],
        motion: &[(14, 1), (-14, 17), (-1, 140 * 60)],
    },
    Body {
        k: [167, 33, 0],
        d: [272, 45, 0],
        motion: &[(1, 9), (1, 70 * 60)],
    },
    Body {
        k: [27, 38, 0],
        d: [212, 50, 0],
        motion: &[(-1, 19), (-1, 45 * 60)],
    },
    Body {
        k: [307, 8, 0],
        d: [55, 32, 0],
        motion: &[(10, 19), (-10, 73 * 60)],
    },
    Body {
        k: [269, 33, 0],
        d: [123, 27, 0],
        motion: &[(3, 1), (3, 28), (-1, 38 * 60)],
    },
    Body {
        k: [212, 16, 0],
        d: [26, 18, 0],
        motion: &[(1, 12), (-1, 70 * 60)],
    },
    Body {
        k: [230, 9, 0],
        d: [44, 2, 0],
        motion: &[(3, 5), (3, 181)],
    },
    Body {
        k: [285, 21, 0],
        d: [225, 42, 0],
        motion: &[(1, 30), (1, 156 * 60)],
    },
];

fn in_seconds([degrees, minutes, seconds]: [i128; 3]) -> i128 {
    (60 * degrees + minutes) * 60 + seconds
}

/// A body's exact mean place on a day. All but the divisor is counted in such parts of a second.
#[derive(Clone, Copy)]
pub struct Exact {
    pub place: i128,
    pub divisor: i128,
    /// The place on the cycle's first day.
    first: i128,
    a_day: i128,
    a_cycle: i128,
}

impl Exact {
    fn at_epoch(body: &Body) -> Exact {
        let terms = body.motion.iter();
        let terms = terms.map(|(over, under)| Fraction::new(3600 * over, *under));
        let motion = terms.fold(Fraction::whole(0), Fraction::plus);
        let (a_day, divisor) = motion.lowest_terms();
        let place = in_seconds(body.k) * divisor;
        Exact {
            place,
            divisor,
            first: place,
            a_day,
            a_cycle: in_seconds(body.d) * divisor,
        }
    }

    fn reduced(&self, parts: i128) -> i128 {
        parts.rem_euclid(CIRCLE * self.divisor)
    }

    fn next_day(self) -> Exact {
        Exact {
            place: self.reduced(self.place + self.a_day),
            ..self
        }
    }

    fn next_cycle(self) -> Exact {
        let place = self.reduced(self.first - self.a_cycle);
        Exact {
            place,
            first: place,
            ..self
        }
    }
}

/// The nine exact mean places of each day of the table.
pub fn added_up() -> impl Iterator<Item = [Exact; 9]> {
    let epoch = BODIES.each_ref().map(Exact::at_epoch);
    let days = successors(Some((Pair::EPOCH, epoch)), |(pair, places)| {
        let next = pair.next().ok()?;
        let step = if next.cycle == pair.cycle {
            Exact::next_day
        } else {
            Exact::next_cycle
        };
        Some((next, places.map(step)))
    });
    days.map(|(_, places)| places)
}
