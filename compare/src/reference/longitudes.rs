//! Paper 01, "Mean places": the nine mean longitudes, in whole seconds of arc; and paper 02, L2:
//! the part of a second that each has besides.

use super::days::Pair;
use super::exact::{reduced, Fraction};

pub const SUN: usize = 0;
pub const MOON: usize = 1;
pub const MOON_APOGEE: usize = 2;
pub const MOON_NODE: usize = 3;
pub const MARS: usize = 4;
pub const MERCURY_ANOMALY: usize = 5;
pub const JUPITER: usize = 6;
pub const VENUS_ANOMALY: usize = 7;
pub const SATURN: usize = 8;

/// L2: the mean place's whole seconds, "what was left over and its divisor, the table's q"; and
/// "thirds, sixtieths of a second".
#[derive(Clone, Copy)]
pub struct Longitude {
    pub seconds: u32,
    pub left_over: u32,
    pub divisor: u32,
    pub thirds: u32,
}

enum Motion {
    Forwards,
    Backwards,
}

/// A row of the paper's table: the place at the epoch K, the cycle's amount D, the motion a day
/// p/q.
struct Body {
    k: i128,
    d: i128,
    p: i128,
    q: i128,
    motion: Motion,
}

const fn forwards(k: i128, d: i128, p: i128, q: i128) -> Body {
    Body {
        k,
        d,
        p,
        q,
        motion: Motion::Forwards,
    }
}

const fn backwards(k: i128, d: i128, p: i128, q: i128) -> Body {
    Body {
        k,
        d,
        p,
        q,
        motion: Motion::Backwards,
    }
}

/// In the paper's order.
const BODIES: [Body; 9] = [
    forwards(1258860, 6551, 124186, 35),
    forwards(1256760, 13571, 5644749, 119),
    forwards(603180, 981900, 2806, 7),
    backwards(99480, 766200, 10876, 57),
    forwards(1105680, 199920, 2616600, 1387),
    forwards(970380, 444420, 1487490, 133),
    forwards(764160, 94680, 2094, 7),
    forwards(828540, 158520, 401760, 181),
    forwards(1027260, 812520, 1565, 13),
];

impl Body {
    /// "The exact mean place is K − C × D + A × p/q, for the node K − C × D − A × p/q."
    fn exact_place(&self, pair: Pair) -> Fraction {
        let at_cycle = Fraction::whole(self.k - i128::from(pair.cycle) * self.d);
        let moved = Fraction::new(self.p, self.q).times(i128::from(pair.within));
        match self.motion {
            Motion::Forwards => at_cycle.plus(moved),
            Motion::Backwards => at_cycle.minus(moved),
        }
    }

    /// "The mean place is the greatest whole number not above it, reduced by whole circles." What
    /// the exact place has above that number is left over: the left-over counts it in q-ths of a
    /// second, the thirds in sixtieths, "rounded down".
    fn longitude(&self, pair: Pair) -> Longitude {
        let exact = self.exact_place(pair);
        let whole = exact.floor();
        let part = exact.minus(Fraction::whole(whole));
        Longitude {
            seconds: reduced(whole),
            left_over: part.times(self.q).as_whole() as u32,
            divisor: self.q as u32,
            thirds: part.times(60).floor() as u32,
        }
    }
}

/// The exact mean place of a body, neither rounded nor reduced.
pub fn exact_place(body: usize, pair: Pair) -> Fraction {
    BODIES[body].exact_place(pair)
}

/// A body's divisor, "the table's q".
pub fn divisor(body: usize) -> i128 {
    BODIES[body].q
}

/// "The nine mean places are handed back together, in the order of this table"; "beside the nine
/// mean places come their nine thirds".
pub fn longitudes(pair: Pair) -> [Longitude; 9] {
    BODIES.each_ref().map(|body| body.longitude(pair))
}
