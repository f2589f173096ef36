//! Exact fractions, so that a place is rounded once and only where the paper rounds it; the reduction
//! by whole circles, and the short way round.

/// Seconds of arc in a circle.
pub const CIRCLE: i128 = 1_296_000;

/// A whole number, of either sign, over a divisor above 0.
#[derive(Clone, Copy)]
pub struct Fraction {
    over: i128,
    under: i128,
}

impl Fraction {
    pub fn new(over: i128, under: i128) -> Fraction {
        assert!(under > 0, "the divisor of a fraction is above 0");
        Fraction { over, under }
    }

    pub fn whole(number: i128) -> Fraction {
        Fraction::new(number, 1)
    }

    pub fn plus(self, other: Fraction) -> Fraction {
        Fraction::new(
            self.over * other.under + other.over * self.under,
            self.under * other.under,
        )
    }

    pub fn minus(self, other: Fraction) -> Fraction {
        self.plus(other.times(-1))
    }

    pub fn times(self, number: i128) -> Fraction {
        Fraction::new(self.over * number, self.under)
    }

    pub fn product(self, other: Fraction) -> Fraction {
        Fraction::new(self.over * other.over, self.under * other.under)
    }

    /// By a fraction above 0.
    pub fn quotient(self, other: Fraction) -> Fraction {
        Fraction::new(self.over * other.under, self.under * other.over)
    }

    /// The greatest whole number not above the fraction.
    pub fn floor(self) -> i128 {
        self.over.div_euclid(self.under)
    }

    /// The whole number that the fraction is.
    pub fn as_whole(self) -> i128 {
        assert!(self.floor() == self.ceiling(), "the fraction is whole");
        self.floor()
    }

    /// The same fraction in its lowest terms: what is above, and the divisor.
    pub fn lowest_terms(self) -> (i128, i128) {
        let (mut common, mut rest) = (self.under, self.over.abs());
        while rest > 0 {
            (common, rest) = (rest, common % rest);
        }
        (self.over / common, self.under / common)
    }

    /// The least whole number not below the fraction.
    pub fn ceiling(self) -> i128 {
        -self.times(-1).floor()
    }
}

/// "Reduced by whole circles": from 0 to 1,295,999.
pub fn reduced(seconds: i128) -> u32 {
    seconds.rem_euclid(CIRCLE) as u32
}

/// The signed short way from one place to another, "half a circle counting as backwards" (paper 02,
/// L13): from −648,000 to 647,999.
pub fn short_way(from: u32, to: u32) -> i64 {
    let forwards = i64::from(reduced(i128::from(to) - i128::from(from)));
    if forwards < 648_000 {
        forwards
    } else {
        forwards - 1_296_000
    }
}
