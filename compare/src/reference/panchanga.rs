//! Paper 01, "True Sun and Moon, and the day's limbs"; and paper 02, "L8. The Moon's second rule".

use super::edition::Edition;
use super::exact::{reduced, Fraction};
use super::longitudes::{MOON, MOON_APOGEE, SUN};

/// "The Sun's apogee is fixed at 280800."
const SUN_APOGEE: u32 = 280_800;

/// The two numbers in which the Sun's and the Moon's equation differ.
struct Rule {
    factor: i128,
    divisor: i128,
}

const SUN_RULE: Rule = Rule {
    factor: 32_400,
    divisor: 538_526_880_000,
};
const MOON_RULE: Rule = Rule {
    factor: 72_000,
    divisor: 522_547_200_000,
};

/// The part of the Sun's equation that edition 2 gives the Moon.
const SUN_PART: i128 = 27;

/// "Reduce it to s, from 0 to 324000": the four quarters of the anomaly.
pub fn quarter(anomaly: i128) -> i128 {
    if anomaly <= 324_000 {
        anomaly
    } else if anomaly <= 648_000 {
        648_000 - anomaly
    } else if anomaly <= 972_000 {
        anomaly - 648_000
    } else {
        1_296_000 - anomaly
    }
}

/// A size in whole seconds, with its sign.
struct Equation {
    size: i128,
    added: bool,
}

impl Equation {
    /// "The anomaly is the apogee less the mean place"; the equation "is added for an anomaly up to
    /// 648000 and subtracted beyond".
    fn of(mean: u32, apogee: u32, rule: &Rule) -> Equation {
        let anomaly = i128::from(reduced(i128::from(apogee) - i128::from(mean)));
        let s = quarter(anomaly);
        let q = s * (648_000 - s);
        Equation {
            size: Fraction::new(rule.factor * q, rule.divisor - q).floor(),
            added: anomaly <= 648_000,
        }
    }

    /// A part of it, "size rounded down", with the same sign.
    fn part(self, divisor: i128) -> Equation {
        Equation {
            size: Fraction::new(self.size, divisor).floor(),
            ..self
        }
    }

    /// "And the place reduced by whole circles."
    fn applied_to(self, place: u32) -> u32 {
        let sign = if self.added { 1 } else { -1 };
        reduced(i128::from(place) + sign * self.size)
    }
}

fn sun_equation(mean: &[u32; 9]) -> Equation {
    Equation::of(mean[SUN], SUN_APOGEE, &SUN_RULE)
}

fn moon_equation(mean: &[u32; 9]) -> Equation {
    Equation::of(mean[MOON], mean[MOON_APOGEE], &MOON_RULE)
}

fn true_sun(mean: &[u32; 9]) -> u32 {
    sun_equation(mean).applied_to(mean[SUN])
}

/// L8: "also give the Moon one twenty-seventh of the Sun's equation in whole seconds, size rounded
/// down, with the Sun's sign"; in edition 2, "after the Moon's own equation".
fn true_moon(mean: &[u32; 9], edition: Edition) -> u32 {
    let moon = moon_equation(mean).applied_to(mean[MOON]);
    match edition {
        Edition::First => moon,
        Edition::Second => sun_equation(mean).part(SUN_PART).applied_to(moon),
    }
}

/// True Sun and Moon, and the limbs, of a day in an edition.
#[derive(Clone, Copy, PartialEq, Eq, Debug)]
pub struct Elements {
    pub sun: u32,
    pub moon: u32,
    pub tithi: u32,
    pub nakshatra: u32,
    pub yoga: u32,
    pub karana: u32,
}

impl Elements {
    pub fn of(mean: &[u32; 9], edition: Edition) -> Elements {
        let (sun, moon) = (true_sun(mean), true_moon(mean, edition));
        Elements {
            sun,
            moon,
            tithi: tithi(sun, moon),
            nakshatra: nakshatra(moon),
            yoga: yoga(sun, moon),
            karana: karana(sun, moon),
        }
    }

    /// Tithi, nakshatra, yoga, karana.
    pub fn limbs(&self) -> [u32; 4] {
        [self.tithi, self.nakshatra, self.yoga, self.karana]
    }
}

/// Moon − Sun, reduced.
fn elongation(sun: u32, moon: u32) -> u32 {
    reduced(i128::from(moon) - i128::from(sun))
}

/// "Tithi = (Moon − Sun) / 43200."
fn tithi(sun: u32, moon: u32) -> u32 {
    elongation(sun, moon) / 43_200
}

/// "Nakshatra = Moon / 48000."
fn nakshatra(moon: u32) -> u32 {
    moon / 48_000
}

/// "Yoga = (Sun + Moon) / 48000."
fn yoga(sun: u32, moon: u32) -> u32 {
    reduced(i128::from(sun) + i128::from(moon)) / 48_000
}

/// "With h = (Moon − Sun) / 21600, karana is 11 for h = 0; ((h − 1) mod 7) + 1 for h from 1 to
/// 56; 8, 9, 10 for 57, 58, 59."
fn karana(sun: u32, moon: u32) -> u32 {
    let h = elongation(sun, moon) / 21_600;
    match h {
        0 => 11,
        1..=56 => ((h - 1) % 7) + 1,
        57 => 8,
        58 => 9,
        59 => 10,
        _ => unreachable!("a circle has 60 half tithis"),
    }
}
