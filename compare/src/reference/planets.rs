//! Paper 02, "L3. The five star planets": their true places, in whole seconds of arc.

use super::exact::{reduced, Fraction, CIRCLE};
use super::longitudes::{JUPITER, MARS, MERCURY_ANOMALY, SATURN, SUN, VENUS_ANOMALY};
use super::panchanga::quarter;

/// Numbers of true places, behind those of the nine mean ones (P1); the star planets' follow Mars'.
pub const TRUE_SUN: usize = 9;
pub const TRUE_MOON: usize = 10;
pub const TRUE_MARS: usize = 11;

/// The tables are "in tenths of a degree".
pub const TENTH: i128 = 360;

/// "At every 15°."
pub const STEP: i128 = 54_000;

const DEGREE: i128 = 3600;
const HALF_CIRCLE: i128 = CIRCLE / 2;

/// What paper 01's table of mean places has of a planet.
enum Given {
    /// The mean planet; its anomaly is "the mean Sun less the planet".
    Planet(usize),
    /// The planet's "own mean anomaly, with the mean Sun as mean planet".
    Anomaly(usize),
}

/// A planet's rows of the two tables.
pub struct Planet {
    pub name: &'static str,
    given: Given,
    pub sighra: [i128; 13],
    pub manda: [i128; 7],
    /// In degrees.
    pub apogee: i128,
}

/// "Mars to Saturn", in the paper's order.
pub const PLANETS: [Planet; 5] = [
    Planet {
        name: "Mars",
        given: Given::Planet(MARS),
        sighra: [0, 58, 117, 174, 228, 279, 325, 365, 393, 400, 368, 249, 0],
        manda: [0, 29, 57, 85, 109, 124, 130],
        apogee: 120,
    },
    Planet {
        name: "Mercury",
        given: Given::Anomaly(MERCURY_ANOMALY),
        sighra: [0, 41, 81, 117, 150, 178, 199, 212, 212, 195, 155, 89, 0],
        manda: [0, 12, 21, 28, 33, 35, 36],
        apogee: 210,
    },
    Planet {
        name: "Jupiter",
        given: Given::Planet(JUPITER),
        sighra: [0, 25, 47, 68, 85, 98, 106, 108, 102, 89, 66, 36, 0],
        manda: [0, 14, 27, 39, 48, 55, 57],
        apogee: 180,
    },
    Planet {
        name: "Venus",
        given: Given::Anomaly(VENUS_ANOMALY),
        sighra: [0, 63, 126, 186, 246, 302, 354, 402, 440, 461, 443, 326, 0],
        manda: [0, 6, 11, 13, 14, 15, 15],
        apogee: 90,
    },
    Planet {
        name: "Saturn",
        given: Given::Planet(SATURN),
        sighra: [0, 15, 28, 39, 48, 54, 57, 57, 53, 45, 33, 18, 0],
        manda: [0, 19, 40, 60, 77, 89, 93],
        apogee: 240,
    },
];

/// "Between entries the exact straight line, as a size rounded down to a second; the last entry
/// stands alone at its end." Each entry weighs as much as the anomaly is nearer to it than 15°, so
/// that the two on both sides of it share it, and an entry has it alone at its own place.
fn size(entries: &[i128], anomaly: i128) -> i128 {
    let end = STEP * (entries.len() as i128 - 1);
    assert!((0..=end).contains(&anomaly), "the anomaly is in the table");
    let weighed = (0..).zip(entries).map(|(place, entry)| {
        let away = (anomaly - STEP * place).abs();
        entry * (STEP - away).max(0)
    });
    Fraction::new(weighed.sum(), STEP).times(TENTH).floor()
}

/// "It is taken up to 180°, beyond that 360° less it."
fn half(anomaly: i128) -> i128 {
    if anomaly <= HALF_CIRCLE {
        anomaly
    } else {
        CIRCLE - anomaly
    }
}

/// "Both corrections are added for an anomaly up to 180° and subtracted beyond."
fn sign(anomaly: i128) -> i128 {
    if anomaly <= HALF_CIRCLE {
        1
    } else {
        -1
    }
}

/// "Places and anomalies are reduced by whole circles."
fn around(anomaly: i128) -> i128 {
    i128::from(reduced(anomaly))
}

/// What the steps give on a day. Corrections have their signs.
pub struct Steps {
    pub mean_planet: u32,
    pub half_sighra: i128,
    pub manda: i128,
    pub sighra: i128,
    pub place: u32,
}

impl Planet {
    pub fn sighra_size(&self, anomaly: i128) -> i128 {
        size(&self.sighra, half(anomaly))
    }

    /// "The manda anomaly comes to 0 to 90° as the Sun's does in document 01."
    pub fn manda_size(&self, anomaly: i128) -> i128 {
        size(&self.manda, quarter(anomaly))
    }

    /// The mean planet and the first śīghra anomaly.
    fn given(&self, mean: &[u32; 9]) -> (u32, i128) {
        match self.given {
            Given::Planet(body) => {
                let anomaly = i128::from(mean[SUN]) - i128::from(mean[body]);
                (mean[body], around(anomaly))
            }
            Given::Anomaly(body) => (mean[SUN], i128::from(mean[body])),
        }
    }

    /// "Half the śīghra size (rounded down) to the mean planet; the manda correction from the apogee
    /// less that place, applied to the mean planet; then the whole śīghra correction, from the first
    /// anomaly less the signed manda correction, applied to the place so corrected." Only what is
    /// handed on is reduced: whole circles in a place between fall out of the anomaly from it.
    pub fn steps(&self, mean: &[u32; 9]) -> Steps {
        let (mean_planet, first) = self.given(mean);
        let planet = i128::from(mean_planet);

        let halved = Fraction::new(self.sighra_size(first), 2).floor();
        let half_sighra = sign(first) * halved;

        let anomaly = around(self.apogee * DEGREE - (planet + half_sighra));
        let manda = sign(anomaly) * self.manda_size(anomaly);

        let second = around(first - manda);
        let sighra = sign(second) * self.sighra_size(second);
        Steps {
            mean_planet,
            half_sighra,
            manda,
            sighra,
            place: reduced(planet + manda + sighra),
        }
    }
}

/// "The true places of Mars to Saturn", from a day's nine mean places.
pub fn true_places(mean: &[u32; 9]) -> [u32; 5] {
    PLANETS.each_ref().map(|planet| planet.steps(mean).place)
}
