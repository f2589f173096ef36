//! True places once more, another way than `panchanga` and `planets` go, so that the reference can be
//! held to it: the mean places are those that `motions` adds up; an equation is reckoned in degrees, as
//! document 002 writes it; and a planet's rows are laid around the whole circle, each entry with its
//! sign, so that neither quarters nor halves are told apart and a quotient that is cut off towards 0 is
//! the correction.

use super::exact::{reduced, Fraction, CIRCLE};
use super::longitudes::{MARS, MERCURY_ANOMALY, MOON, MOON_APOGEE, SUN, VENUS_ANOMALY};
use super::motions::{added_up, Exact};
use super::planets::{Planet, PLANETS, STEP, TENTH};

const DEGREE: i128 = 3600;
const HALF_CIRCLE: i128 = 180 * DEGREE;

/// "The Sun's apogee is fixed at 280800."
const SUN_APOGEE: i128 = 78 * DEGREE;

/// Document 002's numbers in the "mandaphala" of the Sun and of the Moon.
const SUN_RULE: [i128; 3] = [9, 57, 9];
const MOON_RULE: [i128; 3] = [6, 56, 20];

/// For the Sun (20 − m/9) × m/9 / (57 − (20 − m/9) × m/9 / 9) degrees, m being the anomaly in degrees.
/// 20 is a ninth of 180, so that beyond 90° the product falls again as it has risen.
fn equation([part, from, divisor]: [i128; 3], anomaly: i128) -> i128 {
    let turned = (anomaly + HALF_CIRCLE).rem_euclid(CIRCLE) - HALF_CIRCLE;
    let of_anomaly = Fraction::new(turned.abs(), DEGREE * part);
    let rest = Fraction::whole(180 / part).minus(of_anomaly);
    let product = rest.product(of_anomaly);
    let less = product.quotient(Fraction::whole(divisor));
    let degrees = product.quotient(Fraction::whole(from).minus(less));
    turned.signum() * degrees.times(DEGREE).floor()
}

/// The entries at each 15° of the circle, from 0 to 360°, with their signs.
struct Row(Vec<i128>);

impl Row {
    /// Of the entries from 0 to 180°: beyond, the correction is subtracted.
    fn around(half: &[i128]) -> Row {
        let beyond = half.iter().rev().skip(1).map(|entry| -entry);
        Row(half.iter().copied().chain(beyond).collect())
    }

    /// Of the entries from 0 to 90°: up to 180° the correction falls again as it has risen.
    fn mirrored(quarter: &[i128]) -> Row {
        let falling = quarter.iter().rev().skip(1);
        let half: Vec<i128> = quarter.iter().chain(falling).copied().collect();
        Row::around(&half)
    }

    fn correction(&self, anomaly: i128) -> i128 {
        let anomaly = anomaly.rem_euclid(CIRCLE);
        let (at, past) = ((anomaly / STEP) as usize, anomaly % STEP);
        let line = self.0[at] * (STEP - past) + self.0[at + 1] * past;
        line * TENTH / STEP
    }
}

/// A planet's two rows, and its apogee.
struct Rows {
    sighra: Row,
    manda: Row,
    apogee: i128,
}

impl Rows {
    fn of(planet: &Planet) -> Rows {
        Rows {
            sighra: Row::around(&planet.sighra),
            manda: Row::mirrored(&planet.manda),
            apogee: planet.apogee * DEGREE,
        }
    }

    /// By document 002's three corrections: half the śīghra one, the manda one, and the full śīghra one.
    fn place(&self, mean_planet: i128, first: i128) -> u32 {
        let half = self.sighra.correction(first) / 2;
        let manda = self.manda.correction(self.apogee - mean_planet - half);
        let full = self.sighra.correction(first - manda);
        reduced(mean_planet + manda + full)
    }
}

/// The nine places that P2's arms show, from a day's nine mean ones.
fn shown(rows: &[Rows; 5], mean: [i128; 9]) -> [u32; 9] {
    let (sun, moon) = (mean[SUN], mean[MOON]);
    let mut shown = mean.map(reduced);
    shown[SUN] = reduced(sun + equation(SUN_RULE, SUN_APOGEE - sun));
    shown[MOON] = reduced(moon + equation(MOON_RULE, mean[MOON_APOGEE] - moon));
    for (body, rows) in (MARS..).zip(rows) {
        let own = mean[body];
        shown[body] = match body {
            MERCURY_ANOMALY | VENUS_ANOMALY => rows.place(sun, own),
            _ => rows.place(own, sun - own),
        };
    }
    shown
}

/// They of each day of the table.
pub fn once_more() -> impl Iterator<Item = [u32; 9]> {
    let rows = PLANETS.each_ref().map(Rows::of);
    let whole = |exact: Exact| exact.place.div_euclid(exact.divisor);
    added_up().map(move |places| shown(&rows, places.map(whole)))
}
