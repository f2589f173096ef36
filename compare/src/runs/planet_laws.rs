//! What paper 02's L3 and document 002 say of the star planets, held against the second program
//! alone, and days reckoned apart from both programs.

use crate::checks::Checks;
use crate::reference::almanac::Almanac;
use crate::reference::exact::{short_way, Fraction, CIRCLE};
use crate::reference::planets::{Planet, Steps, PLANETS, STEP, TENTH};

const HALF_CIRCLE: i128 = 648_000;

/// One of the two sizes: its row, itself, and the anomalies of a circle that come to one in the row.
type Size = (
    &'static str,
    fn(&Planet) -> &[i128],
    fn(&Planet, i128) -> i128,
    fn(i128) -> Vec<i128>,
);

const SIZES: [Size; 2] = [
    (
        "the śīghra size",
        |planet| &planet.sighra,
        Planet::sighra_size,
        |anomaly| vec![anomaly, (CIRCLE - anomaly) % CIRCLE],
    ),
    (
        "the manda size",
        |planet| &planet.manda,
        Planet::manda_size,
        |anomaly| {
            let other = (CIRCLE - anomaly) % CIRCLE;
            vec![anomaly, HALF_CIRCLE - anomaly, HALF_CIRCLE + anomaly, other]
        },
    ),
];

/// The largest entry, in seconds.
fn largest(entries: &[i128]) -> i128 {
    let largest = entries.iter().max().expect("a row has entries");
    largest * TENTH
}

/// The line from the entry before, another way than the reference goes: where the entries fall, each
/// second that is begun comes off, since the size is what is rounded down.
fn from_entry(entries: &[i128], anomaly: i128) -> i128 {
    let (at, past) = ((anomaly / STEP) as usize, anomaly % STEP);
    let entry = entries[at];
    let next = entries.get(at + 1).copied().unwrap_or(entry);
    let way = Fraction::new((next - entry).abs() * past, STEP).times(TENTH);
    if next < entry {
        entry * TENTH - way.ceiling()
    } else {
        entry * TENTH + way.floor()
    }
}

/// Each size at each second of a circle: the line, the entries upon it, and "each correction stays
/// within its table's largest entry".
fn sizes(checks: &mut Checks) {
    for planet in &PLANETS {
        for (name, row, size, alike) in SIZES {
            let entries = row(planet);
            for (at, entry) in (0..).zip(entries) {
                let input = || format!("{}, entry {at}", planet.name);
                let came = size(planet, STEP * at);
                checks.same(name, input, entry * TENTH, came);
            }
            let end = STEP * (entries.len() as i128 - 1);
            for anomaly in 0..=end {
                let expected = from_entry(entries, anomaly);
                for anomaly in alike(anomaly) {
                    let input = || format!("{}, anomaly {anomaly}", planet.name);
                    let came = size(planet, anomaly);
                    checks.same(name, input, expected, came);
                    let within = (0..=largest(entries)).contains(&came);
                    checks.same("within the largest entry", input, true, within);
                }
            }
        }
    }
}

/// Document 002, "Maximum Śīghraphala": its anomalies in degrees, and itself in degrees and minutes;
/// but that Saturn's lasts to its entry at 105°, where the document has 104°. And "the maximum
/// mandaphala" is "attained at 90°".
fn maxima(checks: &mut Checks) {
    let table = [
        ([135, 135], [40, 0]),
        ([105, 120], [21, 12]),
        ([105, 105], [10, 48]),
        ([135, 135], [46, 6]),
        ([90, 105], [5, 42]),
    ];
    for (planet, (degrees, [whole, minutes])) in PLANETS.iter().zip(table) {
        let input = || planet.name.to_string();
        let size = |anomaly: &i128| planet.sighra_size(*anomaly);
        let greatest = (0..=HALF_CIRCLE).map(|anomaly| size(&anomaly)).max();
        let expected = Some((60 * whole + minutes) * 60);
        checks.same("the largest śīghra size", input, expected, greatest);
        let reached = |anomaly: &i128| Some(size(anomaly)) == greatest;
        let ends = [
            (0..=HALF_CIRCLE).find(reached),
            (0..=HALF_CIRCLE).rev().find(reached),
        ];
        let expected = degrees.map(|degree| Some(3600 * degree));
        checks.same("where it is reached", input, expected, ends);
        let at_end = planet.manda_size(HALF_CIRCLE / 2);
        let expected = largest(&planet.manda);
        checks.same("the largest manda size", input, expected, at_end);
    }
}

/// On all days: "each correction stays within its table's largest entry", the half one within half of
/// it; true places are below a circle, and as far from the mean planet as manda and whole śīghra
/// correction say together.
fn every_day(checks: &mut Checks, almanac: &Almanac) {
    for (number, day) in almanac.days().iter().enumerate() {
        for (planet, place) in PLANETS.iter().zip(day.planets) {
            let input = || format!("{}, day {number}", planet.name);
            let Steps {
                mean_planet,
                half_sighra,
                manda,
                sighra,
                place: came,
            } = planet.steps(&day.mean);
            checks.same("the day's place", input, place, came);
            let (most_sighra, most_manda) = (largest(&planet.sighra), largest(&planet.manda));
            let within = 2 * half_sighra.abs() <= most_sighra;
            checks.same("the half śīghra correction", input, true, within);
            let within = manda.abs() <= most_manda;
            checks.same("the manda correction", input, true, within);
            let within = sighra.abs() <= most_sighra;
            checks.same("the whole śīghra correction", input, true, within);
            checks.at_most("the true place", input, CIRCLE as u32 - 1, place);
            let way = i128::from(short_way(mean_planet, place));
            checks.same("from the mean planet", input, manda + sighra, way);
        }
    }
}

/// Days reckoned apart from both programs: by fractions of a degree in a small Python program,
/// which took the tables out of the papers' text. The whole śīghra correction has another sign than
/// the half one for Jupiter on day 44, Venus on 209, Mars on 298; the manda correction another than
/// from the mean planet for Mars on 330, Jupiter on 1778. The place passes 0 by the śīghra
/// correction for Venus on 11, backwards, and Mercury on 735; by the manda correction, and back by
/// the śīghra one, for Mercury on 377, Mars on 1458, Saturn on 2282. It is the first of the circle
/// for Venus on 59589, the last for Jupiter on 45134. The first anomaly is just 180° for Mars on
/// 61912, Jupiter on 185131, and 0 for Venus on 378589; the second 180° for Mars on 124300, Mercury
/// on 94179, and a second more for Venus on 313483; the manda anomaly 0 for Jupiter on 155518 and
/// 90° on 379848, 180° for Mars on 35721, 270° for Saturn on 87464 and Mars on 105644.
fn reckoned_apart(checks: &mut Checks, almanac: &Almanac) {
    let cases = [
        (0, [1171594, 1177780, 781486, 1099768, 1023317]),
        (11, [1202083, 1240081, 779148, 1142449, 1025477]),
        (44, [1292797, 164114, 765514, 1276557, 1028832]),
        (209, [377022, 673945, 795320, 699810, 1008469]),
        (298, [402238, 1083720, 862943, 1101953, 1035834]),
        (330, [366104, 1057169, 881115, 1243775, 1049186]),
        (377, [378654, 5, 894012, 150047, 1063672]),
        (735, [1241900, 4562, 1001371, 1223045, 1100339]),
        (1458, [1278628, 19847, 1201308, 28219, 1177264]),
        (1778, [655455, 1109763, 1265055, 936135, 1197992]),
        (2282, [270713, 341424, 183227, 167015, 159]),
        (4015, [1010610, 4800, 681804, 1221002, 194160]),
        (4016, [1013077, 5454, 681418, 1221300, 194457]),
        (33649, [1209363, 169438, 439788, 260144, 1176149]),
        (35721, [1059423, 990423, 1052814, 896734, 113965]),
        (45134, [680102, 770056, 1295999, 659226, 1236354]),
        (59589, [615013, 144245, 425040, 0, 430775]),
        (61912, [54675, 631622, 1097712, 451516, 716048]),
        (87464, [358480, 543129, 950575, 694337, 1149598]),
        (94179, [1169022, 1041114, 450416, 1016025, 742159]),
        (105644, [630279, 325023, 1087, 131050, 784479]),
        (124300, [1008344, 428559, 378803, 323017, 457537]),
        (155518, [333006, 903848, 667175, 953398, 322521]),
        (175229, [1098507, 889947, 10407, 783277, 54720]),
        (185131, [450395, 1114088, 437449, 912551, 1237682]),
        (313483, [263152, 303889, 1259286, 287301, 1168719]),
        (378589, [1179869, 571640, 1258762, 601700, 1208400]),
        (379848, [1058491, 1100334, 328868, 1270337, 67948]),
        (401599, [555726, 650762, 417658, 755207, 132910]),
    ];
    for (number, places) in cases {
        let input = || format!("day {number}");
        let came = almanac.day(number).map(|day| day.planets);
        checks.same("the five true places", input, Ok(places), came);
    }
}

pub fn run(checks: &mut Checks, almanac: &Almanac) {
    sizes(checks);
    maxima(checks);
    every_day(checks, almanac);
    reckoned_apart(checks, almanac);
}
