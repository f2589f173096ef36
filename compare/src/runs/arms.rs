//! Orders for the arms, over the host's calls, for mean places and for true ones: the nine bodies placed
//! and followed on all days of the table, floats compared bit for bit, refused days and bodies, and
//! orders carried out.

use crate::calls::*;
use crate::checks::Checks;
use crate::random::Random;
use crate::reference::almanac::Almanac;
use crate::reference::arms::{given, Arm, Degrees, Order};
use crate::reference::days::LAST_DAY;
use crate::reference::exact::short_way;
use crate::reference::float::{nearest, parts, SIGN};
use crate::reference::places::Places;
use crate::reference::refusal::{result_number, Answer, BAD_INPUT};

use super::{NO_DAYS, WIDTH_EDGES};

/// The three calls that give one order, with their names.
struct OrderCalls {
    result: (&'static str, extern "C" fn(u32, u32) -> u32),
    order: (&'static str, extern "C" fn(u32, u32) -> u32),
    float: (&'static str, extern "C" fn(u32, u32) -> f64),
}

/// The calls for some places.
struct Calls {
    places: Places,
    place: OrderCalls,
    follow: OrderCalls,
}

/// L13's.
const MEAN: Calls = Calls {
    places: Places::Mean,
    place: OrderCalls {
        result: ("graha_place_result", graha_place_result),
        order: ("graha_place_order", graha_place_order),
        float: ("graha_place_angle", graha_place_angle),
    },
    follow: OrderCalls {
        result: ("graha_follow_result", graha_follow_result),
        order: ("graha_follow_order", graha_follow_order),
        float: ("graha_follow_rate", graha_follow_rate),
    },
};

/// P2's.
const TRUE: Calls = Calls {
    places: Places::True,
    place: OrderCalls {
        result: ("graha_true_place_result", graha_true_place_result),
        order: ("graha_true_place_order", graha_true_place_order),
        float: ("graha_true_place_angle", graha_true_place_angle),
    },
    follow: OrderCalls {
        result: ("graha_true_follow_result", graha_true_follow_result),
        order: ("graha_true_follow_order", graha_true_follow_order),
        float: ("graha_true_follow_rate", graha_true_follow_rate),
    },
};

/// The call's number of an order.
fn number_of(order: Order) -> u32 {
    match order {
        Order::Hold => 0,
        Order::Go(_) => 1,
        Order::Run(_) => 2,
    }
}

/// The float of an order; 0.0 where it is to hold.
fn float_of(order: Order) -> u64 {
    match order {
        Order::Hold => 0,
        Order::Go(float) | Order::Run(float) => float,
    }
}

fn compare_float(
    checks: &mut Checks,
    call: &str,
    input: impl Fn() -> String,
    expected: u64,
    came: f64,
) {
    checks.same(call, &input, expected, came.to_bits());
    let number = came.is_finite() && came.to_bits() != SIGN;
    checks.same("a number, and not −0.0", input, true, number);
}

impl OrderCalls {
    fn compare(&self, checks: &mut Checks, day: u32, body: u32, expected: &Answer<Order>) {
        let input = || format!("day {day}, body {body}");
        let (name, call) = self.result;
        checks.same(name, input, result_number(expected), call(day, body));
        let (name, call) = self.order;
        let order = number_of(given(expected));
        checks.same(name, input, order, call(day, body));
        let (name, call) = self.float;
        let float = float_of(given(expected));
        compare_float(checks, name, input, float, call(day, body));
    }
}

/// The reference, and the calls that are compared with it.
struct Run<'a> {
    almanac: &'a Almanac,
    degrees: &'a Degrees,
    calls: &'a Calls,
}

impl Run<'_> {
    /// Both orders; and on each day, for one body, an arm that carries out the one and then the other.
    fn compare(&self, checks: &mut Checks, day: u32, body: u32) {
        let Run {
            almanac,
            degrees,
            calls,
        } = self;
        let place = degrees.place(almanac, calls.places, day, body);
        calls.place.compare(checks, day, body, &place);
        let follow = degrees.follow(almanac, calls.places, day, body);
        calls.follow.compare(checks, day, body, &follow);
        if day % 9 == body {
            let input = || format!("day {day}, body {body}");
            driven(checks, input, &[given(&place), given(&follow)]);
        }
    }

    fn every_day(&self, checks: &mut Checks) {
        for day in 0..=LAST_DAY {
            for body in 0..9 {
                self.compare(checks, day, body);
            }
        }
    }

    /// Numbers that are no days, bodies above 8, and both together, where 2 comes first.
    fn refused(&self, checks: &mut Checks) {
        let mut random = Random::from_seed();
        let mut compare = |day, body| self.compare(checks, day, body);
        let drawn: Vec<u32> = (0..2000).map(|_| random.number()).collect();
        let behind = LAST_DAY + 1..=LAST_DAY + 1000;
        for day in behind.chain(NO_DAYS).chain(WIDTH_EDGES).chain(drawn) {
            for body in (0..=12).chain(WIDTH_EDGES) {
                compare(day, body);
            }
        }
        let edges = [0, 1, 4015, 4016, LAST_DAY - 1, LAST_DAY];
        let drawn: Vec<u32> = (0..2000).map(|_| random.below(LAST_DAY + 1)).collect();
        for day in edges.into_iter().chain(drawn) {
            for body in (0..=40).chain(WIDTH_EDGES).chain([random.number()]) {
                compare(day, body);
            }
        }
        for _ in 0..20_000 {
            compare(random.number(), random.number());
        }
    }
}

/// The arm as the host's calls have it after an order, its angle and its rate.
fn carried_out(arm: [u64; 2], order: u32, value: u64) -> (u32, [u64; 2]) {
    let [angle, rate] = arm.map(f64::from_bits);
    let value = f64::from_bits(value);
    let result = graha_carry_out_result(angle, rate, order, value);
    let angle_after = graha_carry_out_angle(angle, rate, order, value);
    let rate_after = graha_carry_out_rate(angle, rate, order, value);
    (result, [angle_after.to_bits(), rate_after.to_bits()])
}

/// An arm that carries out one order after the other.
fn driven(checks: &mut Checks, input: impl Fn() -> String, orders: &[Order]) {
    let mut arm = Arm {
        angle: nearest(7, 4),
        rate: nearest(-1, 2),
    };
    for order in orders {
        let state = [arm.angle, arm.rate];
        let came = carried_out(state, number_of(*order), float_of(*order));
        arm = arm.after(*order);
        checks.same("graha_carry_out", &input, (0, [arm.angle, arm.rate]), came);
    }
}

/// States and values of every kind of float, and any bits: each order's, and numbers that are no order's.
fn carried(checks: &mut Checks) {
    const KINDS: [u64; 10] = [
        0,
        SIGN,
        1,
        0x000F_FFFF_FFFF_FFFF,
        0x3FF0_0000_0000_0000,
        0xC076_8000_0000_0000,
        0x7FEF_FFFF_FFFF_FFFF,
        0x7FF0_0000_0000_0000,
        0xFFF0_0000_0000_0000,
        0x7FF8_0000_0000_0001,
    ];
    let mut random = Random::from_seed();
    let mut drawn = || u64::from(random.number()) << 32 | u64::from(random.number());
    let any: Vec<u64> = (0..30)
        .map(|_| drawn())
        .filter(|bits| bits >> 52 & 0x7FF != 0x7FF)
        .collect();
    let floats = [&KINDS[..], &any].concat();
    for angle in &floats {
        for rate in &floats {
            for value in &floats {
                for number in (0..=4).chain([256, u32::MAX]) {
                    let arm = Arm {
                        angle: *angle,
                        rate: *rate,
                    };
                    let expected = match number {
                        0 => (0, arm.after(Order::Hold)),
                        1 => (0, arm.after(Order::Go(*value))),
                        2 => (0, arm.after(Order::Run(*value))),
                        _ => (BAD_INPUT, Arm { angle: 0, rate: 0 }),
                    };
                    let input = || format!("{angle:x}, {rate:x}, order {number}, {value:x}");
                    let came = carried_out([*angle, *rate], number, *value);
                    let expected = (expected.0, [expected.1.angle, expected.1.rate]);
                    checks.same("graha_carry_out", input, expected, came);
                }
            }
        }
    }
}

/// Fractions whose nearest floats are known: whole numbers, ties and what is just beside them, a carry
/// over all bits, and some of a third.
fn known_floats(checks: &mut Checks) {
    let cases = [
        ((0, 3600), 0),
        ((1, 1), 0x3FF0_0000_0000_0000),
        ((-1, 1), 0xBFF0_0000_0000_0000),
        ((3600, 3600), 0x3FF0_0000_0000_0000),
        ((1, 2), 0x3FE0_0000_0000_0000),
        ((-5, 2), 0xC004_0000_0000_0000),
        ((359, 1), 0x4076_7000_0000_0000),
        ((1, 3), 0x3FD5_5555_5555_5555),
        ((2, 3), 0x3FE5_5555_5555_5555),
        ((1, 10), 0x3FB9_9999_9999_999A),
        // 2^53 − 1 is whole; 2^53 + 1 and + 3 lie in the middle between two floats.
        (((1 << 53) - 1, 1), 0x433F_FFFF_FFFF_FFFF),
        (((1 << 53) + 1, 1), 0x4340_0000_0000_0000),
        (((1 << 53) + 3, 1), 0x4340_0000_0000_0002),
        ((-(1 << 53) - 1, 1), 0xC340_0000_0000_0000),
        (((1 << 54) + 1, 2), 0x4340_0000_0000_0000),
        (((1 << 54) + 3, 2), 0x4340_0000_0000_0001),
        (((1 << 54) + 7, 4), 0x4330_0000_0000_0002),
        (((1 << 54) - 1, 1), 0x4350_0000_0000_0000),
        (((1 << 54) - 1, 4), 0x4330_0000_0000_0000),
    ];
    for ((over, under), expected) in cases {
        let input = || format!("{over} / {under}");
        checks.same("the nearest float", input, expected, nearest(over, under));
    }
}

/// What L13 says of an angle, for every second of a circle: "at least 0 and below 360, and exact
/// whenever the seconds are a multiple of 225"; and that no float is nearer, since it is at most half a
/// unit of its last bit away.
fn quotients(checks: &mut Checks, degrees: &Degrees) {
    checks.same("the angle", || "0 seconds".to_string(), 0, degrees.angle(0));
    for seconds in 1..1_296_000 {
        let input = || format!("{seconds} seconds");
        let (whole, exponent) = parts(degrees.angle(seconds));
        // The angle is whole / 2^down, and as a size in seconds it is had / 2^down.
        let down = exponent
            .checked_neg()
            .and_then(|down| u32::try_from(down).ok());
        let unit = 1 << down.expect("a float below 360 has bits behind the point");
        let (asked, had) = (u128::from(seconds) * unit, whole * 3600);
        let apart = asked.abs_diff(had);
        checks.same("no float is nearer", input, true, 2 * apart <= 3600);
        checks.same("below 360", input, true, whole < 360 * unit);
        if seconds % 225 == 0 {
            checks.same("exact", input, 0, apart);
        }
    }
}

/// "The signed short way [...], half a circle counting as backwards."
fn ways(checks: &mut Checks) {
    for (from, to, expected) in [
        (0, 0, 0),
        (0, 1, 1),
        (1, 0, -1),
        (0, 647_999, 647_999),
        (0, 648_000, -648_000),
        (648_000, 0, -648_000),
        (0, 648_001, -647_999),
        (0, 1_295_999, -1),
        (1_295_999, 0, 1),
        (1_295_000, 2000, 3000),
        (2000, 1_295_000, -3000),
    ] {
        let input = || format!("from {from} to {to}");
        checks.same("the short way", input, expected, short_way(from, to));
    }
}

pub fn run(checks: &mut Checks, almanac: &Almanac) {
    let degrees = Degrees::of_circle();
    known_floats(checks);
    quotients(checks, &degrees);
    ways(checks);
    carried(checks);
    for calls in [&MEAN, &TRUE] {
        let run = Run {
            almanac,
            degrees: &degrees,
            calls,
        };
        run.every_day(checks);
        run.refused(checks);
    }
}
