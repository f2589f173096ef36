//! 64-bit floats by their bits, made and read with whole numbers alone: a sign, eleven bits of exponent
//! and 52 of fraction (IEEE 754, binary64).

/// A float's whole part has 53 bits, of which the first is a 1 that isn't written.
const HIDDEN: u128 = 1 << 52;

/// What is added to an exponent so that it is written without a sign.
const BIAS: i32 = 1023;

pub const SIGN: u64 = 1 << 63;

/// The float nearest to a fraction, and of two that are equally near the one whose last bit is 0. Zero
/// has no sign.
pub fn nearest(over: i128, under: u128) -> u64 {
    if over == 0 {
        return 0;
    }
    let sign = if over < 0 { SIGN } else { 0 };
    // over / under = above / below × 2^exponent, with above / below from 2^52 up to, and without, 2^53
    let (mut above, mut below, mut exponent) = (over.unsigned_abs(), under, 0);
    while above < below * HIDDEN {
        above *= 2;
        exponent -= 1;
    }
    while above >= below * 2 * HIDDEN {
        below *= 2;
        exponent += 1;
    }
    let mut whole = above / below;
    let twice_left = 2 * (above % below);
    if twice_left > below || twice_left == below && whole % 2 == 1 {
        whole += 1;
    }
    if whole == 2 * HIDDEN {
        (whole, exponent) = (HIDDEN, exponent + 1);
    }
    let written = exponent + 52 + BIAS;
    assert!(written > 0 && written < 2047, "a float of the usual kind");
    sign | (written as u64) << 52 | (whole - HIDDEN) as u64
}

/// The whole part of a float above 0 of the usual kind, and its exponent: it is the one × 2 to the
/// other.
pub fn parts(float: u64) -> (u128, i32) {
    let written = (float >> 52) as i32;
    assert!(written > 0 && written < 2047, "a float of the usual kind");
    let fraction = u128::from(float % (1 << 52));
    (HIDDEN + fraction, written - BIAS - 52)
}
