//! Drawn runs turned into lengths, each rounded up to a whole sixteenth:
//! refusals 13, 14, 15 and 17.
//!
//! A length is taken apart into a whole number times a power of two, and the
//! question is settled by whole-number division. [`sixteenths_by_doubling`]
//! answers it again by doubling the length four times, which is exact.

use crate::net::{Refusal, MOST_LENGTH};

/// A run as it is drawn, in millimetres.
#[derive(Clone, Copy, Debug, PartialEq)]
pub enum Run {
    /// A straight run with one length.
    Straight(f64),
    /// A corner with two legs.
    Corner(f64, f64),
}

/// A positive finite number as `whole` × 2^`power`.
fn taken_apart(length: f64) -> (u128, i32) {
    let bits = length.to_bits();
    let fraction = u128::from(bits % (1 << 52));
    let exponent = i32::try_from(bits >> 52).expect("positive, so the sign is clear");
    match exponent {
        0 => (fraction, -1_074),
        _ => (fraction + (1 << 52), exponent - 1_075),
    }
}

/// 16 times one length, rounded up, or its refusal with this place.
pub fn sixteenths(length: f64, place: usize) -> Result<u32, Refusal> {
    if !length.is_finite() {
        return Err(Refusal::new(13, place));
    }
    if length == 0.0 {
        return Err(Refusal::new(15, place));
    }
    if length.is_sign_negative() {
        return Err(Refusal::new(14, place));
    }
    // 16 × length = whole × 2^power, where 1 <= whole < 2^53.
    let (whole, power) = taken_apart(length);
    let power = power + 4;
    let result = if power >= 0 {
        // From 2^21 on the answer is above the limit, whatever `whole` is.
        whole << power.min(21)
    } else {
        // From 2^53 on the divisor is above `whole`, so the answer is 1.
        whole.div_ceil(1 << power.unsigned_abs().min(53))
    };
    match u32::try_from(result) {
        Ok(result) if result <= MOST_LENGTH => Ok(result),
        _ => Err(Refusal::new(17, place)),
    }
}

/// The same as [`sixteenths`], by doubling four times: doubling a binary
/// number is exact, unless it passes the largest one, and so is rounding it up.
pub fn sixteenths_by_doubling(length: f64, place: usize) -> Result<u32, Refusal> {
    let number = if length.is_nan() || length == f64::INFINITY || length == f64::NEG_INFINITY {
        13
    } else if length < 0.0 {
        14
    } else if length == 0.0 {
        15
    } else {
        let mut doubled = length;
        for _ in 0..4 {
            doubled += doubled;
        }
        let rounded = doubled.ceil();
        if rounded > f64::from(MOST_LENGTH) {
            17
        } else {
            return Ok(rounded as u32);
        }
    };
    Err(Refusal::new(number, place))
}

/// The length of a drawn run, in sixteenths of a millimetre: each leg is rounded
/// by itself, and then they are added.
pub fn drawn_length(run: Run) -> Result<u32, Refusal> {
    match run {
        Run::Straight(length) => sixteenths(length, 0),
        Run::Corner(first, second) => {
            let first = sixteenths(first, 0)?;
            let second = sixteenths(second, 1)?;
            let sum = first + second;
            if sum > MOST_LENGTH {
                return Err(Refusal::new(17, 2));
            }
            Ok(sum)
        }
    }
}
