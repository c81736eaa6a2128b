//! Drawn runs: random bit patterns, and lengths near every border.

use reference::net::MOST_LENGTH;
use reference::Run;

use crate::random::Random;

/// The next number above or below, by the bits.
fn beside(length: f64, up: bool) -> f64 {
    let bits = length.to_bits();
    f64::from_bits(if up {
        bits.wrapping_add(1)
    } else {
        bits.wrapping_sub(1)
    })
}

/// Lengths at the borders of every refusal and of rounding, always the same:
/// each with its neighbours by the bits, and with the other sign.
pub fn borders() -> Vec<f64> {
    let most = f64::from(MOST_LENGTH) / 16.0;
    let mut middles = vec![
        0.0,
        f64::from_bits(1),
        f64::from_bits((1 << 52) - 1),
        f64::MIN_POSITIVE,
        f64::MAX,
        f64::INFINITY,
        f64::NAN,
        f64::from_bits(0x7ff8_0000_0000_0001),
        f64::from_bits(0x7fff_ffff_ffff_ffff),
        12.5,
        0.1,
        0.2,
        0.3,
        0.065,
        100.1,
        most,
        most + 0.0625,
        most + 0.031_25,
        65_535.9,
        65_535.95,
        65_536.0,
        65_536.062_5,
        131_071.937_5,
        // Multiples of 1/16 where the significand is full, and beyond.
        2_f64.powi(48) - 0.0625,
        2_f64.powi(49) - 0.0625,
        2_f64.powi(50) - 0.125,
    ];
    // Multiples of 1/32, from the least and down from the longest.
    let halves = || (0..64).map(|half| f64::from(half) / 32.0);
    middles.extend(halves());
    middles.extend(halves().map(|below| most - below));
    // Every power of two that there is.
    middles.extend((0..2_047).map(|exponent| f64::from_bits(exponent << 52)));
    middles.extend((0..52).map(|place| f64::from_bits(1 << place)));
    middles
        .iter()
        .flat_map(|&length| [length, beside(length, true), beside(length, false)])
        .flat_map(|length| [length, -length])
        .collect()
}

/// Lengths that are rare among random bits.
const RARE: [f64; 8] = [
    0.0,
    0.0,
    f64::INFINITY,
    f64::NAN,
    f64::MAX,
    f64::MIN_POSITIVE,
    // The least subnormal and the greatest.
    f64::from_bits(1),
    f64::from_bits((1 << 52) - 1),
];

/// One drawn length.
pub fn any_length(random: &mut Random) -> f64 {
    let sixteenths = f64::from(random.from_to(1, MOST_LENGTH));
    match random.below(14) {
        10 => random.pick(&RARE) * random.pick(&[1.0, -1.0]),
        // Decimals, as a drawing has them.
        11 => f64::from(random.from_to(1, 655_370)) / 10.0,
        12 => f64::from(random.from_to(1, 100_000)) / 1_000.0,
        // A subnormal.
        13 => f64::from_bits(random.bits() >> 12),
        0 => f64::from_bits(random.bits()),
        1..=2 => sixteenths / 16.0,
        3..=4 => beside(sixteenths / 16.0, random.chance(1, 2)),
        5 => sixteenths / f64::from(1_u32 << random.below(12)),
        6 => -sixteenths / 16.0,
        // An exponent where it matters, and any number of trailing zeros.
        7 | 8 => {
            let exponent = u64::from(random.from_to(1_010, 1_050));
            let zeros = random.below(53);
            let fraction = random.bits() >> 12 >> zeros << zeros;
            f64::from_bits(exponent << 52 | fraction)
        }
        _ => {
            let near = f64::from(random.from_to(MOST_LENGTH - 4, MOST_LENGTH + 4)) / 16.0;
            random.pick(&[near, beside(near, true), beside(near, false)])
        }
    }
}

/// A drawn run.
pub fn any_run(random: &mut Random) -> Run {
    match random.below(4) {
        0 => Run::Straight(any_length(random)),
        1 => Run::Corner(any_length(random), any_length(random)),
        // Two good legs that come near to the limit together, whole or a little
        // less, so that they are rounded up to it.
        2 => {
            let first = random.from_to(1, MOST_LENGTH - 4);
            let second = MOST_LENGTH - first + 3 - random.below(7);
            let [first, second] = [first, second].map(|sixteenths| {
                let less = random.pick(&[0.0, 0.0, 0.3, 0.9]);
                (f64::from(sixteenths) - less) / 16.0
            });
            Run::Corner(first, second)
        }
        _ => {
            let good = f64::from(random.from_to(1, 1_000)) / 16.0;
            let other = any_length(random);
            if random.chance(1, 2) {
                Run::Corner(good, other)
            } else {
                Run::Corner(other, good)
            }
        }
    }
}
