//! Numbers where a line of page 01 runs.

use super::rng::Rng;

/// Where E and L stand close to a line.
const ANCHORS: [u64; 13] = [
    0,
    64,
    128,
    192,
    256,
    32_768,
    40_000,
    65_536,
    98_304,
    131_072,
    1 << 32,
    1 << 63,
    u64::MAX,
];

/// How far from E the windows, their words and the half turns end.
const ENDS: [i64; 7] = [0, 64, 128, 192, 256, 32_768, 65_536];

/// A number close to an anchor, on the circle of 64-bit numbers.
pub fn edge(rng: &mut Rng) -> u64 {
    if rng.one_in(12) {
        return rng.word() >> rng.below(64);
    }
    let anchor = rng.pick(&ANCHORS);
    anchor.wrapping_add_signed(small_step(rng))
}

/// A number close to E, as a sender or a forger might use next where the
/// window has this width.
pub fn near(rng: &mut Rng, next: u64, width: u16) -> u64 {
    let around = i64::from(width) + 6;
    let step = match rng.below(8) {
        0..=2 => rng.between(0, 3),
        3..=5 => rng.between(-around, around),
        6 => rng.pick(&ENDS) * rng.pick(&[-1, 1]) + rng.between(-2, 2),
        _ => rng.between(-70_000, 70_000),
    };
    next.wrapping_add_signed(step)
}

/// A record limit that Open takes.
pub fn limit(rng: &mut Rng) -> u64 {
    match rng.below(4) {
        0 => u64::MAX,
        1 => rng.pick(&[
            1, 2, 3, 63, 64, 65, 66, 100, 150, 256, 65_535, 65_536, 65_537,
        ]),
        _ => edge(rng).max(1),
    }
}

/// A step that stays about one word wide.
pub(super) fn small_step(rng: &mut Rng) -> i64 {
    if rng.one_in(2) {
        rng.pick(&[-66, -65, -64, -63, -2, -1, 0, 1, 2, 63, 64, 65, 66])
    } else {
        rng.between(-70, 70)
    }
}
