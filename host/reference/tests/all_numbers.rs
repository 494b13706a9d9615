//! Number reconstruction against the sentence itself: every one of the 65536
//! whole numbers around E, for many E.

use reference::random::{edge, Rng};
use reference::{fast, memory};

/// Walks E - 32768 to E + 32767, so that each low value comes once.
fn walk(next: u64) {
    let mut met = vec![false; 65_536];
    for step in -32_768..=32_767_i128 {
        let whole = i128::from(next) + step;
        let low = whole.rem_euclid(65_536) as u16;
        assert!(!met[usize::from(low)], "exactly one has these bits");
        met[usize::from(low)] = true;
        let number = if whole < 0 { whole + 65_536 } else { whole };
        assert_eq!(memory::number_of(next, low), number, "E {next}, low {low}");
        let fits = u64::try_from(number).ok();
        assert_eq!(fast::number_of(next, low), fits, "E {next}, low {low}");
    }
}

#[test]
fn all_low_bits_around_many_e() {
    for next in [0, 1, 2, 63, 64, 65, 32_767, 32_768, 32_769, 40_000] {
        walk(next);
    }
    for next in [65_535, 65_536, 65_537, 98_304, u64::MAX - 1, u64::MAX] {
        walk(next);
    }
    let mut rng = Rng::new(1);
    for _ in 0..100 {
        walk(edge(&mut rng));
    }
}
