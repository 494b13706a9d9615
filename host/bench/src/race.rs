//! The clock: two ways of doing the same, timed in turn.
use std::time::{Duration, Instant};

/// How often each way is timed. The least counts: what else the machine does only adds time.
const ROUNDS: usize = 7;
/// How long one timing lasts at least, so that reading the clock is nothing beside it.
const LEAST: Duration = Duration::from_millis(40);

/// Times `ours` and `peer`, which make `calls` calls each and answer how many went well, and prints
/// the least nanoseconds of a call and their ratio.
pub fn race(name: &str, calls: usize, mut ours: impl FnMut() -> usize, mut peer: impl FnMut() -> usize) {
    // The two must have done the same work, or the ratio means nothing.
    assert_eq!(ours(), peer(), "{name}: the two do not take the same records");
    let (our_passes, peer_passes) = (passes(&mut ours), passes(&mut peer));
    let (mut our_best, mut peer_best) = (f64::MAX, f64::MAX);
    for _ in 0..ROUNDS {
        our_best = our_best.min(time(our_passes, &mut ours) / (our_passes * calls) as f64);
        peer_best = peer_best.min(time(peer_passes, &mut peer) / (peer_passes * calls) as f64);
    }
    println!("{name:<54} {our_best:>9.2} {peer_best:>9.2} {:>7.3}", our_best / peer_best);
}

/// How many passes take the least time of a round.
fn passes(work: &mut impl FnMut() -> usize) -> usize {
    let mut passes = 1;
    while time(passes, work) < LEAST.as_nanos() as f64 {
        passes *= 2;
    }
    passes
}

/// Nanoseconds of so many passes.
fn time(passes: usize, work: &mut impl FnMut() -> usize) -> f64 {
    let start = Instant::now();
    for _ in 0..passes {
        std::hint::black_box(work());
    }
    start.elapsed().as_nanos() as f64
}
