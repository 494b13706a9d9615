//! `bench`: one line a figure, `name ours-ns peer-ns ratio`. See docs/PERFORMANCE.md.
mod building;
mod opening;
mod race;
mod receive;
mod records;
#[cfg(mbedtls)]
mod replay;
mod table;

use race::race;
use records::{in_order, one_in_ten, Set};

/// Records of a set: enough that opening the channel is nothing beside them.
const RECORDS: usize = 4096;
/// Records of a set whose length is compared: the long ones' headers must stay in the caches.
const FEW: usize = 32;

/// Whether an emulator runs this: x86-64 code where the processor's description names no maker of such
/// processors.
fn emulated() -> bool {
    let text = std::fs::read_to_string("/proc/cpuinfo").unwrap_or_default();
    cfg!(target_arch = "x86_64") && !["GenuineIntel", "AuthenticAMD"].iter().any(|maker| text.contains(maker))
}

/// Reading, against the quick reference.
fn reading() {
    for (name, numbers) in [("in order", in_order(RECORDS)), ("one in ten late or repeated", one_in_ten(RECORDS))] {
        for mode in [1, 0] {
            let set = Set::new(mode, 64, &numbers);
            let name = format!("offer+settle 64B {name}, mode {mode}");
            race(&name, RECORDS, || receive::ours(&set), || receive::fast(&set));
        }
    }
}

/// Reading, against the cipher and against itself at another length.
fn reading_beside() {
    let set = Set::new(1, 64, &in_order(RECORDS));
    let mut opening = opening::Opening::new(&set);
    race("offer+settle 64B / AES-256-GCM open", RECORDS, || receive::ours(&set), || opening.run());
    let (short, long) = (Set::new(1, 64, &in_order(FEW)), Set::new(1, 65_000, &in_order(FEW)));
    race("offer+settle 64B vs 65000B", FEW, || receive::ours(&short), || receive::ours(&long));
}

/// Reading with each wider window against the usual one, and with the widest against the quick reference.
fn reading_wide() {
    let set = Set::new(1, 64, &in_order(RECORDS));
    for width in [128, 192, 256] {
        let name = format!("offer+settle 64B in order, width {width} / width 64");
        race(&name, RECORDS, || receive::wide(&set, width), || receive::ours(&set));
    }
    let name = "offer+settle 64B in order, width 256 / Rust";
    race(name, RECORDS, || receive::wide(&set, 256), || receive::fast_wide(&set, 256));
}

/// Reading in a full table, against one channel and against the quick reference.
fn reading_table() {
    let (set, one) = (Set::in_turn(1, 64, RECORDS), Set::new(1, 64, &in_order(RECORDS)));
    let (ours, fast) = (table::full(1), table::full_fast(1));
    let name = "table offer+settle 64B in order, 16 rows";
    race(&format!("{name} / one channel"), RECORDS, || table::ours(&ours, &set), || receive::ours(&one));
    race(&format!("{name} / Rust"), RECORDS, || table::ours(&ours, &set), || table::fast(&fast, &set));
}

/// Building, against the quick reference.
fn building() {
    for len in [64, 4096] {
        // The two write the same bytes, each to a buffer of its own.
        let mut ours = building::Work::new(len, RECORDS);
        let mut peer = building::Work::new(len, RECORDS);
        race(&format!("build {len}B"), RECORDS, || ours.ours(), || peer.fast());
    }
}

const REPLAY: &str = "replay: offer+settle 24B empty mode 0 / mbedTLS";

#[cfg(mbedtls)]
fn replay() {
    let set = Set::new(0, 24, &in_order(RECORDS));
    let mut peer = replay::Replay::new();
    race(REPLAY, RECORDS, || receive::ours(&set), || peer.run(RECORDS));
}

#[cfg(not(mbedtls))]
fn replay() {
    println!("{REPLAY}: left out, mbedTLS's headers were missing");
}

fn main() {
    if emulated() {
        println!("emulated: figures of time say nothing here, ratios little");
    }
    println!("{:<54} {:>9} {:>9} {:>7}", "name", "ours-ns", "peer-ns", "ratio");
    reading();
    reading_beside();
    reading_wide();
    reading_table();
    building();
    replay();
}
