//! What happens to each element. A tick is a second: every board sends one record in it.
use crate::bus::{Fate, Forgery};
use crate::ELEMENTS;
use husk::{AUTHENTICATED, ENCRYPTED, LAYOUT_BIG, LAYOUT_LITTLE, MAC, WIDTH};

/// For how many ticks after a key change the old key is held: DSP0276's KT1, ten seconds.
pub const KT1: u32 = 10;

/// How many records the long-serving board sent before the first tick: its turn comes at tick 56.
const BEFORE: u64 = 65_480;

/// How many records come in a burst before the first tick.
pub const BURST: u64 = 480;

/// How many others overtake a late record of the burst.
const OVERTAKEN: u64 = 150;

/// The window for such a burst: it reaches further than late records are behind.
pub const WIDE: u16 = 256;

/// How many MAC bytes a board of the first series has room for.
pub const OLD_MAC: u8 = 8;

/// One element's part in the story.
#[derive(Clone, Copy)]
pub struct Plan {
    /// The mode of its channel.
    pub mode: u8,
    /// How its board's maker lays out nonces.
    pub layout: u8,
    /// How many bytes its MAC has.
    pub mac: u8,
    /// How many numbers its window remembers.
    pub width: u16,
    /// How many records its board sent before the first tick.
    pub before: u64,
    /// The tick at which its board hangs.
    pub hangs: Option<u32>,
    /// The tick at which both ends change the key.
    pub changes_key: Option<u32>,
    /// What the bus does with its messages.
    pub fate: fn(u64) -> Fate,
}

const WELL: Plan = Plan {
    mode: ENCRYPTED,
    layout: LAYOUT_LITTLE,
    mac: MAC as u8,
    width: WIDTH,
    before: 0,
    hangs: None,
    changes_key: None,
    fate: clean,
};

const fn hangs(tick: u32) -> Plan {
    Plan {
        hangs: Some(tick),
        ..WELL
    }
}

/// The sixteen elements. All nine boards that hang do so in the second period.
pub const PLANS: [Plan; ELEMENTS] = [
    // 0: the second maker's board.
    Plan {
        layout: LAYOUT_BIG,
        ..WELL
    },
    hangs(44),
    hangs(47),
    // 3: its numbers pass the 16-bit turn.
    Plan {
        before: BEFORE,
        fate: long_serving,
        ..WELL
    },
    hangs(51),
    // 5: it hangs too, in the other mode.
    Plan {
        mode: AUTHENTICATED,
        ..hangs(55)
    },
    // 6: late records of the old key.
    Plan {
        changes_key: Some(30),
        fate: late_at_key_change,
        ..WELL
    },
    hangs(58),
    // 8: its last record, number 59, is lost, and arrives when the bridge delivers it again.
    Plan {
        fate: lossy,
        ..hangs(60)
    },
    // 9: forged copies of its records.
    Plan {
        fate: forged,
        ..WELL
    },
    hangs(66),
    // 11: a burst in which records overtake each other by more than the usual window remembers.
    Plan {
        width: WIDE,
        before: BURST,
        fate: burst,
        ..WELL
    },
    // 12: a board of the first series, and a bus that reorders.
    Plan {
        mac: OLD_MAC,
        fate: reordered,
        ..WELL
    },
    hangs(71),
    hangs(74),
    // 15: both, in the other mode.
    Plan {
        mode: AUTHENTICATED,
        fate: lossy_and_reordered,
        ..WELL
    },
];

fn clean(_: u64) -> Fate {
    Fate::Through
}

fn lossy(n: u64) -> Fate {
    match n % 7 {
        3 => Fate::Lost,
        _ => Fate::Through,
    }
}

/// Few of the burst are late, so that each is overtaken by as many as it is late by.
fn burst(n: u64) -> Fate {
    match n % 160 {
        9 if n < BURST => Fate::Late(OVERTAKEN),
        _ => Fate::Through,
    }
}

fn reordered(n: u64) -> Fate {
    match n % 5 {
        2 => Fate::Late(7),
        _ => Fate::Through,
    }
}

fn lossy_and_reordered(n: u64) -> Fate {
    match lossy(n) {
        Fate::Lost => Fate::Lost,
        _ => reordered(n),
    }
}

/// Before the first tick every 50th record arrives, which is within the window's reach. Then the bus is
/// better, but the last record before the turn, number 65535, arrives after the first ones behind it.
fn long_serving(n: u64) -> Fate {
    if n < BEFORE {
        return match n % 50 {
            0 => Fate::Through,
            _ => Fate::Lost,
        };
    }
    match n % 16 {
        5 => Fate::Lost,
        7 | 15 => Fate::Late(3),
        _ => Fate::Through,
    }
}

/// The key changes at tick 30. Three records of the old key arrive after it: number 5 when the new key
/// has a number 5 too, number 28 when it has not come so far, and number 29 when the old key is dropped.
fn late_at_key_change(n: u64) -> Fate {
    match n {
        5 => Fate::Late(33),
        28 => Fate::Late(6),
        29 => Fate::Late(20),
        _ => Fate::Through,
    }
}

fn forged(n: u64) -> Fate {
    match n % 30 {
        10 => Fate::Forged(Forgery::Length),
        20 => Fate::Forged(Forgery::Mac),
        _ => Fate::Through,
    }
}
