//! Real cipher text between ends of one layout and of two, under the same keys and IVs. With one layout
//! every record is handed out. With two, record 0 of each key is, since number 0 has the same nonce in
//! both, and the cipher refuses all after it. So it is in both profiles.
mod channel;
mod sealing;

use channel::Channel;
use compare::Husk;
use reference::version::Memory;
use reference::{Refusal, Setting};
use sealing::{suites, Sent};

const LAYOUTS: [u8; 2] = [husk::LAYOUT_LITTLE, husk::LAYOUT_BIG];

/// Both modes in both profiles.
fn settings() -> impl Iterator<Item = Setting> {
    let modes = [husk::AUTHENTICATED, husk::ENCRYPTED].map(|mode| Setting::new(mode, 0x1122_3344, u64::MAX));
    modes.into_iter().flat_map(|setting| [setting, Setting { profile: husk::PROFILE_BENCH, ..setting }])
}

/// Runs such channels of both versions, in both modes and profiles and with both ciphers.
fn run(from: u8, to: u8, expected: fn(&Sent) -> u8) {
    for setting in settings() {
        let (from, to) = (Setting { layout: from, ..setting }, Setting { layout: to, ..setting });
        for suite in suites(setting.mac) {
            Channel::<Husk>::open(suite, from, to).run(expected);
            Channel::<Memory>::open(suite, from, to).run(expected);
        }
    }
}

#[test]
fn with_one_layout_every_record_is_handed_out() {
    for layout in LAYOUTS {
        run(layout, layout, |_| 0);
    }
}

#[test]
fn with_two_layouts_record_0_is_and_the_cipher_refuses_the_others() {
    let [little, big] = LAYOUTS;
    for (from, to) in [(little, big), (big, little)] {
        run(from, to, |record| if record.number == 0 { 0 } else { Refusal::Mac.number() });
    }
}
