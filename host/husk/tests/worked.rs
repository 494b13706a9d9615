//! Page 01's worked cases, both layouts of nonces, each MAC length, both profiles and each width of the window,
//! through the safe face.
use husk::{raw, Receiver, Refusal, Sender, Setting};
use husk::{BENCH_HEADER, HEADER, LAYOUT_BIG, LAYOUT_LITTLE, MAC, MACS, PROFILE_BENCH, PROFILE_BUS, WIDTH, WIDTHS};

fn setting(mode: u8) -> Setting {
    Setting::new(mode, 0x1122_3344, u64::MAX)
}

/// Both modes in both layouts, with each MAC length and both profiles.
fn settings() -> impl Iterator<Item = Setting> {
    let modes = [setting(0), setting(1)].into_iter();
    let laid = modes.flat_map(|setting| [LAYOUT_LITTLE, LAYOUT_BIG].map(|layout| Setting { layout, ..setting }));
    let coded = laid.flat_map(|setting| MACS.map(|mac| Setting { mac, ..setting }));
    coded.flat_map(|setting| [PROFILE_BUS, PROFILE_BENCH].map(|profile| Setting { profile, ..setting }))
}

/// The nonce that a sender of this layout has for a number.
fn nonce(layout: u8, iv: [u8; 12], number: u64) -> [u8; 12] {
    let sender = Sender::open(Setting { layout, ..setting(0) }, iv).unwrap();
    let state = raw::Sender { next: number, ..sender.state() };
    Sender::from_state(state).build(&[], &[], &mut [0; 24]).unwrap().nonce
}

#[test]
fn each_layout_has_the_number_at_its_place() {
    let (little, big) = ([8, 7, 6, 5, 4, 3, 2, 1, 0, 0, 0, 0], [0, 0, 0, 0, 1, 2, 3, 4, 5, 6, 7, 8]);
    for (layout, bytes) in [(LAYOUT_LITTLE, little), (LAYOUT_BIG, big)] {
        assert_eq!(nonce(layout, [0; 12], 0x0102_0304_0506_0708), bytes);
        assert_eq!(nonce(layout, [0xff; 12], 0x0102_0304_0506_0708), bytes.map(|byte| !byte));
        assert_eq!(nonce(layout, big, 0), big, "number 0 has the same nonce in both");
    }
}

#[test]
fn a_record_goes_through_once() {
    for setting in settings() {
        let mut sender = Sender::open(setting, [7; 12]).unwrap();
        let mut receiver = Receiver::open(setting, [7; 12]).unwrap();
        let mut out = [0u8; 64];
        let random: &[u8] = if setting.mode == 1 { b"\xff" } else { b"" };
        let built = sender.build(b"\xA0\xA1\xA2", random, &mut out).unwrap();
        assert_eq!(built.total - built.text, usize::from(setting.mac));
        assert_eq!(setting.header() + 3 + usize::from(setting.mac) + 3 * random.len(), built.total);
        let record = &out[..built.total];
        let offered = receiver.offer(record, husk::CURRENT).unwrap();
        assert_eq!((offered.number, offered.nonce), (built.number, built.nonce));
        assert_eq!((offered.assoc, offered.text), (built.assoc, built.text));
        let plain = &record[offered.assoc..offered.text];
        let data = receiver.settle(record, husk::CURRENT, offered.count, offered.number, true, plain);
        assert_eq!(data, Ok(&b"\xA0\xA1\xA2"[..]));
        let again = receiver.settle(record, husk::CURRENT, offered.count, offered.number, true, plain);
        let offered = receiver.offer(record, husk::CURRENT).map(|offered| offered.number);
        // On the bench the very same bytes would be the next record, if the cipher took them for it.
        let (refusal, next) = match setting.profile {
            PROFILE_BENCH => (Refusal::Stale, Ok(1)),
            _ => (Refusal::Repeat, Err(Refusal::Repeat)),
        };
        assert_eq!((again, offered), (Err(refusal), next));
        assert_eq!(receiver.gaps(husk::CURRENT), Ok(0));
    }
}

#[test]
fn keys_change_and_the_old_one_is_dropped() {
    let mut receiver = Receiver::open(setting(0), [1; 12]).unwrap();
    assert_eq!(receiver.drop_old(), Err(Refusal::Key));
    receiver.change_key([2; 12]).unwrap();
    assert_eq!(receiver.change_key([3; 12]), Err(Refusal::Held));
    assert_eq!(receiver.gaps(husk::OLD), Ok(0));
    receiver.drop_old().unwrap();
    assert_eq!(receiver.gaps(husk::OLD), Err(Refusal::Key));
    assert_eq!(receiver.state().count, 1);
}

/// Open refuses this setting, and the calls a state that holds it.
fn refused(bad: Setting) {
    assert_eq!(Sender::open(bad, [0; 12]), Err(Refusal::Setting));
    assert_eq!(Receiver::open(bad, [0; 12]), Err(Refusal::Setting));
    let sender = Sender::open(setting(0), [0; 12]).unwrap().state();
    let receiver = Receiver::open(setting(0), [0; 12]).unwrap().state();
    let mut sender = Sender::from_state(raw::Sender { setting: bad, ..sender });
    let receiver = Receiver::from_state(raw::Receiver { setting: bad, ..receiver });
    assert_eq!(sender.change_key([1; 12]), Err(Refusal::State));
    assert_eq!(receiver.offer(&[], 9), Err(Refusal::State));
}

#[test]
fn a_refused_open_is_an_error_and_zeros_are_state() {
    refused(Setting { mode: 2, ..setting(0) });
    refused(Setting { layout: 2, ..setting(0) });
    refused(Setting { limit: 0, ..setting(0) });
    for mac in (0..=255).filter(|mac| !MACS.contains(mac)) {
        refused(Setting { mac, ..setting(0) });
    }
    for profile in 2..=255 {
        refused(Setting { profile, ..setting(0) });
    }
    for width in (0..=u16::MAX).filter(|width| !WIDTHS.contains(width)) {
        refused(Setting { width, ..setting(0) });
    }
    let zeros = Receiver::from_state(raw::Receiver::default());
    assert_eq!(zeros.offer(&[], 9), Err(Refusal::State));
    assert_eq!(Sender::from_state(raw::Sender::default()).change_key([1; 12]), Err(Refusal::State));
}

#[test]
fn the_usual_window_is_the_narrowest() {
    assert_eq!((setting(0).width, WIDTHS.iter().min()), (WIDTH, Some(&WIDTH)));
}

/// Takes the record of this number, whose MAC nobody checks here.
fn take(receiver: &mut Receiver, number: u64) -> Result<(), Refusal> {
    let sender = raw::Sender { setting: receiver.state().setting, next: number, ..Default::default() };
    let mut rec = [0; HEADER + MAC];
    Sender::from_state(sender).build(&[], &[], &mut rec).unwrap();
    let offered = receiver.offer(&rec, husk::CURRENT)?;
    receiver.settle(&rec, husk::CURRENT, offered.count, offered.number, true, &[]).map(|_| ())
}

#[test]
fn a_window_takes_what_is_late_by_its_width() {
    for width in WIDTHS {
        let mut receiver = Receiver::open(Setting { width, ..setting(0) }, [0; 12]).unwrap();
        take(&mut receiver, 999).unwrap();
        let last = 1_000 - u64::from(width);
        assert_eq!(take(&mut receiver, last - 1), Err(Refusal::Old));
        assert_eq!((take(&mut receiver, last), take(&mut receiver, last)), (Ok(()), Err(Refusal::Repeat)));
        assert_eq!(receiver.gaps(husk::CURRENT), Ok(u32::from(width) - 2));
    }
}

#[test]
fn the_usual_mac_is_the_longest() {
    assert_eq!((usize::from(setting(0).mac), MACS.iter().max()), (MAC, Some(&setting(0).mac)));
}

/// Data A0 A1 A2 in both modes, with the random byte FF in mode 1: the header is Session ID and Length.
#[test]
fn a_record_of_the_bench_has_no_number() {
    for (mode, random, bytes) in [
        (0, &b""[..], &b"\x44\x33\x22\x11\x13\x00\xA0\xA1\xA2"[..]),
        (1, &b"\xFF"[..], &b"\x44\x33\x22\x11\x16\x00\x03\x00\xA0\xA1\xA2\xFF"[..]),
    ] {
        let setting = Setting { profile: PROFILE_BENCH, ..setting(mode) };
        let mut sender = Sender::open(setting, [0; 12]).unwrap();
        for number in 0..3 {
            let mut out = [0; 32];
            let built = sender.build(b"\xA0\xA1\xA2", random, &mut out).unwrap();
            assert_eq!((built.number, &out[..built.text]), (number, bytes));
        }
    }
    assert_eq!((setting(0).header(), HEADER, BENCH_HEADER), (8, 8, 6));
}

/// One offer settled twice under this limit, with this data length inside.
fn settled_twice(limit: u64, data: u8) -> (Result<(), Refusal>, Result<(), Refusal>) {
    let setting = Setting { profile: PROFILE_BENCH, limit, ..setting(1) };
    let mut receiver = Receiver::open(setting, [0; 12]).unwrap();
    let mut record = [0; 24];
    Sender::open(setting, [0; 12]).unwrap().build(&[], &[], &mut record).unwrap();
    let offered = receiver.offer(&record, husk::CURRENT).unwrap();
    let plain = [data, 0];
    let mut settle = || receiver.settle(&record, husk::CURRENT, offered.count, offered.number, true, &plain);
    let answers = (settle().map(|_| ()), settle().map(|_| ()));
    assert_eq!(receiver.gaps(husk::CURRENT), Ok(0));
    answers
}

#[test]
fn on_the_bench_one_offer_settled_twice_is_stale_and_at_the_limit_spent() {
    for (limit, again) in [(2, Refusal::Stale), (1, Refusal::Spent)] {
        assert_eq!(settled_twice(limit, 0), (Ok(()), Err(again)));
        assert_eq!(settled_twice(limit, 1), (Err(Refusal::Inner), Err(again)));
    }
}

#[test]
fn the_wrapping_splits_its_byte() {
    use husk::wrapping::{read_data, read_message, wrap_data, wrap_record, Lead};
    assert_eq!(read_data(b"\x85ab"), Ok((Lead { integrity: true, kind: 5 }, &b"ab"[..])));
    assert_eq!(read_data(b"\x06"), Err(Refusal::Wrapped));
    assert_eq!(read_message(b"\x86"), Err(Refusal::Frame));
    let mut out = [9u8; 4];
    assert_eq!(wrap_data(true, 5, b"ab", &mut out), Ok(3));
    assert_eq!(&out, b"\x85ab\x09");
    assert_eq!(wrap_record(b"abcd", &mut out), Err(Refusal::Room));
    assert_eq!(&out, b"\x85ab\x09");
}

#[test]
fn every_number_has_its_name() {
    for number in 1..=24 {
        assert_eq!(Refusal::of(number).unwrap().number(), number);
    }
    assert_eq!((Refusal::of(0), Refusal::of(25)), (None, None));
}
