//! The controller's table through the safe face.
use husk::{raw, Controller, Refusal, Sender, Setting, CURRENT, LAYOUT_BIG, LAYOUT_LITTLE, MACS, OLD};
use husk::{PROFILE_BENCH, PROFILE_BUS, WIDTH, WIDTHS};

fn setting(mode: u8, session: u32) -> Setting {
    Setting::new(mode, session, u64::MAX)
}

/// A record of a board whose send key has this IV, with its MAC left as zeros.
fn record(board: &mut Sender, app: &[u8]) -> Vec<u8> {
    let mut out = [0; 64];
    let built = board.build(app, &[], &mut out).unwrap();
    out[..built.total].to_vec()
}

#[test]
fn a_record_finds_its_row_and_goes_through_once() {
    for mode in [0, 1] {
        let mut controller = Controller::new();
        assert_eq!(controller.open(setting(1 - mode, 6), [1; 12], [2; 12]), Ok(0));
        assert_eq!(controller.open(setting(mode, 7), [3; 12], [4; 12]), Ok(1));
        let mut board = Sender::open(setting(mode, 7), [3; 12]).unwrap();
        let rec = record(&mut board, b"\xA0\xA1\xA2");
        let offered = controller.offer(&rec, CURRENT).unwrap();
        assert_eq!((offered.count, offered.number, offered.nonce), (0, 0, [3; 12]));
        let plain = &rec[offered.assoc..offered.text];
        let no = controller.settle(&rec, CURRENT, offered.count, offered.number, false, plain);
        assert_eq!(no, Err(Refusal::Mac));
        let other = controller.state().rows[0];
        let data = controller.settle(&rec, CURRENT, offered.count, offered.number, true, plain);
        assert_eq!(data, Ok(&b"\xA0\xA1\xA2"[..]));
        assert_eq!(controller.offer(&rec, CURRENT), Err(Refusal::Repeat));
        assert_eq!(controller.gaps(1, CURRENT), Ok(0));
        assert_eq!(controller.state().rows[0], other);
    }
}

#[test]
fn the_length_of_the_text_says_the_mode() {
    let mut controller = Controller::new();
    controller.open(setting(0, 0), [1; 12], [2; 12]).unwrap();
    controller.open(setting(1, 1), [3; 12], [4; 12]).unwrap();
    let clear = record(&mut Sender::open(setting(0, 0), [1; 12]).unwrap(), b"ab");
    let sealed = record(&mut Sender::open(setting(1, 1), [3; 12]).unwrap(), b"");
    assert_eq!(controller.settle(&clear, CURRENT, 0, 0, true, b"ab"), Err(Refusal::Plain));
    assert_eq!(controller.settle(&sealed, CURRENT, 0, 0, true, b""), Err(Refusal::Plain));
    assert_eq!(controller.settle(&clear, CURRENT, 0, 0, true, b""), Ok(&b"ab"[..]));
    assert_eq!(controller.settle(&sealed, CURRENT, 0, 0, true, b"\x00\x00"), Ok(&b""[..]));
}

#[test]
fn each_row_has_its_own_layout() {
    let mut controller = Controller::new();
    for layout in [LAYOUT_LITTLE, LAYOUT_BIG] {
        let setting = Setting { layout, ..setting(1, layout.into()) };
        let mut board = Sender::open(setting, [0; 12]).unwrap();
        let row = controller.open(setting, [0; 12], [0; 12]).unwrap();
        let numbers = [record(&mut board, b"a"), record(&mut board, b"a")];
        let mut out = [0; 64];
        controller.build(row, b"a", b"", &mut out).unwrap();
        let mut one = [0; 12];
        one[if layout == LAYOUT_LITTLE { 0 } else { 11 }] = 1;
        assert_eq!(controller.build(row, b"a", b"", &mut out).unwrap().nonce, one);
        assert_eq!(numbers.map(|rec| controller.offer(&rec, CURRENT).unwrap().nonce), [[0; 12], one]);
    }
}

#[test]
fn each_row_has_its_own_mac_length() {
    let mut controller = Controller::new();
    for mac in MACS {
        let setting = Setting { mac, ..setting(1, mac.into()) };
        let rec = record(&mut Sender::open(setting, [1; 12]).unwrap(), b"a");
        let row = controller.open(setting, [1; 12], [2; 12]).unwrap();
        let total = 8 + 2 + 1 + usize::from(mac);
        let mut out = [0; 64];
        let built = controller.build(row, b"a", b"", &mut out).unwrap();
        assert_eq!((built.text, built.total, rec.len()), (11, total, total));
        assert_eq!(controller.offer(&rec, CURRENT).unwrap().text, 11);
        assert_eq!(controller.settle(&rec, CURRENT, 0, 0, true, &rec[8..11]), Ok(&b"a"[..]));
        // All of a setting but Session ID and limit share the first word of each end.
        let kind = u64::from(WIDTH) << 32 | u64::from(mac) << 16 | 1;
        let words = controller.state().rows[usize::from(row)];
        assert_eq!((words[0], words[19]), (kind, kind));
    }
}

#[test]
fn each_row_has_its_own_profile() {
    let mut controller = Controller::new();
    for profile in [PROFILE_BUS, PROFILE_BENCH] {
        let setting = Setting { profile, ..setting(0, profile.into()) };
        let mut board = Sender::open(setting, [1; 12]).unwrap();
        let row = controller.open(setting, [1; 12], [2; 12]).unwrap();
        for number in 0..3 {
            let rec = record(&mut board, b"a");
            assert_eq!(rec.len(), setting.header() + 1 + 16);
            assert_eq!(controller.offer(&rec, CURRENT).unwrap().number, number);
            assert_eq!(controller.settle(&rec, CURRENT, 0, number, true, b""), Ok(&b"a"[..]));
        }
        let words = controller.state().rows[usize::from(row)];
        let kind = u64::from(WIDTH) << 32 | u64::from(profile) << 24 | 16 << 16;
        assert_eq!((words[0], words[19]), (kind, kind));
    }
    // Six bytes are enough for the table, and for the row on the bench.
    for (session, six, seven) in [
        (PROFILE_BUS, Refusal::Short, Refusal::Short),
        (PROFILE_BENCH, Refusal::Small, Refusal::Length),
        (9, Refusal::Unknown, Refusal::Unknown),
    ] {
        let start = [session, 0, 0, 0, 0, 0, 0];
        let offers = [5, 6, 7].map(|length| controller.offer(&start[..length], CURRENT));
        assert_eq!(offers, [Err(Refusal::Short), Err(six), Err(seven)]);
    }
}

#[test]
fn each_row_has_its_own_width() {
    let mut controller = Controller::new();
    for width in WIDTHS {
        let setting = Setting { width, ..setting(0, width.into()) };
        let mut board = Sender::open(setting, [1; 12]).unwrap();
        let row = controller.open(setting, [1; 12], [2; 12]).unwrap();
        let records: Vec<_> = (0..=width).map(|_| record(&mut board, b"a")).collect();
        for (number, rec) in (0..).zip(&records).skip(1) {
            assert_eq!(controller.settle(rec, CURRENT, 0, number, true, b""), Ok(&b"a"[..]));
        }
        assert_eq!(controller.offer(&records[0], CURRENT), Err(Refusal::Old));
        // All marks of the window are there, and none beyond it.
        let words = controller.state().rows[usize::from(row)];
        let full = WIDTHS.map(|all| if all <= width { u64::MAX } else { 0 });
        assert_eq!((words[6], &words[7..11]), (u64::from(width) + 1, &full[..]));
        assert_eq!((words[0] >> 32, words[19] >> 32), (width.into(), width.into()));
    }
}

#[test]
fn rows_are_taken_and_freed_lowest_first() {
    let mut controller = Controller::default();
    for row in 0..husk::ROWS as u8 {
        assert_eq!(controller.open(setting(1, u32::from(row)), [row; 12], [!row; 12]), Ok(row));
    }
    let full = controller.clone();
    assert_eq!(controller.open(setting(2, 99), [0; 12], [0; 12]), Err(Refusal::Setting));
    let third = Setting { layout: 2, ..setting(1, 99) };
    assert_eq!(controller.open(third, [0; 12], [0; 12]), Err(Refusal::Setting));
    let odd = Setting { mac: 10, ..setting(1, 99) };
    assert_eq!(controller.open(odd, [0; 12], [0; 12]), Err(Refusal::Setting));
    let none = Setting { profile: 2, ..setting(1, 99) };
    assert_eq!(controller.open(none, [0; 12], [0; 12]), Err(Refusal::Setting));
    let between = Setting { width: 96, ..setting(1, 99) };
    assert_eq!(controller.open(between, [0; 12], [0; 12]), Err(Refusal::Setting));
    assert_eq!(controller.open(setting(1, 15), [0; 12], [0; 12]), Err(Refusal::Twice));
    assert_eq!(controller.open(setting(1, 99), [0; 12], [0; 12]), Err(Refusal::Rows));
    assert_eq!(controller.close(16), Err(Refusal::Unknown));
    assert_eq!(controller, full);
    controller.close(9).unwrap();
    controller.close(3).unwrap();
    assert_eq!(controller.close(3), Err(Refusal::Unknown));
    assert_eq!(controller.open(setting(1, 99), [0; 12], [0; 12]), Ok(3));
    assert_eq!(controller.open(setting(1, 98), [0; 12], [0; 12]), Ok(9));
}

#[test]
fn calls_by_row_reach_that_row() {
    let mut controller = Controller::new();
    controller.open(setting(1, 5), [1; 12], [2; 12]).unwrap();
    let mut out = [0; 64];
    assert_eq!(controller.build(1, b"a", b"", &mut out), Err(Refusal::Unknown));
    assert_eq!(out, [0; 64]);
    let built = controller.build(0, b"a", b"", &mut out).unwrap();
    assert_eq!((built.number, built.nonce, built.assoc, built.text, built.total), (0, [2; 12], 8, 11, 27));
    assert_eq!(controller.drop_old(0), Err(Refusal::Key));
    controller.change_receiver(0, [3; 12]).unwrap();
    assert_eq!(controller.change_receiver(0, [4; 12]), Err(Refusal::Held));
    assert_eq!(controller.gaps(0, OLD), Ok(0));
    controller.drop_old(0).unwrap();
    assert_eq!(controller.gaps(0, OLD), Err(Refusal::Key));
    controller.change_sender(0, [5; 12]).unwrap();
    assert_eq!(controller.build(0, b"a", b"", &mut out).unwrap().nonce, [5; 12]);
    for refused in [controller.close(7), controller.drop_old(7), controller.change_sender(16, [0; 12])] {
        assert_eq!(refused, Err(Refusal::Unknown));
    }
    assert_eq!(controller.offer(&[5, 0, 0], CURRENT), Err(Refusal::Short));
    assert_eq!(controller.offer(&[6, 0, 0, 0, 0, 0, 0, 0], CURRENT), Err(Refusal::Unknown));
}

#[test]
fn a_table_with_one_session_twice_is_refused_whole() {
    let mut controller = Controller::new();
    controller.open(setting(1, 5), [1; 12], [2; 12]).unwrap();
    let mut table: raw::Table = controller.state();
    table.rows[9] = table.rows[0];
    let mut twice = Controller::from_state(table);
    assert_eq!(twice.close(9), Err(Refusal::State));
    assert_eq!(twice.open(setting(1, 6), [0; 12], [0; 12]), Err(Refusal::State));
    assert_eq!(twice.offer(&[], 0), Err(Refusal::State));
    assert_eq!(twice.state(), table);
}
