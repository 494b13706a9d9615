//! The story, period by period, and each part of it for its own reason.
use demo::{Bay, Board, Controller, Rng, Row, Secret, Sheet, Tally};
use demo::{BURST, ELEMENTS, OLD_MAC, PERIODS, PLANS, WIDE};
use husk::{Offered, Refusal, Setting, CURRENT, LAYOUT_BIG, LAYOUT_LITTLE, MACS, OLD};
use husk::{PROFILE_BENCH, PROFILE_BUS};

fn hung() -> Vec<usize> {
    (0..ELEMENTS)
        .filter(|element| PLANS[*element].hangs.is_some())
        .collect()
}

fn rows(bay: &Bay) -> Vec<Row> {
    Sheet::of(bay.controller()).unwrap().rows().to_vec()
}

/// The bay after the story, and the rows after each period. It is run once, since it takes a while.
fn periods() -> (Bay, Vec<Vec<Row>>) {
    let mut bay = Bay::new().unwrap();
    let mut sheets = Vec::new();
    for _ in 0..PERIODS {
        bay.poll();
        bay.period().unwrap();
        sheets.push(rows(&bay));
    }
    (bay, sheets)
}

#[test]
fn the_nine_go_dark_and_no_other() {
    let (mut bay, sheets) = periods();
    let (last, earlier) = sheets.split_last().unwrap();
    for rows in earlier {
        assert!(rows.iter().all(|row| row.lit), "they hang only now");
    }
    assert_eq!(hung().len(), 9);
    for (element, (before, after)) in earlier.last().unwrap().iter().zip(last).enumerate() {
        assert_eq!(after.lit, !hung().contains(&element));
        if !after.lit {
            // In the last period it delivered, and nothing but repeats.
            assert_eq!(after.tally.handed, before.tally.handed);
            assert_eq!(after.tally.others, before.tally.others);
            assert!(after.tally.repeats > before.tally.repeats);
        }
    }
    the_second_maker_is_read(&bay, last);
    the_first_series_is_read(&bay, last);
    the_burst_is_read(&bay, last);
    the_turn_is_passed(&bay, last);
    the_key_is_changed(&bay, last);
    forged_records_are_counted(last);
    every_session_is_its_own(last);
    every_row_is_its_own(bay.controller());
    assert_eq!((bay.poll(), bay.poll()), (7, 0));
}

/// What the table offers of a record of this element and number, which was not sent.
fn probe(bay: &Bay, element: usize, number: u64) -> Result<Offered, Refusal> {
    const LENGTH: usize = 32;
    let session = bay.controller().elements()[element].session();
    let mut record = session.to_le_bytes().to_vec();
    record.extend(&number.to_le_bytes()[..2]);
    record.extend((LENGTH as u16).to_le_bytes());
    record.extend([0; LENGTH]);
    bay.controller().table().offer(&record, CURRENT)
}

/// Number `next - 1` was handed out and number `next` was not, under the key with this count.
fn next_is(bay: &Bay, element: usize, count: u32, next: u64) {
    assert_eq!(probe(bay, element, next - 1), Err(Refusal::Repeat));
    let offered = probe(bay, element, next).unwrap();
    assert_eq!((offered.count, offered.number), (count, next));
}

/// Element 0: its board puts the number's lowest byte last, and all its records are handed out.
fn the_second_maker_is_read(bay: &Bay, rows: &[Row]) {
    assert_eq!(Sheet::of(bay.controller()).unwrap().second_maker(), vec![0]);
    let tally = Tally {
        handed: 120,
        ..Tally::default()
    };
    assert_eq!((rows[0].tally, rows[0].layout), (tally, LAYOUT_BIG));
    let [even, odd] = [120, 121].map(|number| probe(bay, 0, number).unwrap().nonce);
    assert_eq!((&even[..11], even[11]), (&odd[..11], odd[11] ^ 1));
}

/// Element 12: its MAC is the last 8 bytes of a record, not 16, and all its records are handed out but one,
/// which is late when the story ends.
fn the_first_series_is_read(bay: &Bay, rows: &[Row]) {
    let sheet = Sheet::of(bay.controller()).unwrap();
    assert_eq!(sheet.first_series(), vec![12]);
    let tally = Tally {
        handed: 119,
        ..Tally::default()
    };
    assert_eq!((rows[12].tally, rows[12].mac), (tally, OLD_MAC));
    let [old, usual] = [12, 0].map(|element| probe(bay, element, 200).unwrap().text);
    assert_eq!(old - usual, 16 - usize::from(OLD_MAC));
}

/// Element 11: records of its burst were overtaken by 150 others, and all are handed out.
fn the_burst_is_read(bay: &Bay, rows: &[Row]) {
    assert_eq!(Sheet::of(bay.controller()).unwrap().wide_window(), vec![11]);
    next_is(bay, 11, 0, BURST + 120);
    let tally = Tally {
        handed: BURST + 120,
        ..Tally::default()
    };
    assert_eq!(
        (rows[11].tally, rows[11].gaps, rows[11].width),
        (tally, 0, WIDE)
    );
}

/// Element 3: of 65,480 records every 50th arrived; of the 120 after them 7 are lost, and the last one is
/// late when the story ends. Four of the lost ones are still in the window.
fn the_turn_is_passed(bay: &Bay, rows: &[Row]) {
    next_is(bay, 3, 0, 65_599);
    let tally = Tally {
        handed: 1_310 + 120 - 7 - 1,
        ..Tally::default()
    };
    assert_eq!((rows[3].tally, rows[3].gaps), (tally, 4));
    // Its last reading is the one with the last number: nothing was taken for another record.
    let reading = bay.controller().elements()[3].reading().unwrap();
    assert_eq!(reading.sample, 65_599);
}

/// Element 6: two late records of the old key are handed out under it, the third comes after the drop.
fn the_key_is_changed(bay: &Bay, rows: &[Row]) {
    next_is(bay, 6, 1, 120 - 30);
    let row = bay.controller().elements()[6].row();
    assert_eq!(
        bay.controller().table().gaps(row, OLD),
        Err(Refusal::Key),
        "it is dropped"
    );
    let tally = Tally {
        handed: 119,
        repeats: 0,
        others: 1,
    };
    assert_eq!(rows[6].tally, tally);
}

/// Element 9: four forged lengths and four forged MACs, and each true record is handed out after its copy.
fn forged_records_are_counted(rows: &[Row]) {
    let tally = Tally {
        handed: 120,
        repeats: 0,
        others: 8,
    };
    assert_eq!(rows[9].tally, tally);
}

fn every_session_is_its_own(rows: &[Row]) {
    let mut sessions: Vec<u32> = rows.iter().map(|row| row.session).collect();
    sessions.sort_unstable();
    sessions.dedup();
    assert_eq!(sessions.len(), ELEMENTS);
}

/// Sixteen rows, each element's its own, and no message that was for none of them.
fn every_row_is_its_own(controller: &Controller) {
    let rows = controller.elements().iter().map(|element| element.row());
    assert!(rows.eq(0..husk::ROWS as u8));
    assert_eq!(controller.strays(), 0);
}

/// Both modes in both layouts, with each MAC length.
fn settings() -> impl Iterator<Item = Setting> {
    let modes = [husk::AUTHENTICATED, husk::ENCRYPTED].map(|mode| Setting::new(mode, 0, 50));
    let laid = modes.into_iter().flat_map(|setting| {
        [LAYOUT_LITTLE, LAYOUT_BIG].map(|layout| Setting { layout, ..setting })
    });
    laid.flat_map(|setting| MACS.map(|mac| Setting { mac, ..setting }))
}

/// Delivers each record twice. The second time it is a repeat; on the bench it is counted with the others.
fn measure(profile: u8) {
    let mut rng = Rng::new(1);
    let mut controller = Controller::new();
    for (session, setting) in (0x1122_3344..).zip(settings()) {
        let setting = Setting {
            session,
            profile,
            ..setting
        };
        let [secret, back] = [Secret::agree(&mut rng), Secret::agree(&mut rng)];
        let mut board = Board::new(setting, &secret, rng.split()).unwrap();
        let place = controller.open(setting, &secret, &back).unwrap();
        for sent in 1..=setting.limit {
            let message = board.send().unwrap().unwrap();
            controller.deliver(&message);
            controller.deliver(&message);
            let element = &controller.elements()[place];
            assert_eq!(element.reading(), Some(board.reading()));
            let (repeats, others) = match profile {
                PROFILE_BENCH => (0, sent),
                _ => (sent, 0),
            };
            let tally = Tally {
                handed: sent,
                repeats,
                others,
            };
            assert_eq!(element.tally(), tally);
        }
        assert_eq!(board.send(), Err(husk::Refusal::Spent));
    }
}

#[test]
fn what_is_handed_out_is_what_was_measured() {
    measure(PROFILE_BUS);
    measure(PROFILE_BENCH);
}
