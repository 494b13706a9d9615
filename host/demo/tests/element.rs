//! One element: two keys at once, and what is forged or not for it.
use demo::{Board, Bus, Controller, Element, Reading, Rng, Secret, Tally, BURST, PLANS};
use husk::wrapping::read_message;
use husk::{Refusal, Setting, BENCH_HEADER, CURRENT, MACS, PROFILE_BENCH, PROFILE_BUS, WIDTHS};

/// The Session ID behind the message's type byte: it says whose a message is.
const SESSION: std::ops::Range<usize> = 1..5;

const USUAL: Setting = Setting::new(husk::ENCRYPTED, 0x1122_3344, u64::MAX);

/// A board, a controller with a row for it and no other, and the keys that they are yet to agree on.
struct Pair {
    board: Board,
    controller: Controller,
    rng: Rng,
}

impl Pair {
    fn new() -> Pair {
        Pair::of(USUAL)
    }

    fn of(setting: Setting) -> Pair {
        let mut rng = Rng::new(7);
        let [secret, back] = [Secret::agree(&mut rng), Secret::agree(&mut rng)];
        let mut controller = Controller::new();
        assert_eq!(controller.open(setting, &secret, &back), Ok(0));
        Pair {
            board: Board::new(setting, &secret, rng.split()).unwrap(),
            controller,
            rng,
        }
    }

    fn element(&self) -> &Element {
        &self.controller.elements()[0]
    }

    /// The next message, with the reading in it.
    fn send(&mut self) -> (Vec<u8>, Reading) {
        let message = self.board.send().unwrap().unwrap();
        (message, self.board.reading())
    }

    fn change_key(&mut self) {
        let secret = Secret::agree(&mut self.rng);
        self.board.change_key(&secret).unwrap();
        self.controller.change_key(0, &secret).unwrap();
    }

    /// Delivers, and holds the counts to be these.
    fn deliver(&mut self, message: &[u8], handed: u64, repeats: u64, others: u64) {
        self.controller.deliver(message);
        let tally = Tally {
            handed,
            repeats,
            others,
        };
        assert_eq!(self.element().tally(), tally);
    }
}

#[test]
fn late_records_of_the_old_key_are_its_own() {
    let mut pair = Pair::new();
    let [(zero, first), (one, second)] = [pair.send(), pair.send()];
    pair.change_key();
    let (new_zero, third) = pair.send();
    pair.deliver(&new_zero, 1, 0, 0);
    assert_eq!(pair.element().reading(), Some(third));
    // Number 0 is marked under the new key, number 1 is not. Both are new to the old key.
    pair.deliver(&zero, 2, 0, 0);
    assert_eq!(pair.element().reading(), Some(first));
    pair.deliver(&one, 3, 0, 0);
    assert_eq!(pair.element().reading(), Some(second));
    // None of the three is handed out twice.
    pair.deliver(&zero, 3, 1, 0);
    pair.deliver(&one, 3, 2, 0);
    pair.deliver(&new_zero, 3, 3, 0);
    // Dropped, the old key answers no more: number 1 is ahead of the new key, and the cipher says no.
    pair.controller.drop_old(0).unwrap();
    pair.deliver(&one, 3, 3, 1);
    assert_eq!(pair.controller.drop_old(0), Err(Refusal::Key));
}

#[test]
fn a_refused_key_change_changes_nothing() {
    let mut pair = Pair::new();
    let (late, _) = pair.send();
    pair.change_key();
    let (fresh, _) = pair.send();
    let unused = Secret::agree(&mut pair.rng);
    assert_eq!(pair.controller.change_key(0, &unused), Err(Refusal::Held));
    pair.deliver(&late, 1, 0, 0);
    pair.deliver(&fresh, 2, 0, 0);
}

/// Delivers a message with each byte changed, and cut at each place, before the message itself.
fn forge_each_byte(setting: Setting) {
    let mut pair = Pair::of(setting);
    let (message, _) = pair.send();
    // The type byte and the Session ID say whose a message is, so these copies are no element's.
    let (mut strays, mut others) = (0, 0);
    let mut forge = |pair: &mut Pair, forged: &[u8], stray: bool| {
        strays += u64::from(stray);
        others += u64::from(!stray);
        pair.deliver(forged, 0, 0, others);
        assert_eq!(pair.controller.strays(), strays);
    };
    for place in 0..message.len() {
        let mut forged = message.clone();
        forged[place] ^= 0x10;
        forge(&mut pair, &forged, place < SESSION.end);
    }
    for cut in 0..message.len() {
        forge(&mut pair, &message[..cut], cut < 1 + BENCH_HEADER);
    }
    assert!(!pair.element().is_lit());
    pair.deliver(&message, 1, 0, others);
    // A repeat, or on the bench a record with a wrong MAC: only a number could tell it from that.
    let on_bench = u64::from(setting.profile == PROFILE_BENCH);
    pair.deliver(&message, 1, 1 - on_bench, others + on_bench);
    assert_eq!((pair.controller.poll(), pair.controller.poll()), (1, 0));
}

#[test]
fn no_forged_record_blocks_the_true_one() {
    for mac in MACS {
        for profile in [PROFILE_BUS, PROFILE_BENCH] {
            let setting = Setting {
                mac,
                profile,
                ..USUAL
            };
            forge_each_byte(setting);
        }
    }
}

/// What becomes of the burst of element 11 with a window of this width.
fn burst(width: u16) -> Tally {
    let mut pair = Pair::of(Setting { width, ..USUAL });
    let mut bus = Bus::new(PLANS[11].fate);
    for _ in 0..BURST {
        let (message, _) = pair.send();
        for arrived in bus.carry(&message) {
            pair.controller.deliver(&arrived);
        }
    }
    pair.element().tally()
}

#[test]
fn a_burst_needs_a_window_that_reaches_its_late_records() {
    for (width, old) in WIDTHS.into_iter().zip([3, 3, 0, 0]) {
        let tally = Tally {
            handed: BURST - old,
            repeats: old,
            others: 0,
        };
        assert_eq!(burst(width), tally);
    }
}

#[test]
fn a_record_of_no_row_is_unknown() {
    let mut pair = Pair::new();
    let (mut message, _) = pair.send();
    message[SESSION].fill(0);
    let record = read_message(&message).unwrap();
    let table = pair.controller.table().clone();
    assert_eq!(table.offer(record, CURRENT), Err(Refusal::Unknown));
    pair.deliver(&message, 0, 0, 0);
    assert_eq!(pair.controller.strays(), 1);
    assert_eq!(pair.controller.table(), &table);
}
