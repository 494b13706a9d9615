//! The test bench beside the bay: one board on an ordered cable, whose records say no number.
use crate::{Board, Bus, Controller, Element, Fate, Rng, Secret};
use husk::{Refusal, Setting, ENCRYPTED, PROFILE_BENCH};
use std::fmt;

/// How many records arrive before the plug is loose.
const SOUND: u64 = 40;
/// How many are sent behind the lost one.
const BEHIND: u64 = 9;
/// How many are sent under the new key.
const RENEWED: u64 = 10;

const SEED: u64 = 18;

/// The bench: its board, the cable, and a controller of its own, since the bay's table is full.
pub struct Bench {
    board: Board,
    cable: Bus,
    controller: Controller,
    rng: Rng,
}

/// The cable keeps order; one record is lost.
fn loose(n: u64) -> Fate {
    match n {
        SOUND => Fate::Lost,
        _ => Fate::Through,
    }
}

impl Bench {
    /// The bench before its first record.
    ///
    /// # Errors
    /// A call was refused.
    pub fn new() -> Result<Bench, Refusal> {
        let mut rng = Rng::new(SEED);
        let setting = Setting {
            profile: PROFILE_BENCH,
            ..Setting::new(ENCRYPTED, u32::from_le_bytes(rng.bytes()), u64::MAX)
        };
        let [secret, back] = [Secret::agree(&mut rng), Secret::agree(&mut rng)];
        let mut controller = Controller::new();
        controller.open(setting, &secret, &back)?;
        Ok(Bench {
            board: Board::new(setting, &secret, rng.split())?,
            cable: Bus::new(loose),
            controller,
            rng,
        })
    }

    /// Sends so many records over the cable, and answers how many were handed out.
    ///
    /// # Errors
    /// [`Refusal::Spent`], where the key has no number left.
    pub fn send(&mut self, records: u64) -> Result<u64, Refusal> {
        let before = self.element().tally().handed;
        for _ in 0..records {
            let message = self.board.send()?.unwrap_or_default();
            for arrived in self.cable.carry(&message) {
                self.controller.deliver(&arrived);
            }
        }
        Ok(self.element().tally().handed - before)
    }

    /// A new key at both ends, whose numbers begin again. On an ordered cable no record of the old one is
    /// late, so it is dropped at once.
    ///
    /// # Errors
    /// [`Refusal::Epochs`].
    pub fn change_key(&mut self) -> Result<(), Refusal> {
        let secret = Secret::agree(&mut self.rng);
        self.board.change_key(&secret)?;
        self.controller.change_key(0, &secret)?;
        self.controller.drop_old(0)
    }

    /// The controller's side of the board.
    pub fn element(&self) -> &Element {
        &self.controller.elements()[0]
    }

    /// Its controller.
    pub fn controller(&self) -> &Controller {
        &self.controller
    }

    /// The gap count of the current key.
    ///
    /// # Errors
    /// None: the current key of an open row is always there.
    pub fn gaps(&self) -> Result<u32, Refusal> {
        self.controller.gaps(self.element())
    }

    /// The bench's part of the story: records in order, one that is lost, and a new key.
    ///
    /// # Errors
    /// A call was refused that the story needs.
    pub fn run(&mut self) -> Result<Report, Refusal> {
        let sound = self.send(SOUND)?;
        let gaps = self.gaps()?;
        // The first of them is lost.
        let behind = self.send(1 + BEHIND)?;
        self.change_key()?;
        let renewed = self.send(RENEWED)?;
        Ok(Report {
            sound,
            gaps,
            behind,
            renewed,
        })
    }
}

/// How many of the bench's records were handed out.
#[derive(Clone, Copy, Debug, PartialEq, Eq)]
pub struct Report {
    /// Before one was lost.
    pub sound: u64,
    /// The gap count then.
    pub gaps: u32,
    /// Behind the lost one.
    pub behind: u64,
    /// Under the new key.
    pub renewed: u64,
}

impl fmt::Display for Report {
    fn fmt(&self, f: &mut fmt::Formatter<'_>) -> fmt::Result {
        let Report {
            sound,
            gaps,
            behind,
            renewed,
        } = self;
        writeln!(f, "bench: {sound} handed, {gaps} gaps")?;
        writeln!(
            f,
            "bench, one record lost: {behind} of {BEHIND} behind it handed, under a new key {renewed} of {RENEWED}"
        )
    }
}
