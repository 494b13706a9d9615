//! The bay: boards, bridge, bus and controller, tick by tick.
use crate::{Board, Bridge, Bus, Controller, Plan, Rng, Secret, KT1, PLANS};
use husk::{Refusal, Setting};

/// The ticks of a period.
pub const PERIOD: u32 = 40;
/// The periods of the story.
pub const PERIODS: u32 = 3;

const SEED: u64 = 16;
/// The seed of the other direction, from the controller to the boards, where the story sends nothing.
const BACK_SEED: u64 = 17;

/// A board's place in the bay.
struct Place {
    plan: Plan,
    board: Board,
    bus: Bus,
}

/// The whole bay.
pub struct Bay {
    places: Vec<Place>,
    bridge: Bridge,
    controller: Controller,
    rng: Rng,
    tick: u32,
}

impl Bay {
    /// The bay before its first tick, with what came before.
    ///
    /// # Errors
    /// A call was refused.
    pub fn new() -> Result<Bay, Refusal> {
        let mut bay = Bay {
            places: Vec::new(),
            bridge: Bridge::default(),
            controller: Controller::new(),
            rng: Rng::new(SEED),
            tick: 0,
        };
        let mut back = Rng::new(BACK_SEED);
        for plan in PLANS {
            bay.meet(plan, &Secret::agree(&mut back))?;
        }
        for (element, plan) in PLANS.iter().enumerate() {
            for _ in 0..plan.before {
                bay.step(element)?;
            }
        }
        Ok(bay)
    }

    /// A board and its row at the controller, which have a Session ID, keys and IVs of their own.
    fn meet(&mut self, plan: Plan, back: &Secret) -> Result<(), Refusal> {
        let session = u32::from_le_bytes(self.rng.bytes());
        let setting = Setting {
            layout: plan.layout,
            mac: plan.mac,
            width: plan.width,
            ..Setting::new(plan.mode, session, u64::MAX)
        };
        let secret = Secret::agree(&mut self.rng);
        self.places.push(Place {
            plan,
            board: Board::new(setting, &secret, self.rng.split())?,
            bus: Bus::new(plan.fate),
        });
        self.controller.open(setting, &secret, back)?;
        Ok(())
    }

    /// Runs for one period.
    ///
    /// # Errors
    /// A call was refused that the story needs.
    pub fn period(&mut self) -> Result<(), Refusal> {
        for _ in 0..PERIOD {
            for element in 0..self.places.len() {
                self.happen(element)?;
                self.step(element)?;
            }
            self.tick += 1;
        }
        Ok(())
    }

    /// What an element's plan has for this tick.
    fn happen(&mut self, element: usize) -> Result<(), Refusal> {
        let place = &mut self.places[element];
        if place.plan.hangs == Some(self.tick) {
            place.board.hang();
        }
        if let Some(change) = place.plan.changes_key {
            if self.tick == change {
                let secret = Secret::agree(&mut self.rng);
                place.board.change_key(&secret)?;
                self.controller.change_key(element, &secret)?;
            }
            if self.tick == change + KT1 {
                self.controller.drop_old(element)?;
            }
        }
        Ok(())
    }

    /// One message on its way: from the board, or once more from the mailbox, to the controller.
    fn step(&mut self, element: usize) -> Result<(), Refusal> {
        let place = &mut self.places[element];
        let message = place.board.send()?;
        if let Some(message) = self.bridge.pass(element, message) {
            for arrived in place.bus.carry(message) {
                self.controller.deliver(&arrived);
            }
        }
        Ok(())
    }

    /// How many elements are lit; all are dark after it.
    pub fn poll(&mut self) -> usize {
        self.controller.poll()
    }

    /// The controller.
    pub fn controller(&self) -> &Controller {
        &self.controller
    }
}
