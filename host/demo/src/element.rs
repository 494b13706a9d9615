//! What the controller has for one element beside its row of the table.
use crate::{Reading, Secret};
use cipher::Aead;
use husk::{Controller as Table, Refusal, Setting, CURRENT, OLD};

/// What became of an element's deliveries.
#[derive(Clone, Copy, Debug, Default, PartialEq, Eq)]
pub struct Tally {
    /// Records handed out.
    pub handed: u64,
    /// Repeat and Old: the record was there before, or may have been.
    pub repeats: u64,
    /// Every other refusal.
    pub others: u64,
}

/// An element: its row in the table, and the keys for the cipher. Each key stands beside the slot that the
/// row has for it, and changes with it.
pub struct Element {
    setting: Setting,
    row: u8,
    current: Aead,
    old: Option<Aead>,
    tally: Tally,
    lit: bool,
    reading: Option<Reading>,
}

impl Element {
    /// The element of a row that was opened with this setting and this secret. It is dark.
    pub(crate) fn new(setting: Setting, row: u8, secret: &Secret) -> Element {
        Element {
            setting,
            row,
            current: secret.aead(setting),
            old: None,
            tally: Tally::default(),
            lit: false,
            reading: None,
        }
    }

    /// Takes a record and counts what became of it. Only a record handed out lights the element.
    pub(crate) fn deliver(&mut self, table: &mut Table, record: &[u8]) {
        match self.read(table, record) {
            Ok(reading) => {
                self.tally.handed += 1;
                self.lit = true;
                self.reading = reading;
            }
            Err(Refusal::Repeat | Refusal::Old) => self.tally.repeats += 1,
            Err(_) => self.tally.others += 1,
        }
    }

    /// Reads a record under the current key and, where that may not be the record's key, under the old
    /// one. A record does not say its key, and number 3 of the old key is no repeat of number 3 of the new.
    fn read(&mut self, table: &mut Table, record: &[u8]) -> Result<Option<Reading>, Refusal> {
        match self.settle(table, record, CURRENT) {
            Err(refusal) if self.old.is_some() && depends_on_key(refusal) => {
                let old = self.settle(table, record, OLD);
                // The cipher's no says that the record is not of the current key, so the old one's answer
                // counts. Where the current key knew the number, its answer does.
                old.map_err(|second| match refusal {
                    Refusal::Mac => second,
                    first => first,
                })
            }
            answer => answer,
        }
    }

    /// Offer, the cipher, Settle: the cipher runs on exactly what Offer answered, and Settle is given the
    /// very same record, slot, key count and number, and the cipher's own answer and text. The table finds
    /// the row itself, by the record's Session ID.
    fn settle(
        &mut self,
        table: &mut Table,
        record: &[u8],
        slot: u8,
    ) -> Result<Option<Reading>, Refusal> {
        let offered = table.offer(record, slot)?;
        let aead = match slot {
            OLD => self.old.as_mut().ok_or(Refusal::Key)?,
            _ => &mut self.current,
        };
        let (assoc, rest) = record.split_at(offered.assoc);
        let (text, mac) = rest.split_at(offered.text - offered.assoc);
        let mut plain = text.to_vec();
        let yes = aead.open(&offered.nonce, assoc, &mut plain, mac);
        let (count, number) = (offered.count, offered.number);
        let app = table.settle(record, slot, count, number, yes, &plain)?;
        Reading::read(app)
    }

    /// A new key and IV. The current key becomes the old one, for records that are late.
    ///
    /// # Errors
    /// [`Refusal::Held`], where the old key was not dropped; [`Refusal::Epochs`].
    pub(crate) fn change_key(&mut self, table: &mut Table, secret: &Secret) -> Result<(), Refusal> {
        table.change_receiver(self.row, secret.iv())?;
        let fresh = secret.aead(self.setting);
        self.old = Some(std::mem::replace(&mut self.current, fresh));
        Ok(())
    }

    /// Forgets the old key at both places.
    ///
    /// # Errors
    /// [`Refusal::Key`], where there is none.
    pub(crate) fn drop_old(&mut self, table: &mut Table) -> Result<(), Refusal> {
        table.drop_old(self.row)?;
        self.old = None;
        Ok(())
    }

    /// Whether a record was handed out since the last call. It is dark again after it.
    pub(crate) fn poll(&mut self) -> bool {
        std::mem::take(&mut self.lit)
    }

    /// Its Session ID.
    pub fn session(&self) -> u32 {
        self.setting.session
    }

    /// The layout of its nonces.
    pub fn layout(&self) -> u8 {
        self.setting.layout
    }

    /// How many bytes its MAC has.
    pub fn mac(&self) -> u8 {
        self.setting.mac
    }

    /// How many numbers its window remembers.
    pub fn width(&self) -> u16 {
        self.setting.width
    }

    /// Its row in the controller's table.
    pub fn row(&self) -> u8 {
        self.row
    }

    /// The counts since the start.
    pub fn tally(&self) -> Tally {
        self.tally
    }

    /// Whether a record was handed out since the last poll.
    pub fn is_lit(&self) -> bool {
        self.lit
    }

    /// The reading that was handed out last.
    pub fn reading(&self) -> Option<Reading> {
        self.reading
    }
}

/// Whether another key might answer otherwise: these speak of the record's number or its MAC, all others
/// of its form.
fn depends_on_key(refusal: Refusal) -> bool {
    matches!(
        refusal,
        Refusal::Spent | Refusal::Old | Refusal::Repeat | Refusal::Mac
    )
}
