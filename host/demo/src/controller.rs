//! The bay controller.
use crate::{Element, Secret};
use husk::wrapping::read_message;
use husk::{Controller as Table, Refusal, Setting, BENCH_HEADER, CURRENT};

/// The controller's ends of all channels of the bay in one table, and for each row what the table has not:
/// the keys for the cipher, and the counts.
#[derive(Default)]
pub struct Controller {
    table: Table,
    elements: Vec<Element>,
    strays: u64,
}

impl Controller {
    /// A controller of no element yet.
    pub fn new() -> Controller {
        Controller::default()
    }

    /// One more element, with the setting that its board has too and what the handshake gave for each of
    /// the two directions. Answers which it is.
    ///
    /// # Errors
    /// [`Refusal::Setting`]; [`Refusal::Twice`]; [`Refusal::Rows`], after sixteen.
    pub fn open(
        &mut self,
        setting: Setting,
        receive: &Secret,
        send: &Secret,
    ) -> Result<usize, Refusal> {
        let row = self.table.open(setting, receive.iv(), send.iv())?;
        let element = Element::new(setting, row, receive);
        self.elements.push(element);
        Ok(self.elements.len() - 1)
    }

    /// Takes a message from the bus. Whose it is says only the Session ID of the record in it.
    pub fn deliver(&mut self, message: &[u8]) {
        let record = read_message(message).unwrap_or_default();
        let mut elements = self.elements.iter_mut();
        match elements.find(|element| session(record) == Some(element.session())) {
            Some(element) => element.deliver(&mut self.table, record),
            // No key to try: the table, too, would answer Short or Unknown.
            None => self.strays += 1,
        }
    }

    /// How many elements are lit; all are dark after it.
    pub fn poll(&mut self) -> usize {
        let lit = self.elements.iter_mut().map(Element::poll);
        lit.filter(|lit| *lit).count()
    }

    /// A new key and IV for what an element sends. Its current key becomes the old one, for records that
    /// are late.
    ///
    /// # Errors
    /// [`Refusal::Held`], where the old key was not dropped; [`Refusal::Epochs`].
    pub fn change_key(&mut self, element: usize, secret: &Secret) -> Result<(), Refusal> {
        self.elements[element].change_key(&mut self.table, secret)
    }

    /// Forgets an element's old key.
    ///
    /// # Errors
    /// [`Refusal::Key`], where there is none.
    pub fn drop_old(&mut self, element: usize) -> Result<(), Refusal> {
        self.elements[element].drop_old(&mut self.table)
    }

    /// The gap count of an element's current key.
    ///
    /// # Errors
    /// None: the current key of an open row is always there.
    pub fn gaps(&self, element: &Element) -> Result<u32, Refusal> {
        self.table.gaps(element.row(), CURRENT)
    }

    /// All elements.
    pub fn elements(&self) -> &[Element] {
        &self.elements
    }

    /// How many messages were no element's: there was no record in them, or one with a Session ID that no
    /// row has.
    pub fn strays(&self) -> u64 {
        self.strays
    }

    /// The table.
    pub fn table(&self) -> &Table {
        &self.table
    }
}

/// The Session ID of a record; none where the record is shorter than the shorter header.
fn session(record: &[u8]) -> Option<u32> {
    let header = record.get(..BENCH_HEADER)?;
    Some(u32::from_le_bytes(header[..4].try_into().ok()?))
}
