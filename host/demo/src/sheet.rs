//! The docking sheet.
use crate::{Controller, Element, Tally, OLD_MAC};
use husk::{Refusal, LAYOUT_BIG, WIDTH};
use std::fmt;

/// One element's row.
#[derive(Clone, Copy, Debug, PartialEq, Eq)]
pub struct Row {
    /// Its Session ID.
    pub session: u32,
    /// The layout of its nonces.
    pub layout: u8,
    /// How many bytes its MAC has.
    pub mac: u8,
    /// How many numbers its window remembers.
    pub width: u16,
    /// What became of its deliveries.
    pub tally: Tally,
    /// The gap count of its current key.
    pub gaps: u32,
    /// Whether a record was handed out since the last poll.
    pub lit: bool,
}

impl Row {
    fn of(controller: &Controller, element: &Element) -> Result<Row, Refusal> {
        Ok(Row {
            session: element.session(),
            layout: element.layout(),
            mac: element.mac(),
            width: element.width(),
            tally: element.tally(),
            gaps: controller.gaps(element)?,
            lit: element.is_lit(),
        })
    }
}

/// A row for each element.
#[derive(Clone, Debug, PartialEq, Eq)]
pub struct Sheet {
    rows: Vec<Row>,
}

impl Sheet {
    /// The sheet as the controller stands.
    ///
    /// # Errors
    /// None: the current key of an open row is always there.
    pub fn of(controller: &Controller) -> Result<Sheet, Refusal> {
        let elements = controller.elements().iter();
        let rows: Result<_, _> = elements
            .map(|element| Row::of(controller, element))
            .collect();
        Ok(Sheet { rows: rows? })
    }

    /// The rows, by element.
    pub fn rows(&self) -> &[Row] {
        &self.rows
    }

    /// The elements that are dark.
    pub fn dark(&self) -> Vec<usize> {
        self.those(|row| !row.lit)
    }

    /// The elements whose board is the second maker's: their nonces have the other layout.
    pub fn second_maker(&self) -> Vec<usize> {
        self.those(|row| row.layout == LAYOUT_BIG)
    }

    /// The elements whose board is of the first series: their MAC is shorter.
    pub fn first_series(&self) -> Vec<usize> {
        self.those(|row| row.mac == OLD_MAC)
    }

    /// The elements whose window is wider than usual, for bursts.
    pub fn wide_window(&self) -> Vec<usize> {
        self.those(|row| row.width > WIDTH)
    }

    fn those(&self, such: fn(&Row) -> bool) -> Vec<usize> {
        (0..self.rows.len())
            .filter(|element| such(&self.rows[*element]))
            .collect()
    }
}

/// Elements by number, in a line.
fn list(elements: &[usize]) -> String {
    let numbers: Vec<String> = elements.iter().map(usize::to_string).collect();
    if numbers.is_empty() {
        return "none".to_string();
    }
    numbers.join(" ")
}

impl fmt::Display for Sheet {
    fn fmt(&self, f: &mut fmt::Formatter<'_>) -> fmt::Result {
        writeln!(f, "element  session   handed  repeats  others  gaps  light")?;
        for (element, row) in self.rows.iter().enumerate() {
            let Tally {
                handed,
                repeats,
                others,
            } = row.tally;
            let light = if row.lit { "lit" } else { "dark" };
            let (session, gaps) = (row.session, row.gaps);
            writeln!(
                f,
                "{element:7}  {session:08x}  {handed:6}  {repeats:7}  {others:6}  {gaps:4}  {light}"
            )?;
        }
        writeln!(f, "second maker: {}", list(&self.second_maker()))?;
        writeln!(f, "first series: {}", list(&self.first_series()))?;
        writeln!(f, "wide window: {}", list(&self.wide_window()))?;
        writeln!(f, "dark: {}", list(&self.dark()))
    }
}
