//! The proved table beside the reference's: every answer, every row and every output byte of each call.
mod call;
mod words;

pub use call::{Answer, Call};
pub use words::{rows, smudge, words};

use husk::raw;
use reference::random::{any_table, Mailbox, Rng};
use reference::{Refusal, Table};

/// How often each of the nine calls gave each answer.
#[derive(Clone, Debug, Default)]
pub struct TableTally {
    counts: [[u64; 25]; 9],
}

impl TableTally {
    /// All calls.
    pub fn all(&self) -> u64 {
        (0..9).map(|kind| self.of(kind)).sum()
    }

    /// The calls of one kind, by its place in [`Call::NAMES`].
    pub fn of(&self, kind: usize) -> u64 {
        self.counts[kind].iter().sum()
    }

    /// How often any call gave this answer.
    pub fn answered(&self, answer: u8) -> u64 {
        self.counts.iter().map(|row| row[usize::from(answer)]).sum()
    }

    /// Adds another tally to this one.
    pub fn add(&mut self, other: &TableTally) {
        for (mine, theirs) in self.counts.iter_mut().flatten().zip(other.counts.iter().flatten()) {
            *mine += theirs;
        }
    }
}

/// The two tables, in step.
struct Pair {
    proved: raw::Table,
    plain: Table,
    /// Random bits stand above the numbers before each call.
    smudged: bool,
}

impl Pair {
    /// One call in both. Answers its number, or tells what differs.
    fn step(&mut self, rng: &mut Rng, call: &Call) -> Result<u8, String> {
        if self.smudged {
            smudge(rng, &mut self.proved);
        }
        let before = self.proved;
        let no = rng.pick(&[0, 2, 3, 128, 255]);
        let proved = call.in_husk(&mut self.proved, no);
        let plain = call.in_reference(&mut self.plain);
        let after = self.plain.raw();
        let number = plain.number();
        let refused = number != 0 && number != Refusal::Inner.number();
        let changed = (0..16).filter(|&row| before.rows[row] != self.proved.rows[row]).count();
        let wrong = if proved != plain {
            "another answer"
        } else if rows(&self.proved) != after {
            "another table"
        } else if refused && changed != 0 {
            "a refusal changed the words"
        } else if changed > 1 {
            "another row changed"
        } else if !self.smudged && self.proved != words(&after) {
            "bits above a number"
        } else {
            return Ok(number);
        };
        Err(format!("{wrong}\ncall {call:?}\nproved {proved:?}\nplain {plain:?}\nfrom {before:?}\nto {:?}", self.proved))
    }
}

/// Runs from an empty table with few Session IDs, every other one with bits above the numbers.
pub fn table_runs(seed: u64, runs: u64, calls: u64) -> Result<TableTally, String> {
    let mut rng = Rng::new(seed);
    let mut tally = TableTally::default();
    for run in 0..runs {
        let mut pair = Pair { proved: raw::Table::default(), plain: Table::default(), smudged: run % 2 == 1 };
        let mut mailbox = Mailbox::new(&mut rng);
        let few = rng.pick(&[1, 3, 16, 60]);
        let sessions: Vec<u32> = (0..few).map(|id: u32| id.wrapping_mul(0x0101_0100)).collect();
        for _ in 0..calls {
            let call = Call::any(&mut rng, &pair.plain.raw(), &sessions, &mut mailbox);
            let number = pair.step(&mut rng, &call)?;
            tally.counts[call.kind()][usize::from(number)] += 1;
        }
    }
    Ok(tally)
}

/// Single calls on any table: rows that are bad or nearly free, shared Session IDs, split rows; each
/// with and without bits above the numbers.
pub fn table_calls(seed: u64, calls: u64) -> Result<TableTally, String> {
    let mut rng = Rng::new(seed);
    let mut tally = TableTally::default();
    for _ in 0..calls {
        let table = any_table(&mut rng);
        let mut sessions = table.map(|row| row.receiver.setting.session).to_vec();
        sessions.extend((0..12).map(|_| rng.word() as u32));
        let mut mailbox = Mailbox::new(&mut rng);
        let call = Call::any(&mut rng, &table, &sessions, &mut mailbox);
        for smudged in [false, true] {
            let mut pair = Pair { proved: words(&table), plain: Table::from_raw(table), smudged };
            if rows(&pair.proved) != table {
                return Err(format!("words do not give back {table:?}"));
            }
            let number = pair.step(&mut rng, &call)?;
            tally.counts[call.kind()][usize::from(number)] += 1;
        }
    }
    Ok(tally)
}
