//! `soak CALLS [SECONDS]`: the proved version beside the independent one, on fresh seeds, until so many
//! calls were compared or the time is up. Prints what it ran; ends with 1 at the first difference.
use compare::table::{table_calls, table_runs, Call, TableTally};
use compare::Husk;
use reference::compare::{function_calls, receiver_calls, receiver_runs, sender_calls, sender_runs, Difference, Tally};
use reference::version::Memory;
use reference::{Kind, Refusal};
use std::time::{Duration, Instant};

/// One round: all kinds of calls from one seed.
fn round(seed: u64) -> Result<Tally, Difference> {
    let mut tally = receiver_calls::<Husk, Memory>(seed, 100_000)?;
    tally.add(&receiver_runs::<Husk, Memory>(seed, 250, 400)?);
    tally.add(&sender_calls::<Husk, Memory>(seed, 20_000)?);
    tally.add(&sender_runs::<Husk, Memory>(seed, 100, 200)?);
    tally.add(&function_calls::<Husk, Memory>(seed, 40_000)?);
    Ok(tally)
}

/// The same of the table.
fn table_round(seed: u64) -> Result<TableTally, String> {
    let mut tally = table_runs(seed, 100, 400)?;
    tally.add(&table_calls(seed, 10_000)?);
    Ok(tally)
}

fn all(tally: &Tally) -> u64 {
    Kind::ALL.iter().map(|&kind| tally.of(kind)).sum()
}

fn argument(place: usize, otherwise: u64) -> u64 {
    std::env::args().nth(place).and_then(|word| word.parse().ok()).unwrap_or(otherwise)
}

fn differ(seed: u64, difference: &str) -> ! {
    println!("seed {seed}: {difference}");
    std::process::exit(1);
}

fn main() {
    let wanted = argument(1, 100_000_000);
    let until = Instant::now() + Duration::from_secs(argument(2, 24 * 3600));
    let start = Instant::now();
    let mut tally = Tally::default();
    let mut tables = TableTally::default();
    let mut seed = 1;
    while all(&tally) + tables.all() < wanted && Instant::now() < until {
        match round(seed) {
            Ok(more) => tally.add(&more),
            Err(difference) => differ(seed, &difference.to_string()),
        }
        match table_round(seed) {
            Ok(more) => tables.add(&more),
            Err(difference) => differ(seed, &difference),
        }
        seed += 1;
    }
    let calls = all(&tally) + tables.all();
    println!("{} calls compared in {} seconds, seeds 1 to {}, no difference", calls, start.elapsed().as_secs(), seed - 1);
    for &kind in Kind::ALL.iter() {
        println!("  {:?}: {}", kind, tally.of(kind));
    }
    for refusal in Refusal::ALL {
        println!("  {:?}: {} times", refusal, tally.refused(refusal));
    }
    println!("of them {} calls of the table", tables.all());
    for (kind, name) in Call::NAMES.iter().enumerate() {
        println!("  {}: {}", name, tables.of(kind));
    }
    for refusal in Refusal::ALL.into_iter().chain(Refusal::TABLE) {
        println!("  {:?}: {} times", refusal, tables.answered(refusal.number()));
    }
}
