//! Prints the bench's report, and the sheet of the bay after the last period.

fn main() -> Result<(), husk::Refusal> {
    print!("{}", demo::run()?);
    Ok(())
}
