//! The benchmark: how long a quote and an admission with its release take in the proved archive and in a plain Rust
//! search by the paper's lines, with all rounds, with an early stop and with the proved search's own stop; then all jobs in
//! one call against the same jobs admitted one at a time; then each call of the C interface at its largest or slowest input. docs/performance.md has what it prints, docs/MANUAL.md the last
//! table.

mod answer;
mod calls;
mod goals;
mod implementations;
mod jobs;
mod nets;
mod opening;
mod places;
mod plain;
mod proved;
mod requests;
mod tables;
mod timing;

use std::process::ExitCode;

fn tables() -> Result<(), String> {
    let args: Vec<String> = std::env::args().skip(1).collect();
    let mut places = places::Places::new(&args)?;
    let mut implementations = implementations::Implementations::new();
    let mut goals = goals::Goals::default();
    tables::by_outcome(&mut places, &mut implementations, &mut goals)?;
    println!();
    tables::by_held_circuits(&mut places, &mut implementations, &mut goals)?;
    println!();
    tables::by_x(&mut places, &mut implementations)?;
    println!();
    opening::table(&mut places, &mut implementations.proved, &mut goals)?;
    if places.writes() {
        return Ok(());
    }
    println!();
    goals.print();
    places.print();
    println!();
    calls::worst()
}

fn main() -> ExitCode {
    match tables() {
        Ok(()) => ExitCode::SUCCESS,
        Err(message) => {
            eprintln!("benchmark: {message}");
            ExitCode::FAILURE
        }
    }
}
