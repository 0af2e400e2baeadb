// Compares the engine with plain Rust: first what both answer, then how long they take.
mod compare;
mod compare_inputs;
mod compare_sheets;
mod contract;
mod engine;
mod plain;
mod program;
mod question;
mod random;
mod random_bounds;
mod random_endowments;
mod random_inputs;
mod random_portfolio;
mod random_sheets;
mod sheet;
mod sweeps;
mod tables;
mod timing;

use program::Program;
use random::Random;
use std::env;
use std::process::ExitCode;

// Compares the answers about contracts, the readings of sheets, and the answers to whole inputs.
fn compare_both(seed: u64, random: &mut Random, program: &Program) -> Result<(), String> {
    let count = compare::compare_all(random)?;
    println!("seed {seed}: {count} entries are the same");
    let [read, _, refused @ ..] = compare_sheets::compare_all(random)?;
    println!(
        "seed {seed}: {read} sheets are read the same, and by rules 2 to 8 are refused {refused:?}"
    );
    let tally = compare_inputs::compare_all(random, program)?;
    let refused = &tally.refused[1..];
    let lines = tally.lines;
    println!(
        "seed {seed}: {lines} lines of answers are the same, and by rules 1 to 21 are refused \
         {refused:?}"
    );
    Ok(())
}

fn run(seed: u64) -> Result<(), String> {
    let program = Program::new()?;
    let mut random = Random::new(seed);
    compare_both(seed, &mut random, &program)
        .map_err(|difference| format!("seed {seed}: the answers differ at {difference}"))?;
    tables::print_all(&mut random, &program)
}

fn main() -> ExitCode {
    let seed = match env::args().nth(1).map(|word| word.parse()) {
        None => 1,
        Some(Ok(seed)) => seed,
        Some(Err(_)) => {
            eprintln!("the seed is a number");
            return ExitCode::FAILURE;
        }
    };
    match run(seed) {
        Ok(()) => ExitCode::SUCCESS,
        Err(message) => {
            eprintln!("{message}");
            ExitCode::FAILURE
        }
    }
}
