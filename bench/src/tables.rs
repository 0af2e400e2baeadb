// Tables of times.
use crate::compare_inputs::{self, Tally};
use crate::contract::{Contract, LIMIT};
use crate::program::Program;
use crate::question::Question;
use crate::random::Random;
use crate::sweeps;
use crate::timing::{self, Times, Work};

// The sizes that are timed: states and years.
const SIZES: [(&str, usize, usize); 3] = [("full", 8, 120), ("middle", 3, 40), ("small", 2, 60)];

// A sheet of all years with every share would leave no room for commands.
const INPUT_SIZES: [(&str, usize, usize); 3] =
    [("full", 8, 60), ("middle", 3, 40), ("small", 2, 60)];

// What a table times: how many pieces a round has at each size, for which entries, and what is
// asked at them.
struct Table {
    heading: &'static str,
    pieces: [usize; 3],
    entries: fn(&mut Random, &Contract, usize) -> Option<Vec<i64>>,
    work: for<'a> fn(&Contract, &'a [i64]) -> Work<'a>,
}

const TABLES: [Table; 4] = [
    Table {
        heading: "One sweep, V(0, 0) at a premium",
        pieces: [50, 500, 500],
        entries: premiums,
        work: |_, premiums| sweeps::sweeps(premiums),
    },
    Table {
        heading: "One span, both ends at (0, 0) at a premium",
        pieces: [50, 500, 500],
        entries: premiums,
        work: |_, premiums| spans(premiums),
    },
    Table {
        heading: "One course, from year 0 at a premium",
        pieces: [10, 10, 10],
        entries: premiums,
        work: courses,
    },
    Table {
        heading: "One least premium, for a bound of V(0, 0)",
        pieces: [10, 50, 50],
        entries: Random::bounds,
        work: |_, bounds| sweeps::pricings(bounds),
    },
];

fn premiums(random: &mut Random, _contract: &Contract, count: usize) -> Option<Vec<i64>> {
    Some((0..count).map(|_| random.within(0, LIMIT)).collect())
}

fn spans(premiums: &[i64]) -> Work<'_> {
    let ask = |premiums| Question::Spans {
        state: 0,
        year: 0,
        premiums,
    };
    Work::of_one_call(ask, premiums)
}

// A call for each course, against as many for the course past the last year, which has no entries.
fn courses<'a>(contract: &Contract, entries: &'a [i64]) -> Work<'a> {
    let from = |year| {
        let ask = |premium: &i64| Question::Course {
            year,
            premium: *premium,
        };
        entries.iter().map(ask).collect()
    };
    Work {
        all: from(0),
        none: from(contract.years + 1),
        pieces: entries.len(),
    }
}

fn print_heading(heading: &str) {
    println!("\n{heading}");
    println!("size     states  years      engine       plain   ratio");
}

fn print_row(name: &str, states: usize, years: usize, times: &Times) {
    println!(
        "{name:<8}{states:>7}{years:>7}{:>12.0}{:>12.0}{:>8.2}",
        times.engine,
        times.plain,
        times.engine / times.plain
    );
}

fn print(table: &Table, random: &mut Random) {
    print_heading(table.heading);
    for ((name, states, years), pieces) in SIZES.into_iter().zip(table.pieces) {
        let (contract, entries) = random.contract_with(
            |random| random.contract(states, years, years),
            |random, contract| (table.entries)(random, contract, pieces),
        );
        let times = timing::compare(&contract, &(table.work)(&contract, &entries));
        print_row(name, states, years, &times);
    }
}

// The sheets have a line for each share.
fn print_readings(random: &mut Random) {
    print_heading("One sheet, read into columns");
    for ((name, states, years), pieces) in SIZES.into_iter().zip([2, 50, 50]) {
        let sheet = random.full_sheet(states, years);
        let times = timing::compare_readings(&sheet, pieces);
        print_row(name, states, years, &times);
    }
}

// The inputs are near the most bytes that are answered. Both sides answer them the same.
fn print_answers(random: &mut Random, program: &Program) -> Result<(), String> {
    print_heading("One input of a sheet and commands, answered");
    for (name, states, years) in INPUT_SIZES {
        let input = random.full_input(states, years);
        let answer = compare_inputs::compare(program, &input)?;
        let times = timing::compare_answers(program, &input, timing::INPUT_ROUNDS);
        print_row(name, states, years, &times);
        let mut tally = Tally::default();
        tally.count(&answer);
        let refused: usize = tally.refused.iter().sum();
        let (bytes, commands) = (input.len(), tally.lines);
        println!("        {bytes} bytes, {commands} commands, {refused} of them refused");
    }
    Ok(())
}

// The input is answered the same by both sides, and none of its lines is refused.
fn print_portfolio(random: &mut Random, program: &Program) -> Result<(), String> {
    let input = random.portfolio();
    let mut tally = Tally::default();
    tally.count(&compare_inputs::compare(program, &input)?);
    if tally.refused.iter().any(|count| *count > 0) {
        return Err("a contract of the portfolio is refused".to_owned());
    }
    let times = timing::compare_answers(program, &input, timing::PORTFOLIO_ROUNDS);
    let contracts = tally.lines / 3;
    let each_second = |time: f64| contracts as f64 * 1e9 / time;
    println!("\nContracts that are issued, closed for a year and left, of one input, in a second");
    println!("contracts      bytes      engine       plain   ratio");
    println!(
        "{contracts:>9}{:>11}{:>12.0}{:>12.0}{:>8.2}",
        input.len(),
        each_second(times.engine),
        each_second(times.plain),
        times.engine / times.plain
    );
    Ok(())
}

pub fn print_all(random: &mut Random, program: &Program) -> Result<(), String> {
    println!(
        "\nNanoseconds, the best of {} rounds in turn, of {} for whole inputs, tables taken in",
        timing::ROUNDS,
        timing::INPUT_ROUNDS
    );
    for table in &TABLES {
        print(table, random);
    }
    print_readings(random);
    print_answers(random, program)?;
    sweeps::print_all(random, &SIZES);
    print_portfolio(random, program)
}
