// How many sweeps a least premium takes. No call tells, so its time is divided by that of a sweep.
use crate::contract::{Contract, LIMIT, MOST_STATES, MOST_YEARS};
use crate::question::Question;
use crate::random::Random;
use crate::random_bounds::least_premium;
use crate::timing::{self, Work};

// A round has enough sweeps to go through so many shares, and as many that the first, which finds
// nothing at hand, weighs little. It takes a fraction of the time after which other programs get
// their turn.
const ROUND_SHARES: usize = 4_000;
const ROUND_SWEEPS: usize = 4;
const ROUNDS: usize = 51;

// How many contracts are counted at each size, and of random sizes. Those have enough years for a
// sweep to outweigh what a search does besides.
const COUNTED: usize = 50;
const COUNTED_RANDOM: usize = 300;
const COUNTED_ENDOWMENTS: usize = 330;
const LEAST_COUNTED_YEARS: usize = 40;

// Sweeps back to V(0, 0), one at each premium.
pub fn sweeps(premiums: &[i64]) -> Work<'_> {
    let ask = |premiums| Question::Reserves {
        state: 0,
        year: 0,
        premiums,
    };
    Work::of_one_call(ask, premiums)
}

// The searches for the least premiums, one for each bound of V(0, 0).
pub fn pricings(bounds: &[i64]) -> Work<'_> {
    let ask = |bounds| Question::Premiums {
        state: 0,
        year: 0,
        bounds,
    };
    Work::of_one_call(ask, bounds)
}

// The sweeps of one search, by its time on either side, and those of plain Rust by its answer.
struct Sweeps {
    engine: f64,
    plain: f64,
    plain_known: f64,
}

// How often plain Rust halves the range: its least premium alone says which half is kept.
fn halvings(least: i64) -> usize {
    let (mut low, mut high, mut count) = (0, LIMIT + 1, 0);
    while low < high {
        let middle = (low + high) / 2;
        if middle < least {
            low = middle + 1;
        } else {
            high = middle;
        }
        count += 1;
    }
    count
}

// Counts the sweeps of the search for one bound, against sweeps at the premium that is found.
fn count_one(contract: &Contract, bound: i64) -> Sweeps {
    let pieces = ROUND_SHARES
        .div_ceil(contract.shares.len())
        .max(ROUND_SWEEPS);
    // Where none will do, halving ends past the limit.
    let least = least_premium(contract, bound);
    let end = if least < 0 { LIMIT + 1 } else { least };
    let (bounds, premiums) = (vec![bound; pieces], vec![end.min(LIMIT); pieces]);
    let multiple = timing::multiple(contract, &pricings(&bounds), &sweeps(&premiums), ROUNDS);
    Sweeps {
        engine: multiple.engine,
        plain: multiple.plain,
        plain_known: halvings(end) as f64,
    }
}

// Counts the sweeps for a bound of each of so many random contracts.
fn count_sweeps(
    random: &mut Random,
    count: usize,
    contract: impl Fn(&mut Random) -> Contract,
    bound: impl Fn(&mut Random, &Contract) -> Option<Vec<i64>>,
) -> Vec<Sweeps> {
    let mut count_next = || {
        let (contract, bounds) = random.contract_with(&contract, &bound);
        count_one(&contract, bounds[0])
    };
    (0..count).map(|_| count_next()).collect()
}

// A quotient of times that is further than a quarter from a whole number does not tell which it is.
fn print_counts(name: &str, states: &str, years: &str, counts: &[Sweeps]) {
    let contracts = counts.len();
    let mean = |count: fn(&Sweeps) -> f64| {
        let sum: f64 = counts.iter().map(count).sum();
        sum / contracts as f64
    };
    let engine = counts.iter().map(|count| count.engine);
    let unclear = engine
        .clone()
        .filter(|count| (count - count.round()).abs() > 0.25);
    println!(
        "{name:<8}{states:>7}{years:>7}{contracts:>11}{:>8.2}{:>6.0}{:>9}{:>8.2}{:>7.2}",
        mean(|count| count.engine),
        engine.fold(0.0, f64::max),
        unclear.count(),
        mean(|count| count.plain),
        mean(|count| count.plain_known)
    );
}

// A random number of states and of years.
fn any_size(random: &mut Random) -> (usize, usize) {
    let states = random.count(2, MOST_STATES);
    (states, random.count(LEAST_COUNTED_YEARS, MOST_YEARS))
}

fn any_contract(random: &mut Random) -> Contract {
    let (states, years) = any_size(random);
    let plan_years = random.count(0, MOST_YEARS);
    random.contract(states, years, plan_years)
}

fn any_endowment(random: &mut Random) -> Contract {
    let (states, years) = any_size(random);
    random.endowment(states, years)
}

// Endowments are counted for any deposit, also one that suffices or that no premium will do for;
// the others for a bound whose least premium is inside the range.
pub fn print_all(random: &mut Random, sizes: &[(&str, usize, usize)]) {
    println!("\nSweeps for a least premium: its time over that of a sweep");
    println!("size     states  years  contracts  engine  most  unclear   plain  known");
    let inside = |random: &mut Random, contract: &Contract| random.bounds(contract, 1);
    for &(name, states, years) in sizes {
        let contract = |random: &mut Random| random.contract(states, years, years);
        let counts = count_sweeps(random, COUNTED, contract, inside);
        print_counts(name, &states.to_string(), &years.to_string(), &counts);
    }
    let counts = count_sweeps(random, COUNTED_RANDOM, any_contract, inside);
    print_counts("random", "2-8", "40-120", &counts);
    let deposit = |random: &mut Random, _: &Contract| Some(vec![random.deposit()]);
    let counts = count_sweeps(random, COUNTED_ENDOWMENTS, any_endowment, deposit);
    print_counts("endowed", "2-8", "40-120", &counts);
}
