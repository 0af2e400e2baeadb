// Whether both sides answer the same.
use crate::contract::{Contract, LIMIT};
use crate::question::Question;
use crate::random::Random;
use crate::{engine, plain};

const CONTRACTS: usize = 2_000;

// What stands in a place to which nobody has written.
const UNTOUCHED: i64 = i64::MIN + 7;

// Both answers to a question, with so many places to write to: how many of them, or the difference.
fn compare(contract: &Contract, question: &Question, count: usize) -> Result<usize, String> {
    let mut by_engine = vec![UNTOUCHED; count];
    let mut by_plain = by_engine.clone();
    let engine_number = engine::answer(contract, question, &mut by_engine);
    let plain_number = plain::answer(contract, question, &mut by_plain);
    if engine_number == plain_number && by_engine == by_plain {
        return Ok(count);
    }
    Err(format!(
        "{question:?}, {count} places:\n\
         engine {engine_number} {by_engine:?}\n\
         plain  {plain_number} {by_plain:?}\n\
         {contract:?}"
    ))
}

// Bounds about the reserves at some premiums, among them those that just suffice and that no
// premium reaches.
fn bounds(contract: &Contract, state: usize, year: usize, premiums: &[i64]) -> Vec<i64> {
    let question = Question::Reserves {
        state,
        year,
        premiums,
    };
    let mut reserves = vec![0; premiums.len()];
    plain::answer(contract, &question, &mut reserves);
    let mut bounds = vec![0, i64::MIN, i64::MAX];
    bounds.extend(reserves.iter().flat_map(|reserve| [reserve - 1, *reserve]));
    bounds
}

// One question of each kind.
fn questions<'a>(
    state: usize,
    year: usize,
    premiums: &'a [i64],
    bounds: &'a [i64],
) -> [Question<'a>; 4] {
    [
        Question::Reserves {
            state,
            year,
            premiums,
        },
        Question::Spans {
            state,
            year,
            premiums,
        },
        Question::Course {
            year,
            premium: premiums[0],
        },
        Question::Premiums {
            state,
            year,
            bounds,
        },
    ]
}

// Compares both answers to each question, with as many places as are made of those that it takes.
fn compare_each(
    contract: &Contract,
    questions: &[Question],
    made: impl Fn(usize) -> usize,
) -> Result<usize, String> {
    let mut count = 0;
    for question in questions {
        count += compare(contract, question, made(question.places(contract)))?;
    }
    Ok(count)
}

// Compares figures in every state, also in one more than there are: nothing follows there.
fn compare_states(contract: &Contract, year: usize, premiums: &[i64]) -> Result<usize, String> {
    let mut count = 0;
    for state in 0..=contract.states {
        let [reserves, spans, ..] = questions(state, year, premiums, &[]);
        count += compare_each(contract, &[reserves, spans], |places| places)?;
    }
    Ok(count)
}

// Compares what is refused: places that do not fit, and premiums out of range.
fn compare_refused(
    contract: &Contract,
    asked: &[Question],
    unlawful: &[Question],
) -> Result<(), String> {
    compare_each(contract, asked, |places| places + 1)?;
    compare_each(contract, asked, |places| places.saturating_sub(1))?;
    compare_each(contract, unlawful, |places| places)?;
    Ok(())
}

fn compare_contract(random: &mut Random) -> Result<usize, String> {
    let mut contract = random.any_contract();
    let premiums = [random.amount(), 0, random.within(0, LIMIT), LIMIT];
    let outside = [random.within(-2, -1), LIMIT + 1];
    let between = random.count(0, contract.years);
    let years = [0, between, random.count(contract.years, 125)];
    let state = random.count(0, contract.states);
    let year = years[random.count(0, 2)];
    let bounds = bounds(&contract, state, year, &premiums);
    let asked = questions(state, year, &premiums, &bounds);
    let mut count = compare_each(&contract, &asked, |places| places)?;
    for year in years {
        count += compare_states(&contract, year, &premiums)?;
    }
    compare_refused(
        &contract,
        &asked,
        &questions(state, year, &outside, &bounds),
    )?;
    random.spoil(&mut contract);
    compare_each(&contract, &asked, |places| places)?;
    Ok(count)
}

// Compares random contracts. Answers how many entries were the same.
pub fn compare_all(random: &mut Random) -> Result<usize, String> {
    let mut count = 0;
    for _ in 0..CONTRACTS {
        count += compare_contract(random)?;
    }
    Ok(count)
}
