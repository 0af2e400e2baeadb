// The same rules in ordinary Rust, written from docs/RULES.md alone, and for sheets from the
// specifications of crates/sheet.
mod commands;
mod desk;
mod endowment;
mod kept;
mod lines;
mod sheets;
mod sweeps;
mod tables;

pub use desk::answer_input;
pub use sheets::read_sheet;

use crate::contract::{Contract, LIMIT};
use crate::question::Question;
use sweeps::{Valued, least_premium};
use tables::{Basis, Plan, all_within};

// The numbers of the refusals that are not those of tables.
const SHORT_COLUMN: u8 = 22;
const UNFIT_PLACES: u8 = 253;
const UNFIT_PREMIUM: u8 = 254;

// What is written where no premium will do.
const NO_PREMIUM: i64 = -1;

// A contract whose columns have been checked.
struct Tables<'a> {
    basis: Basis<'a>,
    plan: Plan<'a>,
}

impl Tables<'_> {
    fn at(&self, premium: i64) -> Valued<'_, Plan<'_>> {
        Valued {
            basis: &self.basis,
            plan: &self.plan,
            premium,
        }
    }

    fn write_reserves(&self, state: usize, year: usize, premiums: &[i64], reserves: &mut [i64]) {
        for (place, premium) in reserves.iter_mut().zip(premiums) {
            *place = self.at(*premium).reserve(state, year);
        }
    }

    fn write_spans(&self, state: usize, year: usize, premiums: &[i64], places: &mut [i64]) {
        let (least, greatest) = places.split_at_mut(premiums.len());
        for (k, premium) in premiums.iter().enumerate() {
            (least[k], greatest[k]) = self.at(*premium).span(state, year);
        }
    }

    fn write_course(&self, first: usize, premium: i64, column: &mut [i64]) -> Result<(), u8> {
        let (states, years) = (self.basis.states, self.basis.years());
        let length = (years + 1).saturating_sub(first) * states;
        let rows = column.get_mut(..length).ok_or(SHORT_COLUMN)?;
        let valued = self.at(premium);
        let mut values = valued.last_year();
        for (row, year) in rows.chunks_exact_mut(states).rev().zip((0..=years).rev()) {
            if year < years {
                values = valued.reserves(year, &values);
            }
            row.copy_from_slice(&values[..states]);
        }
        Ok(())
    }

    fn write_premiums(&self, state: usize, year: usize, bounds: &[i64], premiums: &mut [i64]) {
        for (place, bound) in premiums.iter_mut().zip(bounds) {
            let premium = least_premium(&self.basis, &self.plan, state, year, *bound);
            *place = premium.unwrap_or(NO_PREMIUM);
        }
    }
}

// Refuses a wrong number of places, and then premiums that are out of range. A course tells by
// itself where it has no room.
fn check(question: &Question, places: usize) -> Result<(), u8> {
    let (fit_places, premiums) = match question {
        Question::Reserves { premiums, .. } => (places == premiums.len(), *premiums),
        Question::Spans { premiums, .. } => (
            places / 2 == premiums.len() && places.is_multiple_of(2),
            *premiums,
        ),
        Question::Course { premium, .. } => (true, std::slice::from_ref(premium)),
        Question::Premiums { bounds, .. } => (places == bounds.len(), &[][..]),
    };
    if !fit_places {
        Err(UNFIT_PLACES)
    } else if !all_within(premiums, 0, LIMIT) {
        Err(UNFIT_PREMIUM)
    } else {
        Ok(())
    }
}

fn write(contract: &Contract, question: &Question, places: &mut [i64]) -> Result<(), u8> {
    check(question, places.len())?;
    let tables = Tables {
        basis: Basis::new(contract)?,
        plan: Plan::new(contract)?,
    };
    match *question {
        Question::Reserves {
            state,
            year,
            premiums,
        } => tables.write_reserves(state, year, premiums, places),
        Question::Spans {
            state,
            year,
            premiums,
        } => tables.write_spans(state, year, premiums, places),
        Question::Course { year, premium } => tables.write_course(year, premium, places)?,
        Question::Premiums {
            state,
            year,
            bounds,
        } => tables.write_premiums(state, year, bounds, places),
    }
    Ok(())
}

// Writes what is asked to the places, and answers 0 or the number of the first refusal.
#[inline(never)]
pub fn answer(contract: &Contract, question: &Question, places: &mut [i64]) -> u8 {
    write(contract, question, places).err().unwrap_or(0)
}
