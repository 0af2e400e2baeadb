// Bases and plans, made of columns that fit.
use crate::contract::{Contract, LIMIT, MILLION, MOST_STATES, MOST_YEARS};

// The numbers of the refusals.
const UNFIT_BASIS: u8 = 9;
const UNFIT_FACTOR: u8 = 10;
const UNFIT_ROW: u8 = 11;
const UNFIT_PLAN: u8 = 12;

// A basis whose columns have been checked.
pub struct Basis<'a> {
    pub states: usize,
    pub factors: &'a [i64],
    shares: &'a [i64],
}

impl<'a> Basis<'a> {
    pub fn new(contract: &'a Contract) -> Result<Self, u8> {
        let (states, years) = (contract.states, contract.years);
        let (factors, shares) = (&contract.factors, &contract.shares);
        if !(2..=MOST_STATES).contains(&states)
            || !(1..=MOST_YEARS).contains(&years)
            || factors.len() != years
            || shares.len() != years * states * states
        {
            return Err(UNFIT_BASIS);
        }
        if !all_within(factors, 1, MILLION) {
            return Err(UNFIT_FACTOR);
        }
        let lawful =
            |row: &[i64]| all_within(row, 0, MILLION) && row.iter().sum::<i64>() == MILLION;
        if !shares.chunks_exact(states).all(lawful) {
            return Err(UNFIT_ROW);
        }
        Ok(Basis {
            states,
            factors,
            shares,
        })
    }

    // A basis that has been read of a sheet.
    pub fn of_sheet(states: usize, factors: &'a [i64], shares: &'a [i64]) -> Self {
        Basis {
            states,
            factors,
            shares,
        }
    }

    pub fn years(&self) -> usize {
        self.factors.len()
    }

    // The shares of all moves in a year, state by state.
    pub fn rows(&self, year: usize) -> impl Iterator<Item = &[i64]> {
        let size = self.states * self.states;
        self.shares[year * size..][..size].chunks_exact(self.states)
    }

    // The shares of all moves out of a state of the basis in a year.
    pub fn row(&self, state: usize, year: usize) -> &[i64] {
        let start = (year * self.states + state) * self.states;
        &self.shares[start..start + self.states]
    }
}

// What a plan pays, and when its premium is due.
pub trait Payments: Copy {
    fn benefit(&self, state: usize, year: usize) -> i64;
    fn due(&self, state: usize, year: usize) -> bool;
    // What is paid for the moves out of a state in a year, if anything is.
    fn moves_from(&self, state: usize, year: usize) -> Option<&[i64]>;
}

// A plan whose columns have been checked.
#[derive(Clone, Copy)]
pub struct Plan<'a> {
    years: usize,
    benefits: &'a [i64],
    marks: &'a [i64],
    moves: &'a [i64],
}

impl<'a> Plan<'a> {
    pub fn new(contract: &'a Contract) -> Result<Self, u8> {
        let years = contract.plan_years;
        let (benefits, marks, moves) = (&contract.benefits, &contract.marks, &contract.moves);
        if years > MOST_YEARS
            || benefits.len() != MOST_STATES * (years + 1)
            || marks.len() != MOST_STATES * (years + 1)
            || moves.len() != MOST_STATES * MOST_STATES * years
            || !all_within(benefits, 0, LIMIT)
            || !all_within(marks, 0, 1)
            || !all_within(moves, 0, LIMIT)
        {
            return Err(UNFIT_PLAN);
        }
        Ok(Plan {
            years,
            benefits,
            marks,
            moves,
        })
    }

    // The place of a state in a year, if something can be paid there.
    fn place(&self, state: usize, year: usize) -> Option<usize> {
        (state < MOST_STATES && year <= self.years).then_some(year * MOST_STATES + state)
    }
}

impl Payments for Plan<'_> {
    fn benefit(&self, state: usize, year: usize) -> i64 {
        self.place(state, year)
            .map_or(0, |place| self.benefits[place])
    }

    fn due(&self, state: usize, year: usize) -> bool {
        self.place(state, year)
            .is_some_and(|place| self.marks[place] == 1)
    }

    fn moves_from(&self, state: usize, year: usize) -> Option<&[i64]> {
        (year < self.years).then(|| {
            let start = (year * MOST_STATES + state) * MOST_STATES;
            &self.moves[start..start + MOST_STATES]
        })
    }
}

pub fn all_within(column: &[i64], low: i64, high: i64) -> bool {
    column.iter().all(|entry| (low..=high).contains(entry))
}
