// A contract that is kept from its issue to its leaving.
use super::endowment::Endowment;
use super::sweeps::{Valued, least_premium, nearest};
use super::tables::{Basis, Payments};

// The numbers of the refusals.
const NO_YEAR: u8 = 16;
const NO_STATE: u8 = 17;
const UNFIT_RATE: u8 = 18;
const NO_SHARE: u8 = 19;
const NO_PREMIUM: u8 = 20;
const NO_NUMBER: u8 = 21;

const MOST_RATE: i64 = 500_000;
const LAST_NUMBER: usize = 9_999;

pub struct Kept<'a> {
    basis: &'a Basis<'a>,
    plan: Endowment,
    pub premium: i64,
    state: usize,
    pub year: usize,
    pub number: usize,
}

// The results of a year that is closed.
pub struct Results {
    pub interest: i64,
    pub risk: i64,
}

impl<'a> Kept<'a> {
    pub fn issue(basis: &'a Basis<'a>, plan: Endowment, deposit: i64) -> Result<Self, u8> {
        let premium = least_premium(basis, &plan, 0, 0, deposit).ok_or(NO_PREMIUM)?;
        Ok(Kept {
            basis,
            plan,
            premium,
            state: 0,
            year: 0,
            number: 0,
        })
    }

    fn valued(&self) -> Valued<'_, Endowment> {
        Valued {
            basis: self.basis,
            plan: &self.plan,
            premium: self.premium,
        }
    }

    pub fn reserve(&self) -> i64 {
        self.valued().reserve(self.state, self.year)
    }

    fn check_closing(&self, state: usize, rate: i64) -> Result<(), u8> {
        if self.year >= self.basis.years() {
            Err(NO_YEAR)
        } else if state >= self.basis.states {
            Err(NO_STATE)
        } else if !(-MOST_RATE..=MOST_RATE).contains(&rate) {
            Err(UNFIT_RATE)
        } else if self.basis.row(self.state, self.year)[state] == 0 {
            Err(NO_SHARE)
        } else if self.number >= LAST_NUMBER {
            Err(NO_NUMBER)
        } else {
            Ok(())
        }
    }

    pub fn close(&mut self, state: usize, rate: i64) -> Result<Results, u8> {
        self.check_closing(state, rate)?;
        let (from, year) = (self.state, self.year);
        let next = self.valued().back_to(year + 1);
        let row = self.basis.row(from, year);
        let mean = self.valued().mean(from, year, row, &next);
        let discounted = nearest(self.basis.factors[year] * mean);
        let earned = nearest(discounted * rate);
        let moves = self.plan.moves_from(from, year);
        let paid = moves.map_or(0, |moves| moves[state]);
        (self.state, self.year) = (state, year + 1);
        self.number += 1;
        Ok(Results {
            interest: earned - (mean - discounted),
            risk: mean - paid - next[state],
        })
    }

    // Goes on under another plan, and answers the result.
    pub fn alter(&mut self, plan: Endowment) -> Result<i64, u8> {
        let before = self.reserve();
        let premium = least_premium(self.basis, &plan, self.state, self.year, before);
        let premium = premium.ok_or(NO_PREMIUM)?;
        if self.number >= LAST_NUMBER {
            return Err(NO_NUMBER);
        }
        (self.plan, self.premium) = (plan, premium);
        self.number += 1;
        Ok(before - self.reserve())
    }
}
