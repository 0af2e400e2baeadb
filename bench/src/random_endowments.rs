// Random endowments, in columns.
use crate::contract::{Contract, LIMIT, MOST_STATES};
use crate::random::Random;

// Most deposits are far below the limit.
const USUAL_DEPOSIT: i64 = 100_000_000;

impl Random {
    // An endowment on a random basis: a sum for a move from state 0 to state 1 within the term, or
    // at its end, for a premium in the first years.
    pub fn endowment(&mut self, states: usize, years: usize) -> Contract {
        let (sum, term) = (self.within(1, LIMIT), self.count(1, years));
        let paying = self.count(1, term);
        let mut contract = self.contract(states, years, term);
        contract.benefits.fill(0);
        contract.benefits[term * MOST_STATES] = sum;
        contract.marks.fill(0);
        contract.moves.fill(0);
        for year in 0..term {
            contract.marks[year * MOST_STATES] = i64::from(year < paying);
            contract.moves[year * MOST_STATES * MOST_STATES + 1] = sum;
        }
        contract
    }

    // A deposit, as the bound of V(0, 0) that a least premium is asked for.
    pub fn deposit(&mut self) -> i64 {
        self.within(0, USUAL_DEPOSIT)
    }
}
