// Random contracts.
use crate::contract::{Contract, LIMIT, MILLION, MOST_STATES, MOST_YEARS};

// Numbers by three shifts and a multiplication.
pub struct Random {
    word: u64,
}

impl Random {
    pub fn new(seed: u64) -> Self {
        // No shift leads away from nought.
        Random {
            word: seed.wrapping_mul(0x9E37_79B9_7F4A_7C15).max(1),
        }
    }

    fn next(&mut self) -> u64 {
        self.word ^= self.word >> 12;
        self.word ^= self.word << 25;
        self.word ^= self.word >> 27;
        self.word.wrapping_mul(0x2545_F491_4F6C_DD1D)
    }

    // A number from `low` to `high`, both included.
    pub fn within(&mut self, low: i64, high: i64) -> i64 {
        let size = (high - low + 1) as u64;
        low + ((u128::from(self.next()) * u128::from(size)) >> 64) as i64
    }

    pub fn count(&mut self, low: usize, high: usize) -> usize {
        self.within(low as i64, high as i64) as usize
    }

    pub fn one_in(&mut self, count: i64) -> bool {
        self.within(1, count) == 1
    }

    // An amount: the ends of the range often, small ones too.
    pub fn amount(&mut self) -> i64 {
        match self.within(0, 7) {
            0 | 1 => 0,
            2 => LIMIT,
            3 => self.within(0, 1_000),
            _ => self.within(0, LIMIT),
        }
    }

    fn factor(&mut self) -> i64 {
        match self.within(0, 7) {
            0 => 1,
            1 => MILLION,
            2 => self.within(1, MILLION),
            _ => self.within(900_000, MILLION),
        }
    }

    // Shares that add up to a million: everybody in one place, or cut at random, some of them
    // nought.
    fn row(&mut self, states: usize) -> Vec<i64> {
        let mut shares = vec![0; states];
        let mut left = MILLION;
        while left > 0 {
            let share = if self.one_in(4) {
                left
            } else {
                self.within(0, left)
            };
            shares[self.count(0, states - 1)] += share;
            left -= share;
        }
        shares
    }

    // A lawful contract of so many states and years, with a plan of so many years.
    pub fn contract(&mut self, states: usize, years: usize, plan_years: usize) -> Contract {
        let places = MOST_STATES * (plan_years + 1);
        Contract {
            states,
            years,
            factors: (0..years).map(|_| self.factor()).collect(),
            shares: (0..years * states).flat_map(|_| self.row(states)).collect(),
            plan_years,
            benefits: (0..places).map(|_| self.amount()).collect(),
            marks: (0..places).map(|_| self.within(0, 1)).collect(),
            moves: (0..places * MOST_STATES - MOST_STATES * MOST_STATES)
                .map(|_| self.amount())
                .collect(),
        }
    }

    // A lawful contract of any size.
    pub fn any_contract(&mut self) -> Contract {
        let states = self.count(2, MOST_STATES);
        let years = self.count(1, MOST_YEARS);
        let plan_years = self.count(0, MOST_YEARS);
        self.contract(states, years, plan_years)
    }

    // Spoils one column or number of a contract.
    pub fn spoil(&mut self, contract: &mut Contract) {
        let odd = [-1, MILLION + 1, LIMIT + 1, i64::MIN, i64::MAX][self.count(0, 4)];
        match self.within(0, 3) {
            0 => contract.states = self.count(0, 9),
            1 => contract.years = self.count(0, 121),
            2 => contract.plan_years = self.count(0, 121),
            _ => {
                let column = match self.within(0, 4) {
                    0 => &mut contract.factors,
                    1 => &mut contract.shares,
                    2 => &mut contract.benefits,
                    3 => &mut contract.marks,
                    _ => &mut contract.moves,
                };
                if column.is_empty() || self.one_in(3) {
                    column.push(0);
                } else {
                    let place = self.count(0, column.len() - 1);
                    column[place] = odd;
                }
            }
        }
    }
}
