// What both sides are asked of a contract.
use crate::contract::Contract;

#[derive(Clone, Copy, Debug)]
pub enum Question<'a> {
    // The reserves in a state and a year, one at each of the premiums.
    Reserves {
        state: usize,
        year: usize,
        premiums: &'a [i64],
    },
    // The spans likewise: all least ends, and then all greatest.
    Spans {
        state: usize,
        year: usize,
        premiums: &'a [i64],
    },
    // The course from a year on.
    Course {
        year: usize,
        premium: i64,
    },
    // The least premiums in a state and a year, one for each of the bounds.
    Premiums {
        state: usize,
        year: usize,
        bounds: &'a [i64],
    },
}

impl Question<'_> {
    // How many places the answer takes.
    pub fn places(&self, contract: &Contract) -> usize {
        match self {
            Question::Reserves { premiums, .. } => premiums.len(),
            Question::Spans { premiums, .. } => 2 * premiums.len(),
            Question::Course { year, .. } => {
                (contract.years + 1).saturating_sub(*year) * contract.states
            }
            Question::Premiums { bounds, .. } => bounds.len(),
        }
    }
}
