// Endowments.
use super::tables::Payments;
use crate::contract::MOST_STATES;

#[derive(Clone, Copy)]
pub struct Endowment {
    sum: i64,
    term: usize,
    paying_years: usize,
    // What is paid for the moves out of state 0 before the term.
    moves: [i64; MOST_STATES],
}

impl Endowment {
    pub fn new(sum: i64, term: usize, paying_years: usize) -> Self {
        let mut moves = [0; MOST_STATES];
        moves[1] = sum;
        Endowment {
            sum,
            term,
            paying_years,
            moves,
        }
    }
}

impl Payments for Endowment {
    fn benefit(&self, state: usize, year: usize) -> i64 {
        if state == 0 && year == self.term {
            self.sum
        } else {
            0
        }
    }

    fn due(&self, state: usize, year: usize) -> bool {
        state == 0 && year < self.paying_years
    }

    fn moves_from(&self, state: usize, year: usize) -> Option<&[i64]> {
        (state == 0 && year < self.term).then_some(&self.moves)
    }
}
