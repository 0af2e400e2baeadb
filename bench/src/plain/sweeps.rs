// Reserves and spans, backwards from the last year.
use super::tables::{Basis, Payments};
use crate::contract::{LIMIT, MILLION, MOST_STATES};

// What is valued: a plan at a premium, on a basis. What the sweep of reserves calls is inlined, at
// which plain Rust is fastest.
#[derive(Clone, Copy)]
pub struct Valued<'a, P> {
    pub basis: &'a Basis<'a>,
    pub plan: &'a P,
    pub premium: i64,
}

// A millionth of an amount, to the nearest whole, halves upwards.
pub fn nearest(amount: i64) -> i64 {
    (amount + MILLION / 2).div_euclid(MILLION)
}

impl<P: Payments> Valued<'_, P> {
    #[inline(always)]
    fn flow(self, state: usize, year: usize) -> i64 {
        let benefit = self.plan.benefit(state, year);
        if year < self.basis.years() && self.plan.due(state, year) {
            benefit - self.premium
        } else {
            benefit
        }
    }

    // The flows of all states in the year after the last.
    pub fn last_year(self) -> [i64; MOST_STATES] {
        let mut flows = [0; MOST_STATES];
        for (state, flow) in flows[..self.basis.states].iter_mut().enumerate() {
            *flow = self.flow(state, self.basis.years());
        }
        flows
    }

    // The mean of what follows a state, where the reserves of the next year are given.
    #[inline(always)]
    pub fn mean(self, state: usize, year: usize, row: &[i64], next: &[i64; MOST_STATES]) -> i64 {
        let sum = match self.plan.moves_from(state, year) {
            Some(moves) => row
                .iter()
                .zip(moves)
                .zip(next)
                .map(|((share, paid), next)| share * (paid + next))
                .sum(),
            None => row.iter().zip(next).map(|(share, next)| share * next).sum(),
        };
        nearest(sum)
    }

    // The reserves of all states in a year, where those of the next are given.
    #[inline(always)]
    pub fn reserves(self, year: usize, next: &[i64; MOST_STATES]) -> [i64; MOST_STATES] {
        let mut values = [0; MOST_STATES];
        for (state, (value, row)) in values.iter_mut().zip(self.basis.rows(year)).enumerate() {
            let mean = self.mean(state, year, row, next);
            *value = self.flow(state, year) + nearest(self.basis.factors[year] * mean);
        }
        values
    }

    // Whether nothing follows: the figure is the flow.
    fn ends(self, state: usize, year: usize) -> bool {
        state >= self.basis.states || year >= self.basis.years()
    }

    pub fn reserve(self, state: usize, year: usize) -> i64 {
        if self.ends(state, year) {
            return self.flow(state, year);
        }
        self.back_to(year)[state]
    }

    // The reserves of all states in a year up to the last.
    #[inline(always)]
    pub fn back_to(self, year: usize) -> [i64; MOST_STATES] {
        let mut next = self.last_year();
        for year in (year..self.basis.years()).rev() {
            next = self.reserves(year, &next);
        }
        next
    }

    // Both ends of what follows the moves that have a share.
    fn hull(
        self,
        state: usize,
        year: usize,
        row: &[i64],
        next: &[(i64, i64); MOST_STATES],
    ) -> (i64, i64) {
        let moves = self
            .plan
            .moves_from(state, year)
            .unwrap_or(&[0; MOST_STATES]);
        row.iter()
            .zip(moves)
            .zip(next)
            .filter(|((share, _), _)| **share > 0)
            .map(|((_, paid), (least, greatest))| (paid + least, paid + greatest))
            .reduce(|(least, greatest), (low, high)| (least.min(low), greatest.max(high)))
            .unwrap_or((0, 0))
    }

    // The spans of all states in a year, where those of the next are given.
    fn spans(self, year: usize, next: &[(i64, i64); MOST_STATES]) -> [(i64, i64); MOST_STATES] {
        let mut spans = [(0, 0); MOST_STATES];
        for (state, (span, row)) in spans.iter_mut().zip(self.basis.rows(year)).enumerate() {
            let (least, greatest) = self.hull(state, year, row, next);
            let flow = self.flow(state, year);
            let factor = self.basis.factors[year];
            *span = (
                flow + nearest(factor * least),
                flow + nearest(factor * greatest),
            );
        }
        spans
    }

    pub fn span(self, state: usize, year: usize) -> (i64, i64) {
        if self.ends(state, year) {
            let flow = self.flow(state, year);
            return (flow, flow);
        }
        let mut next = self.last_year().map(|flow| (flow, flow));
        for year in (year..self.basis.years()).rev() {
            next = self.spans(year, &next);
        }
        next[state]
    }
}

// The least premium at which the reserve is not above the bound, if one is, by halving: a higher
// premium raises no reserve.
pub fn least_premium<P: Payments>(
    basis: &Basis,
    plan: &P,
    state: usize,
    year: usize,
    bound: i64,
) -> Option<i64> {
    let (mut low, mut high) = (0, LIMIT + 1);
    while low < high {
        let premium = (low + high) / 2;
        let valued = Valued {
            basis,
            plan,
            premium,
        };
        if valued.reserve(state, year) > bound {
            low = premium + 1;
        } else {
            high = premium;
        }
    }
    (low <= LIMIT).then_some(low)
}
