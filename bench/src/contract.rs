// A contract as both sides take it in: the columns of a basis and of a plan.

pub const MOST_STATES: usize = 8;
pub const MOST_YEARS: usize = 120;
pub const MILLION: i64 = 1_000_000;
pub const LIMIT: i64 = 10_000_000_000;

#[derive(Clone, Debug)]
pub struct Contract {
    pub states: usize,
    pub years: usize,
    pub factors: Vec<i64>,
    pub shares: Vec<i64>,
    pub plan_years: usize,
    pub benefits: Vec<i64>,
    pub marks: Vec<i64>,
    pub moves: Vec<i64>,
}
