// Random bounds of V(0, 0) whose least premium is neither 0 nor the limit, and is there.
use crate::contract::{Contract, LIMIT};
use crate::plain;
use crate::question::Question;
use crate::random::Random;

// Most premiums are far below the limit.
const USUAL_PREMIUM: i64 = 1_000_000;

// The one entry that plain Rust answers.
fn entry(contract: &Contract, question: &Question) -> i64 {
    let mut place = [0];
    let number = plain::answer(contract, question, &mut place);
    assert_eq!(number, 0, "a priced contract is lawful");
    place[0]
}

// The least premium at which V(0, 0) is not above a bound, and -1 where no premium will do.
pub fn least_premium(contract: &Contract, bound: i64) -> i64 {
    let question = Question::Premiums {
        state: 0,
        year: 0,
        bounds: &[bound],
    };
    entry(contract, &question)
}

impl Random {
    // The reserve at a premium below the limit, which is as often a usual one as any. It is no such
    // bound where no premium up to that one changes the reserve.
    fn bound(&mut self, contract: &Contract) -> Option<i64> {
        let most = [LIMIT - 1, USUAL_PREMIUM][self.count(0, 1)];
        let question = Question::Reserves {
            state: 0,
            year: 0,
            premiums: &[self.within(1, most)],
        };
        let bound = entry(contract, &question);
        (least_premium(contract, bound) > 0).then_some(bound)
    }

    // So many bounds, if each that is drawn has a least premium inside the range.
    pub fn bounds(&mut self, contract: &Contract, count: usize) -> Option<Vec<i64>> {
        (0..count).map(|_| self.bound(contract)).collect()
    }

    // A random contract that has the entries that are to be had of it.
    pub fn contract_with(
        &mut self,
        contract: impl Fn(&mut Random) -> Contract,
        entries: impl Fn(&mut Random, &Contract) -> Option<Vec<i64>>,
    ) -> (Contract, Vec<i64>) {
        loop {
            let contract = contract(self);
            if let Some(entries) = entries(self, &contract) {
                return (contract, entries);
            }
        }
    }
}
