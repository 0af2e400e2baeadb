// A random input of many small contracts on one basis.
use crate::contract::MILLION;
use crate::random::Random;
use crate::random_inputs::MOST_BYTES;
use crate::sheet::Sheet;

const YEARS: usize = 40;

impl Random {
    // The sheet of a life of so many years: the dead stay dead.
    fn life_sheet(&mut self) -> Sheet {
        let deaths: Vec<i64> = (0..YEARS).map(|_| self.within(1_000, 20_000)).collect();
        let factors: Vec<i64> = (0..YEARS).map(|_| self.within(960_000, 990_000)).collect();
        let rows = |death: &i64| [MILLION - death, *death, 0, MILLION];
        let shares: Vec<i64> = deaths.iter().flat_map(rows).collect();
        Sheet::of(2, &factors, &shares)
    }

    // An endowment, priced on a deposit that pays for less than all of it, closed for a year and
    // left.
    fn short_contract(&mut self) -> String {
        let (sum, deposit) = (self.within(100_000, 999_999), self.within(0, 5_000));
        let term = self.count(1, YEARS);
        let paying = self.count(1, term);
        let (end, rate) = (self.within(0, 1), self.within(10_000, 60_000));
        format!("Q;{sum};{term};{paying};{deposit}\nC;{end};{rate}\nL\n")
    }

    // A sheet and contracts after it, together near the most bytes that are answered.
    pub fn portfolio(&mut self) -> Vec<u8> {
        let mut text = self.life_sheet().text;
        loop {
            let contract = self.short_contract();
            if text.len() + contract.len() > MOST_BYTES {
                return text;
            }
            text.extend_from_slice(contract.as_bytes());
        }
    }
}
