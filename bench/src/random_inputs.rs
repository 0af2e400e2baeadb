// Random inputs of the program `engine`: a sheet and commands.
use crate::contract::{Contract, LIMIT, MOST_STATES};
use crate::random::Random;
use crate::sheet::Sheet;

pub const MOST_BYTES: usize = 60_000;

// Where a contract stands, as long as each command is accepted.
struct Standing {
    state: usize,
    year: usize,
}

impl Random {
    // The sum, the term and the paying years of an endowment, which are seldom fewer than the term,
    // and more still less often.
    fn terms(&mut self, years: usize) -> String {
        let term = self.count(1, years);
        let paying = if self.one_in(8) {
            self.count(0, term + 1)
        } else {
            term
        };
        format!("{};{term};{paying}", self.amount())
    }

    // A state to which a share moves.
    fn end_state(&mut self, basis: &Contract, standing: &Standing) -> usize {
        let start = (standing.year * basis.states + standing.state) * basis.states;
        let row = &basis.shares[start..start + basis.states];
        let ends: Vec<usize> = (0..basis.states).filter(|j| row[*j] > 0).collect();
        ends[self.count(0, ends.len() - 1)]
    }

    // A closing that is accepted, or one that never is: of a year too many, to a state or at a rate
    // that there is not.
    fn closing(&mut self, basis: &Contract, standing: &mut Standing) -> String {
        if standing.year == basis.years || self.one_in(20) {
            return format!("C;{};{}\n", self.count(0, 7), self.within(500_001, 500_002));
        }
        let end = self.end_state(basis, standing);
        (standing.state, standing.year) = (end, standing.year + 1);
        format!("C;{end};{}\n", self.within(-40_000, 80_000))
    }

    fn command(&mut self, basis: &Contract, standing: &mut Option<Standing>) -> String {
        let years = basis.years;
        let Some(contract) = standing else {
            *standing = Some(Standing { state: 0, year: 0 });
            let deposit = self.within(0, LIMIT / 100);
            return format!("Q;{};{deposit}\n", self.terms(years));
        };
        match self.within(0, 29) {
            0 => {
                *standing = None;
                "L\n".to_owned()
            }
            1..=8 => self.closing(basis, contract),
            _ => format!("A;{}\n", self.terms(years)),
        }
    }

    // Commands of at most so many bytes: issues, closings, alterations and leavings.
    fn commands(&mut self, basis: &Contract, most: usize) -> Vec<u8> {
        let (mut text, mut standing) = (Vec::new(), None);
        loop {
            let line = self.command(basis, &mut standing);
            if text.len() + line.len() > most {
                return text;
            }
            text.extend_from_slice(line.as_bytes());
        }
    }

    // A sheet of so many states and years and commands after it, together near the most bytes that
    // are answered.
    pub fn full_input(&mut self, states: usize, years: usize) -> Vec<u8> {
        let basis = self.contract(states, years, 0);
        let mut text = Sheet::of(states, &basis.factors, &basis.shares).text;
        let room = MOST_BYTES.saturating_sub(text.len());
        text.extend(self.commands(&basis, room));
        text
    }

    // Spoils a text in one place, or now and then in several.
    fn spoil_text(&mut self, text: &mut Vec<u8>) {
        let mut sheet = Sheet {
            text: std::mem::take(text),
            factors: 0,
            shares: 0,
        };
        self.spoil_sheet(&mut sheet);
        *text = sheet.text;
    }

    // A small sheet and some commands: spoilt in either, or in neither.
    pub fn any_input(&mut self) -> Vec<u8> {
        let (states, years) = (self.count(2, MOST_STATES), self.count(1, 12));
        let basis = self.contract(states, years, 0);
        let mut text = Sheet::of(states, &basis.factors, &basis.shares).text;
        let mut commands = self.commands(&basis, 600);
        match self.within(0, 5) {
            0 => self.spoil_text(&mut text),
            1 => {}
            _ => self.spoil_text(&mut commands),
        }
        text.extend(commands);
        text
    }
}
