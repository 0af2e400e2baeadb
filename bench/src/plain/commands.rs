// Commands, one to a line.
use super::endowment::Endowment;
use super::lines::{Fault, Line, UNFIT_FORM, number, signed};
use crate::contract::LIMIT;

pub enum Command {
    Issue { plan: Endowment, deposit: i64 },
    Close { state: usize, rate: i64 },
    Alter { plan: Endowment },
    Leave,
}

const MOST_STATE: i64 = 7;

fn issue(line: Line, years: i64) -> Result<Command, Fault> {
    let fields = line.fields()?;
    let numbers = line.parsed(fields, [number; 4])?;
    let [sum, term, paying, deposit] = numbers;
    let ranges = [0..=LIMIT, 1..=years, 0..=term, 0..=LIMIT];
    line.check_ranges(fields, numbers, ranges)?;
    let plan = Endowment::new(sum, term as usize, paying as usize);
    Ok(Command::Issue { plan, deposit })
}

fn close(line: Line) -> Result<Command, Fault> {
    let fields = line.fields()?;
    let numbers = line.parsed(fields, [number, signed])?;
    line.check_ranges(fields, numbers, [0..=MOST_STATE, i64::MIN..=i64::MAX])?;
    let [state, rate] = numbers;
    let state = state as usize;
    Ok(Command::Close { state, rate })
}

fn alter(line: Line, years: i64) -> Result<Command, Fault> {
    let fields = line.fields()?;
    let numbers = line.parsed(fields, [number; 3])?;
    let [sum, term, paying] = numbers;
    line.check_ranges(fields, numbers, [0..=LIMIT, 1..=years, 0..=term])?;
    let plan = Endowment::new(sum, term as usize, paying as usize);
    Ok(Command::Alter { plan })
}

impl Command {
    // The command of a line, on a basis of so many years.
    pub fn of_line(line: Line, years: usize) -> Result<Self, Fault> {
        let years = years as i64;
        match line.bytes {
            [b'Q', b';', ..] => issue(line, years),
            [b'C', b';', ..] => close(line),
            [b'A', b';', ..] => alter(line, years),
            [b'L'] => Ok(Command::Leave),
            _ => Err(line.fault(UNFIT_FORM)),
        }
    }
}
