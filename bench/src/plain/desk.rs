// Whole inputs: a sheet, and commands that are answered in a line each.
use super::commands::Command;
use super::endowment::Endowment;
use super::kept::Kept;
use super::lines::{Fault, Line};
use super::sheets::read_lines;
use super::tables::Basis;
use crate::contract::{MOST_STATES, MOST_YEARS};
use std::io::Write;

// The numbers of the refusals.
const LONG_INPUT: u8 = 1;
const UNFIT_STANDING: u8 = 13;

const MOST_BYTES: usize = 60_000;
const MOST_SHARES: usize = MOST_YEARS * MOST_STATES * MOST_STATES;

struct Desk<'a> {
    basis: &'a Basis<'a>,
    contract: Option<Kept<'a>>,
}

// Writes the line of a reply: its word and its numbers.
fn reply(out: &mut Vec<u8>, word: &str, numbers: &[i64]) {
    out.extend_from_slice(word.as_bytes());
    for number in numbers {
        let _ = write!(out, ";{number}");
    }
    out.push(b'\n');
}

fn write_fault(out: &mut Vec<u8>, fault: &Fault) {
    let numbers = [
        i64::from(fault.number),
        fault.line as i64,
        fault.offset as i64,
    ];
    reply(out, "refused", &numbers);
}

fn close(contract: &mut Kept, state: usize, rate: i64, out: &mut Vec<u8>) -> Result<(), u8> {
    let year = contract.year as i64;
    let results = contract.close(state, rate)?;
    let (number, reserve) = (contract.number as i64, contract.reserve());
    let numbers = [number, year, results.interest, results.risk, reserve];
    reply(out, "close", &numbers);
    Ok(())
}

fn alter(contract: &mut Kept, plan: Endowment, out: &mut Vec<u8>) -> Result<(), u8> {
    let result = contract.alter(plan)?;
    let (number, reserve) = (contract.number as i64, contract.reserve());
    reply(out, "alter", &[number, contract.premium, reserve, result]);
    Ok(())
}

impl<'a> Desk<'a> {
    fn issue(&mut self, plan: Endowment, deposit: i64, out: &mut Vec<u8>) -> Result<(), u8> {
        if self.contract.is_some() {
            return Err(UNFIT_STANDING);
        }
        let contract = Kept::issue(self.basis, plan, deposit)?;
        let reserve = contract.reserve();
        reply(
            out,
            "issue",
            &[contract.premium, reserve, deposit - reserve],
        );
        self.contract = Some(contract);
        Ok(())
    }

    fn leave(&mut self, out: &mut Vec<u8>) -> Result<(), u8> {
        let contract = self.contract.take().ok_or(UNFIT_STANDING)?;
        let reserve = contract.reserve();
        let paid = reserve.max(0);
        reply(out, "leave", &[paid, reserve - paid]);
        Ok(())
    }

    fn standing(&mut self) -> Result<&mut Kept<'a>, u8> {
        self.contract.as_mut().ok_or(UNFIT_STANDING)
    }

    fn carry_out(&mut self, command: Command, out: &mut Vec<u8>) -> Result<(), u8> {
        match command {
            Command::Issue { plan, deposit } => self.issue(plan, deposit, out),
            Command::Close { state, rate } => close(self.standing()?, state, rate, out),
            Command::Alter { plan } => alter(self.standing()?, plan, out),
            Command::Leave => self.leave(out),
        }
    }

    fn take(&mut self, line: Line, out: &mut Vec<u8>) -> Result<(), Fault> {
        let command = Command::of_line(line, self.basis.years())?;
        self.carry_out(command, out)
            .map_err(|number| line.fault(number))
    }
}

fn write_answers(input: &[u8], out: &mut Vec<u8>) -> Result<(), Fault> {
    if input.len() > MOST_BYTES {
        return Err(Fault {
            number: LONG_INPUT,
            line: 1,
            offset: 0,
        });
    }
    let (reader, mut number, mut offset) = read_lines(input, MOST_YEARS, MOST_SHARES)?;
    let basis = Basis::of_sheet(reader.states, &reader.factors, &reader.shares);
    let mut desk = Desk {
        basis: &basis,
        contract: None,
    };
    while offset < input.len() {
        let line = Line::first(input, number, offset)?;
        if let Err(fault) = desk.take(line, out) {
            write_fault(out, &fault);
        }
        number += 1;
        offset += line.bytes.len() + 1;
    }
    Ok(())
}

// The lines that answer an input.
#[inline(never)]
pub fn answer_input(input: &[u8]) -> Vec<u8> {
    let mut out = Vec::new();
    if let Err(fault) = write_answers(input, &mut out) {
        write_fault(&mut out, &fault);
    }
    out
}
