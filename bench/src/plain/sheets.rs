// Sheets, read line by line.
use super::lines::{Fault, Line, UNFIT_FORM};
use crate::contract::{MILLION, MOST_STATES, MOST_YEARS};
use crate::sheet::Report;

// The numbers of the refusals.
const NO_ROOM: u8 = 6;
const UNFIT_ORDER: u8 = 7;
const UNFIT_ROW: u8 = 8;

// What has been read: before its first line, no years. Shares are pushed up to the last that has a
// line.
pub struct Reader {
    pub states: usize,
    pub years: usize,
    pub factors: Vec<i64>,
    pub shares: Vec<i64>,
}

impl Reader {
    // Where the shares of a year begin.
    fn place(&self, year: usize) -> usize {
        year * self.states * self.states
    }

    fn basis(&mut self, line: Line, factors: usize, shares: usize) -> Result<(), Fault> {
        let [states, years] = line.numbers([2..=MOST_STATES as i64, 1..=MOST_YEARS as i64])?;
        let (states, years) = (states as usize, years as usize);
        if years > factors || years * states * states > shares {
            return Err(line.fault(NO_ROOM));
        }
        *self = Reader {
            states,
            years,
            factors: Vec::with_capacity(years),
            shares: Vec::with_capacity(years * states * states),
        };
        Ok(())
    }

    // Fills the last year up with noughts. Every row of it makes a million.
    fn end_year(&mut self, line: Line) -> Result<(), Fault> {
        let Some(year) = self.factors.len().checked_sub(1) else {
            return Ok(());
        };
        self.shares.resize(self.place(year + 1), 0);
        let rows = &self.shares[self.place(year)..];
        if rows
            .chunks_exact(self.states)
            .all(|row| row.iter().sum::<i64>() == MILLION)
        {
            Ok(())
        } else {
            Err(line.fault(UNFIT_ROW))
        }
    }

    fn year(&mut self, line: Line) -> Result<(), Fault> {
        let [year, factor] = line.numbers([0..=self.years as i64 - 1, 1..=MILLION])?;
        if year as usize != self.factors.len() {
            return Err(line.fault(UNFIT_ORDER));
        }
        self.end_year(line)?;
        self.factors.push(factor);
        Ok(())
    }

    fn share(&mut self, line: Line) -> Result<(), Fault> {
        let states = 0..=self.states as i64 - 1;
        let years = 0..=self.years as i64 - 1;
        let [year, from, to, share] = line.numbers([years, states.clone(), states, 1..=MILLION])?;
        let (year, from, to) = (year as usize, from as usize, to as usize);
        let place = self.place(year) + from * self.states + to;
        if year + 1 != self.factors.len() || place < self.shares.len() {
            return Err(line.fault(UNFIT_ORDER));
        }
        self.shares.resize(place, 0);
        self.shares.push(share);
        Ok(())
    }

    // Takes a line, and says whether it is the last.
    fn take(&mut self, line: Line, factors: usize, shares: usize) -> Result<bool, Fault> {
        let come = self.factors.len();
        match line.bytes {
            [b'B', b';', ..] if self.years == 0 => self.basis(line, factors, shares)?,
            [b'D', b';', ..] if come < self.years => self.year(line)?,
            [b'T', b';', ..] if come > 0 => self.share(line)?,
            [b'E'] if self.years > 0 && come == self.years => {
                self.end_year(line)?;
                return Ok(true);
            }
            _ => return Err(line.fault(UNFIT_FORM)),
        }
        Ok(false)
    }
}

// What is read of a text, with the line and the offset after it.
pub fn read_lines(
    text: &[u8],
    factors: usize,
    shares: usize,
) -> Result<(Reader, usize, usize), Fault> {
    let mut reader = Reader {
        states: 0,
        years: 0,
        factors: Vec::new(),
        shares: Vec::new(),
    };
    let (mut number, mut offset) = (1, 0);
    loop {
        let line = Line::first(text, number, offset)?;
        let is_last = reader.take(line, factors, shares)?;
        number += 1;
        offset += line.bytes.len() + 1;
        if is_last {
            return Ok((reader, number, offset));
        }
    }
}

// Reads a sheet into the first places of the columns, and answers 0 or the number of the first
// refusal, which leaves them as they were.
#[inline(never)]
pub fn read_sheet(text: &[u8], factors: &mut [i64], shares: &mut [i64], report: &mut Report) -> u8 {
    match read_lines(text, factors.len(), shares.len()) {
        Ok((reader, line, offset)) => {
            factors[..reader.factors.len()].copy_from_slice(&reader.factors);
            shares[..reader.shares.len()].copy_from_slice(&reader.shares);
            *report = Report {
                states: reader.states,
                years: reader.years,
                line,
                offset,
            };
            0
        }
        Err(fault) => {
            (report.line, report.offset) = (fault.line, fault.offset);
            fault.number
        }
    }
}
