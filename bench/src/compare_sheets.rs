// Whether both sides read the same.
use crate::contract::Contract;
use crate::random::Random;
use crate::sheet::{Report, Sheet};
use crate::{engine, plain};

const BASES: usize = 1_000;
const SPOILT: usize = 20;

// What stands in a place to which nobody has written, and in a report.
const UNTOUCHED: i64 = i64::MIN + 7;
const UNTOLD: Report = Report {
    states: 77,
    years: 77,
    line: 77,
    offset: 77,
};

type Side = fn(&[u8], &mut [i64], &mut [i64], &mut Report) -> u8;

#[derive(PartialEq, Eq, Debug)]
struct Reading {
    number: u8,
    report: Report,
    factors: Vec<i64>,
    shares: Vec<i64>,
}

// How often each number was answered.
pub type Tally = [usize; 9];

fn read(side: Side, sheet: &Sheet) -> Reading {
    let (mut factors, mut shares) = (
        vec![UNTOUCHED; sheet.factors],
        vec![UNTOUCHED; sheet.shares],
    );
    let mut report = UNTOLD;
    let number = side(&sheet.text, &mut factors, &mut shares, &mut report);
    Reading {
        number,
        report,
        factors,
        shares,
    }
}

// What both sides read of a sheet, or the difference.
fn compare(sheet: &Sheet) -> Result<Reading, String> {
    let by_engine = read(engine::read_sheet, sheet);
    let by_plain = read(plain::read_sheet, sheet);
    if by_engine == by_plain {
        return Ok(by_engine);
    }
    Err(format!(
        "a sheet\nengine {by_engine:?}\nplain  {by_plain:?}\n{}",
        String::from_utf8_lossy(&sheet.text)
    ))
}

// Compares the sheet of a basis, with a rest after it and places to spare: what is read is the
// basis.
fn compare_lawful(random: &mut Random, basis: &Contract, tally: &mut Tally) -> Result<(), String> {
    let mut sheet = Sheet::of(basis.states, &basis.factors, &basis.shares);
    let length = sheet.text.len();
    random.add_rest(&mut sheet);
    let reading = compare(&sheet)?;
    tally[usize::from(reading.number)] += 1;
    let (report, years, entries) = (reading.report, basis.factors.len(), basis.shares.len());
    if reading.number == 0
        && (report.states, report.years, report.offset) == (basis.states, years, length)
        && reading.factors[..years] == basis.factors
        && reading.shares[..entries] == basis.shares
    {
        return Ok(());
    }
    Err(format!("a lawful sheet, read as {reading:?}\n{basis:?}"))
}

fn compare_basis(random: &mut Random, tally: &mut Tally) -> Result<(), String> {
    let basis = random.any_contract();
    compare_lawful(random, &basis, tally)?;
    for _ in 0..SPOILT {
        let mut sheet = Sheet::of(basis.states, &basis.factors, &basis.shares);
        random.spoil_sheet(&mut sheet);
        tally[usize::from(compare(&sheet)?.number)] += 1;
    }
    Ok(())
}

// Compares the sheets of random bases, whole and spoilt. Answers how often they were read, and
// refused by each number.
pub fn compare_all(random: &mut Random) -> Result<Tally, String> {
    let mut tally = [0; 9];
    for _ in 0..BASES {
        compare_basis(random, &mut tally)?;
    }
    Ok(tally)
}
