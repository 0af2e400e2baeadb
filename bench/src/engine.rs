// The engine, through its exports to C.
use crate::contract::Contract;
use crate::question::Question;
use crate::sheet::Report;
use std::ffi::c_uchar;

// A slice in a struct.
#[repr(C)]
struct Column {
    start: *const i64,
    length: usize,
}

impl Column {
    fn of(entries: &[i64]) -> Self {
        Column {
            start: entries.as_ptr(),
            length: entries.len(),
        }
    }
}

#[repr(C)]
struct Columns {
    states: usize,
    years: usize,
    factors: Column,
    shares: Column,
    plan_years: usize,
    benefits: Column,
    marks: Column,
    moves: Column,
}

impl Columns {
    fn of(contract: &Contract) -> Self {
        Columns {
            states: contract.states,
            years: contract.years,
            factors: Column::of(&contract.factors),
            shares: Column::of(&contract.shares),
            plan_years: contract.plan_years,
            benefits: Column::of(&contract.benefits),
            marks: Column::of(&contract.marks),
            moves: Column::of(&contract.moves),
        }
    }
}

// A slice crosses as a pointer and a length.
unsafe extern "C" {
    fn fineochre_reserves(
        columns: *const Columns,
        state: usize,
        year: usize,
        premiums: *const i64,
        premium_count: usize,
        reserves: *mut i64,
        reserve_count: usize,
    ) -> c_uchar;

    fn fineochre_spans(
        columns: *const Columns,
        state: usize,
        year: usize,
        premiums: *const i64,
        premium_count: usize,
        least: *mut i64,
        least_count: usize,
        greatest: *mut i64,
        greatest_count: usize,
    ) -> c_uchar;

    fn fineochre_course(
        columns: *const Columns,
        premium: i64,
        year: usize,
        column: *mut i64,
        column_length: usize,
    ) -> c_uchar;

    fn fineochre_premiums(
        columns: *const Columns,
        state: usize,
        year: usize,
        bounds: *const i64,
        bound_count: usize,
        premiums: *mut i64,
        premium_count: usize,
    ) -> c_uchar;

    fn fineochre_read_sheet(
        bytes: *const u8,
        byte_count: usize,
        factors: *mut i64,
        factor_count: usize,
        shares: *mut i64,
        share_count: usize,
        report: *mut Report,
    ) -> c_uchar;
}

// Writes what is asked to the places, and answers 0 or the number of the first refusal. Below, each
// pointer and its length are those of one slice, which outlives the call.
pub fn answer(contract: &Contract, question: &Question, places: &mut [i64]) -> u8 {
    let columns = Columns::of(contract);
    let (to, count) = (places.as_mut_ptr(), places.len());
    match *question {
        Question::Reserves {
            state,
            year,
            premiums,
        } => {
            let (from, length) = (premiums.as_ptr(), premiums.len());
            unsafe { fineochre_reserves(&columns, state, year, from, length, to, count) }
        }
        Question::Spans {
            state,
            year,
            premiums,
        } => spans(&columns, state, year, premiums, places),
        Question::Course { year, premium } => unsafe {
            fineochre_course(&columns, premium, year, to, count)
        },
        Question::Premiums {
            state,
            year,
            bounds,
        } => {
            let (from, length) = (bounds.as_ptr(), bounds.len());
            unsafe { fineochre_premiums(&columns, state, year, from, length, to, count) }
        }
    }
}

// The least ends go to the first half of the places, the greatest to the second.
fn spans(columns: &Columns, state: usize, year: usize, premiums: &[i64], places: &mut [i64]) -> u8 {
    let (least, greatest) = places.split_at_mut(places.len() / 2);
    unsafe {
        fineochre_spans(
            columns,
            state,
            year,
            premiums.as_ptr(),
            premiums.len(),
            least.as_mut_ptr(),
            least.len(),
            greatest.as_mut_ptr(),
            greatest.len(),
        )
    }
}

// Reads a sheet into the first places of the columns, and answers 0 or the number of the first
// refusal, which leaves them as they were.
pub fn read_sheet(text: &[u8], factors: &mut [i64], shares: &mut [i64], report: &mut Report) -> u8 {
    unsafe {
        fineochre_read_sheet(
            text.as_ptr(),
            text.len(),
            factors.as_mut_ptr(),
            factors.len(),
            shares.as_mut_ptr(),
            shares.len(),
            report,
        )
    }
}
