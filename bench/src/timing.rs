// The times of both sides, taken in turn so that the machine's moods fall on both.
use crate::contract::Contract;
use crate::program::Program;
use crate::question::Question;
use crate::sheet::{Report, Sheet};
use crate::{engine, plain};
use std::hint::black_box;
use std::time::{Duration, Instant};

pub const ROUNDS: usize = 400;

// The same for whole inputs, of which one takes long, and for those of many contracts.
pub const INPUT_ROUNDS: usize = 10;
pub const PORTFOLIO_ROUNDS: usize = 40;

// What a round asks for many pieces of work, and what it asks for none: all else that a call does,
// as taking columns in, is in both.
pub struct Work<'a> {
    pub all: Vec<Question<'a>>,
    pub none: Vec<Question<'a>>,
    pub pieces: usize,
}

impl<'a> Work<'a> {
    // One call for all entries, against one for none.
    pub fn of_one_call(ask: impl Fn(&'a [i64]) -> Question<'a>, entries: &'a [i64]) -> Self {
        Work {
            all: vec![ask(entries)],
            none: vec![ask(&[])],
            pieces: entries.len(),
        }
    }
}

// What one piece of work takes on either side, in nanoseconds: the best of all rounds, in which
// other programs were least in the way.
pub struct Times {
    pub engine: f64,
    pub plain: f64,
}

type Side = fn(&Contract, &Question, &mut [i64]) -> u8;

fn time(side: Side, contract: &Contract, questions: &[Question], places: &mut [i64]) -> Duration {
    let start = Instant::now();
    for question in questions {
        let count = question.places(contract);
        let number = side(black_box(contract), question, &mut places[..count]);
        assert_eq!(number, 0, "a timed contract is lawful");
        black_box(&mut *places);
    }
    start.elapsed()
}

// What a piece takes beyond what is asked for none.
fn piece(all: Duration, none: Duration, pieces: usize) -> f64 {
    (all.as_nanos() as f64 - none.as_nanos() as f64) / pieces as f64
}

// The best time of each part of a round.
fn best<const N: usize>(rounds: usize, mut round: impl FnMut() -> [Duration; N]) -> [Duration; N] {
    let mut best = [Duration::MAX; N];
    for _ in 0..rounds {
        let times = round();
        best = std::array::from_fn(|k| best[k].min(times[k]));
    }
    best
}

// All of a work on both sides, and none of it on both sides.
fn round(contract: &Contract, work: &Work, places: &mut [i64]) -> [Duration; 4] {
    [
        time(engine::answer, contract, &work.all, places),
        time(plain::answer, contract, &work.all, places),
        time(engine::answer, contract, &work.none, places),
        time(plain::answer, contract, &work.none, places),
    ]
}

fn times(round: [Duration; 4], work: &Work) -> Times {
    Times {
        engine: piece(round[0], round[2], work.pieces),
        plain: piece(round[1], round[3], work.pieces),
    }
}

// Places for all answers of a work.
fn places(contract: &Contract, work: &Work) -> Vec<i64> {
    let most = work.all.iter().map(|question| question.places(contract));
    vec![0; most.max().unwrap_or(0)]
}

pub fn compare(contract: &Contract, work: &Work) -> Times {
    let mut places = places(contract, work);
    let best = best(ROUNDS, || round(contract, work, &mut places));
    times(best, work)
}

fn median(mut numbers: Vec<f64>) -> f64 {
    numbers.sort_by(f64::total_cmp);
    numbers[numbers.len() / 2]
}

// A piece of one work as a multiple of a piece of another: the median of so many rounds, each of
// which times both. So what slows a stretch of rounds slows both, and a few that are cut short by
// other programs do not count.
pub fn multiple(contract: &Contract, work: &Work, unit: &Work, rounds: usize) -> Times {
    let (mut work_places, mut unit_places) = (places(contract, work), places(contract, unit));
    let mut multiples = (Vec::new(), Vec::new());
    for _ in 0..rounds {
        let of_work = times(round(contract, work, &mut work_places), work);
        let of_unit = times(round(contract, unit, &mut unit_places), unit);
        multiples.0.push(of_work.engine / of_unit.engine);
        multiples.1.push(of_work.plain / of_unit.plain);
    }
    Times {
        engine: median(multiples.0),
        plain: median(multiples.1),
    }
}

type Reader = fn(&[u8], &mut [i64], &mut [i64], &mut Report) -> u8;

fn time_reading(reader: Reader, sheet: &Sheet, places: &mut [i64], pieces: usize) -> Duration {
    let (factors, shares) = places.split_at_mut(sheet.factors);
    let mut report = Report::default();
    let start = Instant::now();
    for _ in 0..pieces {
        let number = reader(black_box(&sheet.text), factors, shares, &mut report);
        assert_eq!(number, 0, "a timed sheet is lawful");
        black_box((&mut *factors, &mut *shares, &mut report));
    }
    start.elapsed()
}

pub fn compare_readings(sheet: &Sheet, pieces: usize) -> Times {
    let mut places = vec![0; sheet.factors + sheet.shares];
    let best = best(ROUNDS, || {
        [
            time_reading(engine::read_sheet, sheet, &mut places, pieces),
            time_reading(plain::read_sheet, sheet, &mut places, pieces),
        ]
    });
    Times {
        engine: piece(best[0], Duration::ZERO, pieces),
        plain: piece(best[1], Duration::ZERO, pieces),
    }
}

// What an input takes by the program, and by plain Rust.
fn time_input(program: &Program, input: &[u8]) -> [Duration; 2] {
    let start = Instant::now();
    let answer = program.answer(black_box(input));
    let by_engine = start.elapsed();
    assert!(black_box(answer).is_ok(), "the program runs");
    let start = Instant::now();
    black_box(plain::answer_input(black_box(input)));
    [by_engine, start.elapsed()]
}

// An input against an empty one, which starts and ends the program too.
pub fn compare_answers(program: &Program, input: &[u8], rounds: usize) -> Times {
    let best = best(rounds, || {
        let [engine, plain] = time_input(program, input);
        let [engine_none, plain_none] = time_input(program, b"");
        [engine, plain, engine_none, plain_none]
    });
    Times {
        engine: piece(best[0], best[2], 1),
        plain: piece(best[1], best[3], 1),
    }
}
