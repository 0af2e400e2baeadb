// A sheet as both sides read it: a text, and columns with so many places.
use std::io::Write;

#[derive(Clone)]
pub struct Sheet {
    pub text: Vec<u8>,
    pub factors: usize,
    pub shares: usize,
}

// What is told of a sheet: its numbers, and the line and the offset where the rest of the text
// begins, or where a fault stands.
#[derive(Clone, Copy, Default, PartialEq, Eq, Debug)]
#[repr(C)]
pub struct Report {
    pub states: usize,
    pub years: usize,
    pub line: usize,
    pub offset: usize,
}

fn line(text: &mut Vec<u8>, letter: char, numbers: &[i64]) {
    let _ = write!(text, "{letter}");
    for number in numbers {
        let _ = write!(text, ";{number}");
    }
    text.push(b'\n');
}

// A line for each share of a year that is above nought.
fn move_lines(text: &mut Vec<u8>, states: usize, year: usize, moves: &[i64]) {
    for (place, share) in moves.iter().enumerate().filter(|(_, share)| **share > 0) {
        let (from, to) = ((place / states) as i64, (place % states) as i64);
        line(text, 'T', &[year as i64, from, to, *share]);
    }
}

impl Sheet {
    // The sheet of a basis, and columns that just suffice.
    pub fn of(states: usize, factors: &[i64], shares: &[i64]) -> Self {
        let mut text = Vec::new();
        line(&mut text, 'B', &[states as i64, factors.len() as i64]);
        let years = factors.iter().zip(shares.chunks_exact(states * states));
        for (year, (factor, moves)) in years.enumerate() {
            line(&mut text, 'D', &[year as i64, *factor]);
            move_lines(&mut text, states, year, moves);
        }
        line(&mut text, 'E', &[]);
        Sheet {
            text,
            factors: factors.len(),
            shares: shares.len(),
        }
    }

    // Where each line begins, and the end.
    pub fn starts(&self) -> Vec<usize> {
        let feeds = self.text.iter().enumerate().filter(|(_, b)| **b == b'\n');
        std::iter::once(0)
            .chain(feeds.map(|(k, _)| k + 1))
            .collect()
    }
}
