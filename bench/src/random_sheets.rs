// Random sheets, and sheets spoilt at random.
use crate::contract::{MILLION, MOST_STATES};
use crate::random::Random;
use crate::sheet::Sheet;

// Bytes that a sheet has, or nearly has.
const LIKELY: &[u8] = b"0123456789;;\n\nBDTEQCAL-+ \r\x00";

// Fields at which a rule might be missed.
const ODD: [&[u8]; 17] = [
    b"",
    b"0",
    b"1",
    b"2",
    b"8",
    b"9",
    b"120",
    b"121",
    b"1000000",
    b"1000001",
    b"00",
    b"01",
    b"-0",
    b"-1",
    b"+1",
    b"99999999999",
    b"100000000000",
];

impl Random {
    // Shares above nought that add up to a million.
    fn full_row(&mut self, states: usize) -> Vec<i64> {
        let mut left = MILLION;
        let mut shares = Vec::with_capacity(states);
        for more in (1..states as i64).rev() {
            let share = self.within(1, (left - more) / more);
            shares.push(share);
            left -= share;
        }
        shares.push(left);
        shares
    }

    // A lawful sheet of so many states and years with a line for each share.
    pub fn full_sheet(&mut self, states: usize, years: usize) -> Sheet {
        let factors: Vec<i64> = (0..years).map(|_| self.within(1, MILLION)).collect();
        let rows = (0..years * states).flat_map(|_| self.full_row(states));
        Sheet::of(states, &factors, &rows.collect::<Vec<i64>>())
    }

    fn byte(&mut self) -> u8 {
        if self.one_in(4) {
            self.within(0, 255) as u8
        } else {
            LIKELY[self.count(0, LIKELY.len() - 1)]
        }
    }

    // Bytes after the sheet, and places to spare.
    pub fn add_rest(&mut self, sheet: &mut Sheet) {
        for _ in 0..self.count(0, 60) {
            let byte = self.byte();
            sheet.text.push(byte);
        }
        sheet.factors += self.count(0, 2);
        sheet.shares += self.count(0, 2);
    }

    // A place in the text, often near its beginning, since a fault hides all that comes later.
    fn text_place(&mut self, sheet: &Sheet) -> usize {
        let last = sheet.text.len() - 1;
        if self.one_in(2) {
            self.count(0, last.min(60))
        } else {
            self.count(0, last)
        }
    }

    // Swaps a line with the next, leaves it out or writes it twice.
    fn spoil_lines(&mut self, sheet: &mut Sheet) {
        let starts = sheet.starts();
        if starts.len() < 3 {
            return;
        }
        let k = self.count(0, starts.len() - 3);
        let line = sheet.text[starts[k]..starts[k + 1]].to_vec();
        match self.within(0, 2) {
            0 => sheet.text[starts[k]..starts[k + 2]].rotate_left(line.len()),
            1 => drop(sheet.text.drain(starts[k]..starts[k + 1])),
            _ => drop(sheet.text.splice(starts[k]..starts[k], line)),
        }
    }

    // Writes an odd field in the place of what follows a semicolon.
    fn spoil_field(&mut self, sheet: &mut Sheet) {
        let place = self.text_place(sheet);
        let Some(start) = sheet.text[..place].iter().rposition(|b| *b == b';') else {
            return;
        };
        let field = &sheet.text[start + 1..];
        let length = field.iter().position(|b| b";\n".contains(b));
        let end = start + 1 + length.unwrap_or(field.len());
        let odd = ODD[self.count(0, ODD.len() - 1)];
        sheet.text.splice(start + 1..end, odd.iter().copied());
    }

    // Makes a line so long that its line feed may come too late.
    fn lengthen_line(&mut self, sheet: &mut Sheet, place: usize) {
        let run = vec![self.byte(); self.count(10, 39)];
        sheet.text.splice(place..place, run);
    }

    // Makes a column too short, or just long enough for fewer states.
    fn spoil_columns(&mut self, sheet: &mut Sheet) {
        match self.within(0, 2) {
            0 => sheet.factors = self.count(0, sheet.factors),
            1 => sheet.shares = self.count(0, sheet.shares),
            _ => sheet.shares = sheet.factors * self.count(1, MOST_STATES),
        }
    }

    // Spoils a sheet in one place, or now and then in several.
    pub fn spoil_sheet(&mut self, sheet: &mut Sheet) {
        loop {
            if sheet.text.is_empty() {
                return;
            }
            let (place, byte) = (self.text_place(sheet), self.byte());
            match self.within(0, 9) {
                0 | 1 => sheet.text[place] = byte,
                2 => drop(sheet.text.remove(place)),
                3 => sheet.text.insert(place, byte),
                4 => self.spoil_lines(sheet),
                5 | 6 => self.spoil_field(sheet),
                7 => self.spoil_columns(sheet),
                8 => self.lengthen_line(sheet, place),
                _ => sheet.text.truncate(place),
            }
            if !self.one_in(4) {
                return;
            }
        }
    }
}
