// Lines of a text and their fields.
use std::ops::RangeInclusive;

// The numbers of the refusals.
const NO_LINE_FEED: u8 = 2;
pub const UNFIT_FORM: u8 = 3;
const UNFIT_NUMBER: u8 = 4;
const UNFIT_RANGE: u8 = 5;

const MOST_BYTES: usize = 40;
const MOST_DIGITS: usize = 11;

pub struct Fault {
    pub number: u8,
    pub line: usize,
    pub offset: usize,
}

// A line without its line feed: which it is, counted from 1, and where it begins.
#[derive(Clone, Copy)]
pub struct Line<'a> {
    pub number: usize,
    pub offset: usize,
    pub bytes: &'a [u8],
}

// The number of 1 to 11 digits without leading nought.
pub fn number(digits: &[u8]) -> Option<i64> {
    if digits.is_empty()
        || digits.len() > MOST_DIGITS
        || (digits.len() > 1 && digits.starts_with(b"0"))
    {
        return None;
    }
    let mut value = 0;
    for byte in digits {
        if !byte.is_ascii_digit() {
            return None;
        }
        value = value * 10 + i64::from(byte - b'0');
    }
    Some(value)
}

// The same, or a number below nought: a minus before digits that are not those of nought.
pub fn signed(field: &[u8]) -> Option<i64> {
    match field {
        [b'-', digits @ ..] => number(digits)
            .filter(|value| *value > 0)
            .map(|value| -value),
        _ => number(field),
    }
}

// How a field is read as a number.
pub type Reading = fn(&[u8]) -> Option<i64>;

impl<'a> Line<'a> {
    pub fn first(text: &'a [u8], number: usize, offset: usize) -> Result<Self, Fault> {
        let rest = &text[offset..];
        let in_time = &rest[..rest.len().min(MOST_BYTES)];
        match in_time.iter().position(|byte| *byte == b'\n') {
            Some(end) => Ok(Line {
                number,
                offset,
                bytes: &rest[..end],
            }),
            None => Err(Fault {
                number: NO_LINE_FEED,
                line: number,
                offset,
            }),
        }
    }

    pub fn fault(self, number: u8) -> Fault {
        Fault {
            number,
            line: self.number,
            offset: self.offset,
        }
    }

    // The fault of a field.
    fn field_fault(self, number: u8, field: &[u8]) -> Fault {
        let within = field.as_ptr() as usize - self.bytes.as_ptr() as usize;
        Fault {
            offset: self.offset + within,
            ..self.fault(number)
        }
    }

    // All fields after the letter and its semicolon, if there are so many.
    pub fn fields<const N: usize>(self) -> Result<[&'a [u8]; N], Fault> {
        let mut parts = self.bytes[2..].split(|byte| *byte == b';');
        let mut fields = [&[][..]; N];
        for field in &mut fields {
            *field = parts.next().ok_or(self.fault(UNFIT_FORM))?;
        }
        match parts.next() {
            None => Ok(fields),
            Some(_) => Err(self.fault(UNFIT_FORM)),
        }
    }

    // The numbers of some fields, each as it is to be read.
    pub fn parsed<const N: usize>(
        self,
        fields: [&[u8]; N],
        readings: [Reading; N],
    ) -> Result<[i64; N], Fault> {
        let mut numbers = [0; N];
        for ((entry, field), read) in numbers.iter_mut().zip(fields).zip(readings) {
            *entry = read(field).ok_or_else(|| self.field_fault(UNFIT_NUMBER, field))?;
        }
        Ok(numbers)
    }

    pub fn check_ranges<const N: usize>(
        self,
        fields: [&[u8]; N],
        numbers: [i64; N],
        ranges: [RangeInclusive<i64>; N],
    ) -> Result<(), Fault> {
        for ((entry, field), range) in numbers.iter().zip(fields).zip(ranges) {
            if !range.contains(entry) {
                return Err(self.field_fault(UNFIT_RANGE, field));
            }
        }
        Ok(())
    }

    // The numbers of all fields, each in its range.
    pub fn numbers<const N: usize>(
        self,
        ranges: [RangeInclusive<i64>; N],
    ) -> Result<[i64; N], Fault> {
        let fields = self.fields()?;
        let numbers = self.parsed(fields, [number; N])?;
        self.check_ranges(fields, numbers, ranges)?;
        Ok(numbers)
    }
}
