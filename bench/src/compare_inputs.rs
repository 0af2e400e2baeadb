// Whether the program `engine` and plain Rust answer inputs the same.
use crate::plain;
use crate::program::Program;
use crate::random::Random;
use crate::random_inputs::MOST_BYTES;

const INPUTS: usize = 2_000;

// How many lines were the same, and how many of them are refusals by each number.
#[derive(Default)]
pub struct Tally {
    pub lines: usize,
    pub refused: [usize; 22],
}

impl Tally {
    pub fn count(&mut self, answer: &[u8]) {
        for line in String::from_utf8_lossy(answer).lines() {
            self.lines += 1;
            let number = line
                .strip_prefix("refused;")
                .and_then(|rest| rest.split(';').next());
            if let Some(Ok(number)) = number.map(str::parse::<usize>) {
                self.refused[number] += 1;
            }
        }
    }
}

// The answer of both sides to an input, or the difference.
pub fn compare(program: &Program, input: &[u8]) -> Result<Vec<u8>, String> {
    let text = String::from_utf8_lossy(input);
    let told = |difference: &str| format!("an input\n{difference}\n{text}");
    let by_engine = program
        .answer(input)
        .map_err(|error| told(&error.to_string()))?;
    let by_plain = plain::answer_input(input);
    if by_engine == by_plain {
        return Ok(by_engine);
    }
    Err(told(&format!(
        "engine {}\nplain  {}",
        String::from_utf8_lossy(&by_engine),
        String::from_utf8_lossy(&by_plain)
    )))
}

// An input of the most bytes that are answered, and one more.
fn compare_sizes(random: &mut Random, program: &Program, tally: &mut Tally) -> Result<(), String> {
    let mut input = random.full_input(2, 20);
    for size in [MOST_BYTES, MOST_BYTES + 1] {
        input.resize(size, b'1');
        tally.count(&compare(program, &input)?);
    }
    Ok(())
}

// Compares the answers to random inputs, whole and spoilt.
pub fn compare_all(random: &mut Random, program: &Program) -> Result<Tally, String> {
    let mut tally = Tally::default();
    compare_sizes(random, program, &mut tally)?;
    for _ in 0..INPUTS {
        let input = random.any_input();
        tally.count(&compare(program, &input)?);
    }
    Ok(tally)
}
