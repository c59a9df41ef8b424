// `ne_runs` in plain Rust, with its modes, its checks, and its faults but `out of memory`. The
// port's speed is compared with it.
use indexmap::IndexSet;
use std::fmt::{self, Display, Write as _};
use std::io::{self, Read, Write};
use std::process::ExitCode;

const LIMIT: usize = 1_048_576;

enum Fault {
    Empty,
    BadLine(usize),
    TooLong,
    Usage,
    Read,
    Write,
}

impl Fault {
    fn status(&self) -> u8 {
        match self {
            Fault::Empty => 1,
            Fault::BadLine(_) | Fault::TooLong | Fault::Usage => 2,
            Fault::Read | Fault::Write => 3,
        }
    }
}

impl Display for Fault {
    fn fmt(&self, f: &mut fmt::Formatter) -> fmt::Result {
        match self {
            Fault::Empty => f.write_str("Given collection was empty"),
            Fault::BadLine(place) => write!(f, "bad line {place}"),
            Fault::TooLong => f.write_str("input too long"),
            Fault::Usage => f.write_str("usage: ne_runs MODE"),
            Fault::Read => f.write_str("read failed"),
            Fault::Write => f.write_str("write failed"),
        }
    }
}

enum Mode {
    Ends,
    Stats,
    Equal,
    Parity,
    Distinct,
    Near,
    Chain,
}

impl Mode {
    // Returns the mode that the command line names by a single word.
    fn of_arguments() -> Option<Mode> {
        let mut words = std::env::args_os().skip(1);
        let mode = match words.next()?.to_str()? {
            "ends" => Mode::Ends,
            "stats" => Mode::Stats,
            "equal" => Mode::Equal,
            "parity" => Mode::Parity,
            "distinct" => Mode::Distinct,
            "near" => Mode::Near,
            "chain" => Mode::Chain,
            _ => return None,
        };
        words.next().is_none().then_some(mode)
    }

    // Returns what the mode writes for the numbers, or `None` if there are none.
    fn text(&self, numbers: &[u32]) -> Option<String> {
        let (first, last) = (numbers.first()?, numbers.last()?);
        Some(match self {
            Mode::Ends => format!("{} {first} {last}\n", numbers.len()),
            Mode::Stats => {
                let sum: u64 = numbers.iter().copied().map(u64::from).sum();
                format!("{} {} {sum}\n", numbers.iter().min()?, numbers.iter().max()?)
            }
            Mode::Equal => rows(numbers.chunk_by(|m, n| m == n)),
            Mode::Parity => rows(numbers.chunk_by(|m, n| m % 2 == n % 2)),
            Mode::Distinct => {
                let distinct: IndexSet<u32> = numbers.iter().copied().collect();
                let mut text = String::new();
                push_row(&mut text, distinct.iter());
                text
            }
            Mode::Near => rows(NearRuns(numbers)),
            Mode::Chain => rows(numbers.chunk_by(|m, n| m.abs_diff(*n) <= 1)),
        })
    }
}

// The runs of numbers that differ from their run's first by at most 1.
struct NearRuns<'a>(&'a [u32]);

impl<'a> Iterator for NearRuns<'a> {
    type Item = &'a [u32];

    fn next(&mut self) -> Option<&'a [u32]> {
        let first = self.0.first()?;
        let end = self.0.iter().position(|number| number.abs_diff(*first) > 1);
        let (run, rest) = self.0.split_at(end.unwrap_or(self.0.len()));
        self.0 = rest;
        Some(run)
    }
}

// Returns a line for each run.
fn rows<'a>(runs: impl Iterator<Item = &'a [u32]>) -> String {
    let mut text = String::new();
    for run in runs {
        push_row(&mut text, run.iter());
    }
    text
}

// Adds a line: the numbers, with a space between them.
fn push_row<'a>(text: &mut String, numbers: impl Iterator<Item = &'a u32>) {
    for (place, number) in numbers.enumerate() {
        if place > 0 {
            text.push(' ');
        }
        write!(text, "{number}").expect("a string takes every text");
    }
    text.push('\n');
}

fn read_all(reader: &mut impl Read) -> Result<Vec<u8>, Fault> {
    let mut input = Vec::new();
    let mut chunk = [0; 16_384];
    while input.len() <= LIMIT {
        let room = chunk.len().min(LIMIT + 1 - input.len());
        match reader.read(&mut chunk[..room]) {
            Ok(0) => return Ok(input),
            Ok(count) => input.extend_from_slice(&chunk[..count]),
            Err(_) => return Err(Fault::Read),
        }
    }
    Err(Fault::TooLong)
}

fn number(line: &[u8]) -> Option<u32> {
    if line.is_empty() || line.len() > 9 {
        return None;
    }
    let mut value = 0;
    for byte in line {
        if !byte.is_ascii_digit() {
            return None;
        }
        value = value * 10 + u32::from(byte - b'0');
    }
    Some(value)
}

fn numbers(text: &[u8]) -> Result<Vec<u32>, Fault> {
    let mut numbers = Vec::new();
    for line in text.split_inclusive(|byte| *byte == b'\n') {
        let line = line.strip_suffix(b"\n").unwrap_or(line);
        numbers.push(number(line).ok_or(Fault::BadLine(numbers.len() + 1))?);
    }
    Ok(numbers)
}

fn run(reader: &mut impl Read, writer: &mut impl Write) -> Result<(), Fault> {
    let mode = Mode::of_arguments().ok_or(Fault::Usage)?;
    let numbers = numbers(&read_all(reader)?)?;
    let text = mode.text(&numbers).ok_or(Fault::Empty)?;
    writer.write_all(text.as_bytes()).map_err(|_| Fault::Write)?;
    writer.flush().map_err(|_| Fault::Write)
}

fn main() -> ExitCode {
    match run(&mut io::stdin().lock(), &mut io::stdout().lock()) {
        Ok(()) => ExitCode::SUCCESS,
        Err(fault) => {
            eprintln!("{fault}");
            ExitCode::from(fault.status())
        }
    }
}
