//! The table of the library and the original.

use crate::original;
use crate::shared::{Operation, OPERATIONS};

extern "C" {
    fn decimal_time(
        operation: u8,
        text: *const u8,
        text_length: usize,
        other: *const u8,
        other_length: usize,
        position: i16,
        copies: usize,
        answer: *mut u8,
        room: usize,
        sum: *mut u64,
    ) -> u64;
}

const SIZES: [usize; 10] = [1, 4, 8, 16, 19, 39, 100, 1000, 10_000, 60_000];

/// The input of a batch.
pub struct Case {
    pub operation: Operation,
    pub text: String,
    pub other: String,
    pub position: i16,
    pub copies: usize,
}

/// The result of a batch: a sum over all results, and the text of the last one.
#[derive(PartialEq)]
pub struct Outcome {
    pub sum: u64,
    pub answer: Vec<u8>,
}

impl Outcome {
    pub fn new(case: &Case) -> Self {
        Outcome { sum: 0, answer: vec![0; case.text.len() + case.other.len() + 40] }
    }

    pub fn add(&mut self, more: u64) {
        self.sum = self.sum.wrapping_mul(31).wrapping_add(more);
    }

    pub fn put(&mut self, bytes: &[u8]) {
        if bytes.len() <= self.answer.len() {
            self.answer[..bytes.len()].copy_from_slice(bytes);
        }
    }
}

/// Runs a batch of the library, and returns the nanoseconds of its calls.
pub fn time(case: &Case, outcome: &mut Outcome) -> u64 {
    let (text, other) = (case.text.as_bytes(), case.other.as_bytes());
    // The slices live through the call, and none of them is kept.
    let took = unsafe {
        decimal_time(
            case.operation as u8,
            text.as_ptr(),
            text.len(),
            other.as_ptr(),
            other.len(),
            case.position,
            case.copies,
            outcome.answer.as_mut_ptr(),
            outcome.answer.len(),
            &mut outcome.sum,
        )
    };
    assert!(took > 0, "a batch of {:?} ran", case.operation);
    took
}

/// Mixed digits, with a 7 at both ends.
pub fn digits(size: usize) -> String {
    let inner = |place: usize| (place * 7 + place / 10 + 3) % 10;
    let digit = |place| if place == 0 || place + 1 == size { 7 } else { inner(place) };
    (0..size).map(|place| digit(place).to_string()).collect()
}

/// Inserts a decimal point after `whole` digits.
pub fn dotted(digits: &str, whole: usize) -> String {
    match digits.split_at(whole) {
        (whole, "") => whole.to_owned(),
        (whole, decimals) => format!("{whole}.{decimals}"),
    }
}

pub fn copies(size: usize) -> usize {
    ((1 << 20) / (size + 64)).clamp(16, 512)
}

/// Returns the row of an operation in the table; `None` if it has none.
fn name(operation: Operation) -> Option<&'static str> {
    Some(match operation {
        Operation::Parse => "parse",
        Operation::ParseDecimal => "parse_decimal",
        Operation::WriteFresh => "write_fresh",
        Operation::WriteRoom => "write_room",
        Operation::WriteBytes => "write_bytes",
        Operation::Display => "display",
        Operation::Clone => "clone",
        Operation::Equal => "eq",
        Operation::DigitAt => "digit_at",
        Operation::Digits => "digits",
        Operation::MultiplyPow10 => "multiply_pow10",
        Operation::TrimStart => "trim_start",
        Operation::TrimEnd => "trim_end",
        Operation::SetMax => "set_max",
        Operation::Round => "round",
        Operation::Round25 => "round_25",
        Operation::ExpandNines => "expand_nines",
        Operation::Concatenate => "concatenate",
        Operation::FromU64 => "from_u64",
        Operation::FromU128 => "from_u128",
        // The original has no rows of these, and of the whole there is a table beside more libraries.
        Operation::Whole | Operation::Compare | Operation::ToU64 => return None,
        Operation::Category | Operation::Remainder => return None,
    })
}

fn case(operation: Operation, size: usize) -> Option<Case> {
    let middle = size.div_ceil(2);
    let text = dotted(&digits(size), middle);
    let mut case = Case { operation, text, other: String::new(), position: 0, copies: copies(size) };
    match operation {
        Operation::ParseDecimal => case.text = format!("-{}", case.text),
        Operation::MultiplyPow10 => case.position = 1,
        Operation::TrimStart => case.text = format!("000{}", case.text),
        Operation::TrimEnd => case.text += if size == 1 { ".000" } else { "000" },
        Operation::ExpandNines if size == 1 => case.text = "0.9".to_owned(),
        Operation::ExpandNines => {
            // The carry goes through all nines but the last, which is cut off.
            case.text = dotted(&"9".repeat(size), middle);
            case.position = 1 - (size / 2) as i16;
        }
        Operation::Concatenate => {
            case.text = digits(middle);
            case.other = format!("0.{}", digits((size / 2).max(1)));
        }
        Operation::FromU64 if size > 19 => return None,
        Operation::FromU128 if size > 39 => return None,
        Operation::FromU64 | Operation::FromU128 => {
            // The greatest u128 has 39 digits, and starts with a 3. All integers of a batch have the same number of
            // digits.
            case.text = if size == 39 { digits(size).replacen('7', "1", 1) } else { digits(size) };
            case.position = if size == 1 { 1 } else { 511 };
        }
        _ => {}
    }
    Some(case)
}

/// The least times of the batches of a case.
struct Cell {
    case: Case,
    ours: u64,
    original: u64,
}

impl Cell {
    fn new(case: Case) -> Self {
        Cell { case, ours: u64::MAX, original: u64::MAX }
    }

    /// Runs a batch of each, whose results have to be equal.
    fn run(&mut self) {
        let (mut here, mut there) = (Outcome::new(&self.case), Outcome::new(&self.case));
        let ours = time(&self.case, &mut here);
        let original = original::time(&self.case, &mut there);
        assert!(here == there, "{:?} of {} came to the same", self.case.operation, self.case.text);
        self.ours = self.ours.min(ours);
        self.original = self.original.min(original);
    }

    /// The nanoseconds of a call here, and in the original.
    fn times(&self) -> String {
        let nanoseconds = |batch: u64| batch as f64 / self.case.copies as f64;
        format!("{:.3} / {:.3}", nanoseconds(self.ours), nanoseconds(self.original))
    }
}

/// Runs the whole table `passes` times, so that a slow spell of the machine spoils no row, and prints it.
pub fn print(passes: usize, word: &str) {
    let is_asked = |operation: &Operation| name(*operation).is_some_and(|name| name.contains(word));
    let rows = OPERATIONS.into_iter().filter(is_asked);
    let mut rows: Vec<(&str, Vec<Option<Cell>>)> = rows
        .map(|operation| {
            let cells = SIZES.iter().map(|size| case(operation, *size).map(Cell::new));
            (name(operation).unwrap_or_default(), cells.collect())
        })
        .collect();
    for _ in 0..passes {
        for cell in rows.iter_mut().flat_map(|(_, cells)| cells.iter_mut().flatten()) {
            // Short batches are cheap, and differ more.
            for _ in 0..if cell.case.text.len() <= 1100 { 30 } else { 6 } {
                cell.run();
            }
        }
    }
    println!("||{}", SIZES.map(|size| format!("{size}|")).concat());
    println!("|---|{}", "---|".repeat(SIZES.len()));
    for (name, cells) in &rows {
        let cells = cells.iter().map(|cell| cell.as_ref().map_or(String::new(), Cell::times));
        println!("|{name}|{}", cells.map(|cell| format!("{cell}|")).collect::<String>());
    }
}
