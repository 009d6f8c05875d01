//! The tables of the library and its peers.

use crate::peers::{answers, python, Icu, Peer};
use crate::shared::Operation;
use crate::table::{copies, digits, dotted, time, Case, Outcome};
use bigdecimal::BigDecimal;
use rust_decimal::prelude::ToPrimitive;
use rust_decimal::Decimal as RustDecimal;
use std::hint::black_box;
use std::time::Instant;

const SIZES: [usize; 6] = [4, 8, 16, 19, 100, 10_000];
const DECIMALS: u16 = 2;

/// The rows of the table: the operation here, and its name.
const ROWS: [(Operation, &str); 8] = [
    (Operation::Parse, "parse"),
    (Operation::MultiplyPow10, "shift"),
    (Operation::Round, "round"),
    (Operation::WriteFresh, "print"),
    (Operation::Whole, "whole"),
    (Operation::Compare, "compare"),
    (Operation::Compare, "compare_last"),
    (Operation::ToU64, "to_u64"),
];

/// The rows whose nanoseconds are printed too: they are few.
const SHORT_ROWS: [&str; 3] = ["compare", "compare_last", "to_u64"];

const PEERS: [&str; 4] = ["rust_decimal", "bigdecimal", "libmpdec, from Python", "ICU"];

/// A number with at least three decimals.
fn text(size: usize) -> String {
    dotted(&digits(size), (size / 2).min(size - 3))
}

/// Returns the input of a row at a size; `None` if the row has no such size.
fn case(operation: Operation, name: &str, size: usize) -> Option<Case> {
    let (mut text, mut other) = (text(size), String::new());
    match name {
        "compare" => other.clone_from(&text),
        // Both end with other digits.
        "compare_last" => other = format!("{}8", text.strip_suffix('7')?),
        // A u64 has no more digits.
        "to_u64" if size > 19 => return None,
        "to_u64" => text = digits(size),
        _ => {}
    }
    Some(Case { operation, text, other, position: -(DECIMALS as i16), copies: copies(size) })
}

/// Returns the sum over the results of a batch of the short rows.
fn sum(case: &Case) -> Option<u64> {
    let one = match case.operation {
        Operation::Compare if case.text == case.other => 1,
        Operation::Compare => 0,
        Operation::ToU64 => case.text.parse().ok()?,
        _ => return None,
    };
    Some(u64::wrapping_mul(one, case.copies as u64))
}

/// Returns the nanoseconds of a call, on average over a batch.
fn batch<T>(count: usize, mut call: impl FnMut() -> T) -> f64 {
    let start = Instant::now();
    for _ in 0..count {
        black_box(call());
    }
    start.elapsed().as_nanos() as f64 / count as f64
}

/// The same of a peer; `None` if it does not hold this number, or has no operation of this kind.
fn peer_batch<P: Peer>(case: &Case) -> Option<f64> {
    let (text, count) = (case.text.as_str(), case.copies);
    let number = P::read(text)?;
    // A library that does not hold the number as it is written has no time for it.
    (P::print(&number) == text).then_some(())?;
    if matches!(case.operation, Operation::Round | Operation::Whole) {
        P::whole(text, DECIMALS)?;
    }
    Some(match case.operation {
        Operation::Parse => batch(count, || P::read(black_box(text))),
        Operation::MultiplyPow10 => batch(count, || P::shift(black_box(&number))),
        Operation::Round => batch(count, || P::round(black_box(&number), DECIMALS)),
        Operation::WriteFresh => batch(count, || P::print(black_box(&number))),
        Operation::Compare => {
            let other = P::read(&case.other)?;
            batch(count, || black_box(&number).cmp(black_box(&other)))
        }
        Operation::ToU64 => batch(count, || black_box(&number).to_u64()),
        _ => batch(count, || P::whole(black_box(text), DECIMALS)),
    })
}

/// The same of ICU, which has only the row `whole`.
fn icu_batch(icu: &mut Icu, case: &Case) -> Option<f64> {
    icu.whole(&case.text).filter(|_| case.operation == Operation::Whole)?;
    Some(batch(case.copies, || icu.whole(black_box(&case.text)).map(<[u16]>::len)))
}

/// Returns the least times of an operation and size: here, in rust_decimal, in bigdecimal, in Python's decimal, in ICU.
fn cell(operation: Operation, name: &str, size: usize, passes: usize, python: &str) -> [Option<f64>; 5] {
    let mut least = [None; 5];
    let Some(case) = case(operation, name, size) else {
        return least;
    };
    let mut icu = Icu::new(DECIMALS);
    for _ in 0..passes * 10 {
        let mut outcome = Outcome::new(&case);
        let ours = time(&case, &mut outcome) as f64 / case.copies as f64;
        assert!(sum(&case).is_none_or(|sum| sum == outcome.sum), "{name} of {} came to this", case.text);
        let found = [
            Some(ours),
            peer_batch::<RustDecimal>(&case),
            peer_batch::<BigDecimal>(&case),
            None,
            icu_batch(&mut icu, &case),
        ];
        for (least, found) in least.iter_mut().zip(found) {
            *least = match (*least, found) {
                (Some(one), Some(other)) => Some(f64::min(one, other)),
                (one, other) => one.or(other),
            };
        }
    }
    let line = format!("{name} {size} ");
    least[3] = python.lines().find_map(|found| found.strip_prefix(&line)?.parse().ok());
    least
}

/// Prints the nanoseconds of a row, here and in each peer that has it.
fn print_nanoseconds(name: &str, cells: &[[Option<f64>; 5]]) {
    for (place, library) in ["here"].iter().chain(&PEERS).enumerate() {
        let shown = |times: &[Option<f64>; 5]| times[place].map_or(" |".to_owned(), |time| format!(" {time:.1} |"));
        if cells.iter().any(|times| times[place].is_some()) {
            println!("| {name}, {library} |{}", cells.iter().map(shown).collect::<String>());
        }
    }
}

fn print_head(word: &str) {
    println!("|{word} |{}", SIZES.map(|size| format!(" {size} |")).concat());
    println!("|---|{}", "---|".repeat(SIZES.len()));
}

/// Prints the time here over the time there, by operation, peer and size, and the nanoseconds of the short rows.
pub fn print(passes: usize) {
    let texts = SIZES.map(text);
    let mut words = vec!["time"];
    words.extend(texts.iter().map(String::as_str));
    let python = python(&words).unwrap_or_default();
    let rows = ROWS.map(|(operation, name)| (name, SIZES.map(|size| cell(operation, name, size, passes, &python))));
    print_head("");
    for (name, cells) in &rows {
        for (peer, peer_name) in PEERS.iter().enumerate() {
            let ratio = |times: &[Option<f64>; 5]| match (times[0], times[peer + 1]) {
                (Some(here), Some(there)) => format!(" {:.2} |", here / there),
                _ => " |".to_owned(),
            };
            if cells.iter().any(|times| times[peer + 1].is_some()) {
                println!("| {name}, {peer_name} |{}", cells.iter().map(ratio).collect::<String>());
            }
        }
    }
    println!();
    print_head(" nanoseconds");
    for (name, cells) in rows.iter().filter(|(name, _)| SHORT_ROWS.contains(name)) {
        print_nanoseconds(name, cells);
    }
}

/// The rows of the table of results: a text, and the decimals to which a hundredth of it is rounded.
const INPUTS: [(&str, u16); 9] = [
    ("00750", 2),
    ("-0.1", 2),
    ("1e5", 0),
    ("234.5", 2),
    ("235.5", 2),
    ("234.50000000000000000000000000001", 2),
    ("123456789012345678901234567890123456789012", 2),
    ("1e-8", 10),
    ("1", 30),
];

/// Returns the result of one call of the library, made in the same way as the timed ones.
fn answer(text: &str, decimals: u16) -> String {
    let position = -(decimals as i16);
    let case = Case { operation: Operation::Whole, text: text.to_owned(), other: String::new(), position, copies: 1 };
    let mut outcome = Outcome::new(&case);
    time(&case, &mut outcome);
    let length = outcome.answer.iter().position(|byte| *byte == 0).unwrap_or(outcome.answer.len());
    String::from_utf8_lossy(&outcome.answer[..length]).into_owned()
}

/// Prints the results of each library for some texts, parsed, shifted by -2, rounded half-even and printed.
pub fn print_answers() {
    println!("| Text | Decimals | Here | Original | rust_decimal | bigdecimal | libmpdec, from Python | ICU |");
    println!("|---|---|---|---|---|---|---|---|");
    for (text, decimals) in INPUTS {
        let shown = |answer: Option<String>| answer.map_or(" refused |".to_owned(), |answer| format!(" `{answer}` |"));
        let peers: String = answers(text, decimals).into_iter().map(shown).collect();
        println!("| `{text}` | {decimals} | `{}` |{peers}", answer(text, decimals));
    }
}
