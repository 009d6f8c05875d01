//! The timed calls of the original, as those of the library in `library/lib.rt.txt`.

use crate::shared::Operation;
use crate::table::{Case, Outcome};
use fixed_decimal::{Decimal, RoundingIncrement, UnsignedDecimal, UnsignedRoundingMode};
use std::fmt::Write;
use std::time::Instant;
use writeable::Writeable;

fn number(text: &str) -> UnsignedDecimal {
    UnsignedDecimal::try_from_str(text).expect("a number")
}

fn values(case: &Case, text: &str) -> Vec<UnsignedDecimal> {
    (0..case.copies).map(|_| number(text)).collect()
}

fn bits(magnitude: i16) -> u64 {
    u64::from(magnitude as u16)
}

/// A number that depends on the whole value.
#[inline(never)]
fn seen(value: &UnsignedDecimal) -> u64 {
    let range = value.magnitude_range();
    let first = value.nonzero_magnitude_start();
    let last = value.nonzero_magnitude_end();
    let digits = u64::from(value.digit_at(first)) + 10 * u64::from(value.digit_at(last));
    let ends = bits(*range.start()).wrapping_mul(31).wrapping_add(bits(*range.end()));
    let places = bits(first).wrapping_mul(31).wrapping_add(bits(last));
    digits.wrapping_add(ends.wrapping_mul(1009)).wrapping_add(places.wrapping_mul(1013))
}

/// A number of a value that is dropped.
#[inline(never)]
fn taken(value: UnsignedDecimal) -> u64 {
    bits(value.nonzero_magnitude_end())
}

#[inline(never)]
fn taken_decimal(value: Decimal) -> u64 {
    bits(value.nonzero_magnitude_end())
}

/// A number that depends on a text.
#[inline(never)]
fn read(text: &[u8]) -> u64 {
    match text {
        [first, .., last] => u64::from(*first) + u64::from(*last),
        [only] => u64::from(*only),
        [] => 0,
    }
}

/// A number of a text that is dropped.
#[inline(never)]
fn read_text(text: String) -> u64 {
    read(text.as_bytes())
}

/// Adds up the digits, one by one.
#[inline(never)]
fn digit_sum(value: &UnsignedDecimal) -> u64 {
    let mut sum: u64 = 0;
    for magnitude in value.magnitude_range().rev() {
        sum = sum.wrapping_add(u64::from(value.digit_at(magnitude)));
    }
    sum
}

impl Outcome {
    fn put_all(&mut self, values: &[UnsignedDecimal]) {
        for value in values {
            self.add(seen(value));
        }
        if let Some(last) = values.last() {
            self.put(last.to_string().as_bytes());
        }
    }
}

/// Times a call that inspects each item, and returns a number.
#[inline(always)]
fn look<T>(outcome: &mut Outcome, items: impl Iterator<Item = T>, mut call: impl FnMut(T) -> u64) -> u64 {
    let mut sum = 0_u64;
    let start = Instant::now();
    for item in items {
        sum = sum.wrapping_add(call(item));
    }
    let took = start.elapsed().as_nanos() as u64;
    outcome.add(sum);
    took
}

/// Times a call that changes each value.
#[inline(always)]
fn change(case: &Case, outcome: &mut Outcome, call: impl Fn(&mut UnsignedDecimal)) -> u64 {
    let mut all = values(case, &case.text);
    let start = Instant::now();
    for value in &mut all {
        call(value);
    }
    let took = start.elapsed().as_nanos() as u64;
    outcome.put_all(&all);
    took
}

/// A sink of bytes, as a user may write one.
struct Bytes(Vec<u8>);

impl Write for Bytes {
    fn write_str(&mut self, text: &str) -> std::fmt::Result {
        self.0.extend_from_slice(text.as_bytes());
        Ok(())
    }

    #[inline]
    fn write_char(&mut self, letter: char) -> std::fmt::Result {
        self.0.push(letter as u8);
        Ok(())
    }
}

fn written(case: &Case, outcome: &mut Outcome, print: impl Fn(&UnsignedDecimal) -> String) -> u64 {
    let all = values(case, &case.text);
    let took = look(outcome, all.iter(), |value| read_text(print(value)));
    outcome.put_all(&all);
    took
}

fn room(value: &impl Writeable) -> usize {
    value.writeable_length_hint().0
}

fn written_fresh(value: &impl Writeable) -> String {
    let mut text = String::with_capacity(room(value));
    let _ = value.write_to(&mut text);
    text
}

/// Parses a number, shifts it by -2, rounds it at a position, and prints it.
pub fn worked(text: &str, position: i16) -> String {
    let mut value = Decimal::try_from_str(text).expect("a number");
    value.multiply_pow10(-2);
    value.round(position);
    written_fresh(&value)
}

/// Runs a batch, and returns the nanoseconds of its calls.
pub fn time(case: &Case, outcome: &mut Outcome) -> u64 {
    let position = case.position;
    let text = case.text.as_bytes();
    match case.operation {
        Operation::Parse => {
            let texts = case.text.repeat(case.copies);
            let texts = texts.as_bytes().chunks(text.len());
            let took = look(outcome, texts, |text| UnsignedDecimal::try_from_utf8(text).map_or(0, taken));
            outcome.put(number(&case.text).to_string().as_bytes());
            took
        }
        Operation::ParseDecimal => {
            let texts = case.text.repeat(case.copies);
            let texts = texts.as_bytes().chunks(text.len());
            look(outcome, texts, |text| Decimal::try_from_utf8(text).map_or(0, taken_decimal))
        }
        Operation::WriteFresh => written(case, outcome, written_fresh),
        Operation::Display => written(case, outcome, |value| {
            let mut text = String::new();
            let _ = write!(text, "{value}");
            text
        }),
        Operation::WriteRoom => {
            let all = values(case, &case.text);
            let mut sink = String::with_capacity(room(&all[0]));
            let took = look(outcome, all.iter(), |value| {
                sink.clear();
                value.write_to(&mut sink).map_or(0, |()| read(sink.as_bytes()))
            });
            outcome.put(sink.as_bytes());
            took
        }
        Operation::WriteBytes => {
            let all = values(case, &case.text);
            let mut sink = Bytes(Vec::with_capacity(room(&all[0])));
            let took = look(outcome, all.iter(), |value| {
                sink.0.clear();
                value.write_to(&mut sink).map_or(0, |()| read(&sink.0))
            });
            outcome.put(&sink.0);
            took
        }
        Operation::Clone => {
            let all = values(case, &case.text);
            let took = look(outcome, all.iter(), |value| taken(value.clone()));
            outcome.put(all[0].clone().to_string().as_bytes());
            took
        }
        Operation::Equal => {
            let (all, twin) = (values(case, &case.text), number(&case.text));
            look(outcome, all.iter(), |value| u64::from(*value == twin))
        }
        Operation::DigitAt => {
            let all = values(case, &case.text);
            look(outcome, all.iter(), digit_sum)
        }
        // The original has no iterator over the digits: its fastest loop over them.
        Operation::Digits => {
            let all = values(case, &case.text);
            look(outcome, all.iter(), |value| {
                let digits = value.magnitude_range().rev().map(|magnitude| value.digit_at(magnitude));
                digits.fold(0, |sum, digit| sum + u64::from(digit))
            })
        }
        Operation::MultiplyPow10 => change(case, outcome, |value| value.multiply_pow10(position)),
        Operation::TrimStart => change(case, outcome, UnsignedDecimal::trim_start),
        Operation::TrimEnd => change(case, outcome, UnsignedDecimal::trim_end),
        Operation::SetMax => change(case, outcome, |value| value.set_max_position(position)),
        Operation::Round => change(case, outcome, |value| value.round(position)),
        Operation::Round25 => change(case, outcome, |value| {
            let (mode, increment) = (UnsignedRoundingMode::HalfEven, RoundingIncrement::MultiplesOf25);
            value.round_with_mode_and_increment(position, mode, increment);
        }),
        Operation::ExpandNines => change(case, outcome, |value| value.expand(position)),
        Operation::Concatenate => {
            let mut all = values(case, &case.text);
            let mut others = values(case, &case.other);
            let took = look(outcome, all.iter_mut(), |value| {
                let other = others.pop().expect("one for each");
                u64::from(value.concatenate_end(other).is_err())
            });
            outcome.put_all(&all);
            took
        }
        Operation::FromU64 => {
            let least: u64 = case.text.parse().expect("an integer");
            let of = |i: usize| UnsignedDecimal::from(least.wrapping_add(i as u64 & position as u64));
            look(outcome, 0..case.copies, |i| taken(of(i)))
        }
        Operation::FromU128 => {
            let least: u128 = case.text.parse().expect("an integer");
            let of = |i: usize| UnsignedDecimal::from(least.wrapping_add(i as u128 & position as u128));
            look(outcome, 0..case.copies, |i| taken(of(i)))
        }
        Operation::Whole => {
            let took = look(outcome, 0..case.copies, |_| read_text(worked(&case.text, position)));
            outcome.put(worked(&case.text, position).as_bytes());
            took
        }
        Operation::Compare | Operation::ToU64 | Operation::Category | Operation::Remainder => {
            unreachable!("the original does not have it")
        }
    }
}
