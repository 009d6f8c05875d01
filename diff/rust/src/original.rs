//! The same calls of the original.

use crate::library::Shown;
use crate::names::names_of;
use crate::reference::{Call, Display, Mode, Sign, Value, HIGHEST, LOWEST};
use crate::shared::{Answer, Kind};
use fixed_decimal::{
    CompactDecimal, Decimal, FixedInteger, ParseError, RoundingIncrement, ScientificDecimal, SignDisplay,
    SignedRoundingMode, UnsignedDecimal, UnsignedRoundingMode,
};
use std::panic::{catch_unwind, AssertUnwindSafe};
use writeable::Writeable;

/// The rows of `docs/DIFFERENCES.md` in which the result of the original is another.
pub const PLUS: &str = "listed: a plus in an exponent is Syntax";
pub const SHIFT: &str = "listed: a shift beyond the limits makes 0";
pub const ROUNDING: &str = "listed: a rounding beyond the limits makes 0";

/// Returns what `docs/DIFFERENCES.md` does not claim of a value.
pub fn unclaimed(value: &Value) -> Option<&'static str> {
    if value.digits.len() == 65536 {
        return Some("not claimed: a value of 65,536 digits");
    }
    (value.first() == LOWEST).then_some("not claimed: a first digit at -32768")
}

/// Returns what it does not claim of a call on a value.
pub fn unclaimed_call(value: &Value, call: &Call) -> Option<&'static str> {
    match call {
        Call::Round(i16::MIN, _, 2 | 5 | 25) if value.first() == HIGHEST => {
            Some("listed: a first digit at 32767, rounded at -32768 by 2, 5 or 25")
        }
        Call::Max(1) if value.is_zero() => Some("not claimed: 0 with set_max_position(1)"),
        _ => None,
    }
}

/// Returns the result, or `None` if the original panics.
pub fn asked<T>(question: impl FnOnce() -> T) -> Option<T> {
    catch_unwind(AssertUnwindSafe(question)).ok()
}

fn of_fault(fault: ParseError) -> Answer {
    match fault {
        ParseError::Limit => Answer::Limit,
        _ => Answer::Syntax,
    }
}

names_of!(fixed_decimal);

/// Makes a call in place.
fn change(value: &mut Decimal, call: &Call) -> Answer {
    match *call {
        Call::Shift(delta) => value.multiply_pow10(delta),
        Call::TrimStart => value.trim_start(),
        Call::TrimEnd => value.trim_end(),
        Call::TrimEndIfInteger => value.trim_end_if_integer(),
        Call::PadStart(position) => value.pad_start(position),
        Call::PadEnd(position) => value.pad_end(position),
        Call::Max(position) => value.set_max_position(position),
        Call::Round(position, Mode::HalfEven, 1) => value.round(position),
        Call::Round(position, Mode::Expand, 1) => value.expand(position),
        Call::Round(position, Mode::Trunc, 1) => value.trunc(position),
        Call::Round(position, Mode::Ceil, 1) => value.ceil(position),
        Call::Round(position, Mode::Floor, 1) => value.floor(position),
        Call::Round(position, name, 1) => value.round_with_mode(position, mode(name)),
        Call::Round(position, name, by) => {
            value.round_with_mode_and_increment(position, mode(name), increment(by));
        }
        Call::Sign(name) => value.set_sign(sign(name)),
        Call::Display(name) => value.apply_sign_display(display(name)),
        Call::Concatenate(ref text) => {
            return match UnsignedDecimal::try_from_utf8(text) {
                Ok(other) => value.concatenate_end(other).map_or(Answer::Overlap, |()| Answer::Ok),
                Err(fault) => of_fault(fault),
            };
        }
    }
    Answer::Ok
}

/// Makes a call on a value, by value.
fn changed(value: Decimal, call: &Call) -> (Decimal, Answer) {
    let with_sign = value.sign;
    let signed = |absolute| Decimal::new(with_sign, absolute);
    let value = match *call {
        Call::Shift(delta) => signed(value.absolute.multiplied_pow10(delta)),
        Call::TrimStart => signed(value.absolute.trimmed_start()),
        Call::TrimEnd => signed(value.absolute.trimmed_end()),
        Call::TrimEndIfInteger => signed(value.absolute.trimmed_end_if_integer()),
        Call::PadStart(position) => signed(value.absolute.padded_start(position)),
        Call::PadEnd(position) => signed(value.absolute.padded_end(position)),
        Call::Max(position) => signed(value.absolute.with_max_position(position)),
        Call::Round(position, Mode::HalfEven, 1) => value.rounded(position),
        Call::Round(position, Mode::Expand, 1) => value.expanded(position),
        Call::Round(position, Mode::Trunc, 1) => value.trunced(position),
        Call::Round(position, Mode::Ceil, 1) => value.ceiled(position),
        Call::Round(position, Mode::Floor, 1) => value.floored(position),
        Call::Round(position, name, 1) => value.rounded_with_mode(position, mode(name)),
        Call::Round(position, name, by) => value.rounded_with_mode_and_increment(position, mode(name), increment(by)),
        Call::Sign(name) => value.with_sign(sign(name)),
        Call::Display(name) => value.with_sign_display(display(name)),
        Call::Concatenate(ref text) => {
            return match UnsignedDecimal::try_from_utf8(text) {
                Ok(other) => match value.absolute.concatenated_end(other) {
                    Ok(absolute) => (signed(absolute), Answer::Ok),
                    Err((absolute, _)) => (signed(absolute), Answer::Overlap),
                },
                Err(fault) => (value, of_fault(fault)),
            };
        }
    };
    (value, Answer::Ok)
}

/// Makes the calls one by one: the result of each, what the last value shows, and its text.
pub fn single(
    start: &[u8],
    calls: &[Call],
    is_in_place: bool,
    asked: &[i16],
) -> Result<(Vec<Answer>, Shown, String), Answer> {
    let mut value = Decimal::try_from_utf8(start).map_err(of_fault)?;
    let mut answers = Vec::new();
    for call in calls {
        let answer = if is_in_place {
            change(&mut value, call)
        } else {
            let (next, answer) = changed(value, call);
            value = next;
            answer
        };
        answers.push(answer);
    }
    let range = value.magnitude_range();
    let first = value.nonzero_magnitude_start();
    let last = value.nonzero_magnitude_end();
    let shown = Shown {
        digits: asked.iter().map(|magnitude| value.digit_at(*magnitude)).collect(),
        ends: [*range.start(), *range.end(), first, last, i16::from(value.is_zero())],
    };
    Ok((answers, shown, value.to_string()))
}

/// Returns the text of a value, after a check of its length hint.
fn text(value: impl Writeable) -> String {
    let text = value.write_to_string().into_owned();
    assert_eq!(value.writeable_length_hint().0, text.len(), "the original's hint");
    text
}

fn compact(text: &[u8]) -> Result<CompactDecimal, ParseError> {
    let text = std::str::from_utf8(text).map_err(|_| ParseError::Syntax)?;
    CompactDecimal::try_from_str(text)
}

/// Returns the text of the value of a kind, and those of the values made of it, a line each.
pub fn read(kind: Kind, bytes: &[u8]) -> Result<String, Answer> {
    let read = || -> Result<Vec<String>, ParseError> {
        Ok(match kind {
            Kind::Unsigned | Kind::UnsignedBytes => {
                vec![text(UnsignedDecimal::try_from_utf8(bytes)?)]
            }
            Kind::Decimal => {
                let value = Decimal::try_from_utf8(bytes)?;
                let integer = FixedInteger::try_from(value.clone()).ok().map(text);
                [text(value)].into_iter().chain(integer).collect()
            }
            Kind::DecimalBytes => vec![text(Decimal::try_from_utf8(bytes)?)],
            Kind::Integer => {
                let value = FixedInteger::try_from_utf8(bytes)?;
                vec![text(value.clone()), text(Decimal::from(value))]
            }
            Kind::Scientific => vec![text(ScientificDecimal::try_from_utf8(bytes)?)],
            Kind::Compact => {
                let value = compact(bytes)?;
                let (significand, exponent) = (value.significand().clone(), value.exponent());
                let made = CompactDecimal::from_significand_and_exponent(value.clone().into_significand(), exponent);
                vec![text(value), text(significand), text(made)]
            }
        })
    };
    Ok(read().map_err(of_fault)?.join("\n") + "\n")
}

/// Returns the texts of the values made of parts, a line each.
pub fn join(one: &[u8], other: &[u8], exponent: u8) -> Result<String, Answer> {
    let joined = || -> Result<String, ParseError> {
        let significand = Decimal::try_from_utf8(one)?;
        let power = FixedInteger::try_from_utf8(other)?;
        let scientific = text(ScientificDecimal::from(significand.clone(), power));
        let made = CompactDecimal::from_significand_and_exponent(significand, exponent);
        Ok(format!("{scientific}\n{}\n", text(made)))
    };
    joined().map_err(of_fault)
}

/// Whether two texts are equal values of a kind.
pub fn compare(kind: Kind, one: &[u8], other: &[u8]) -> Answer {
    let compared = || -> Result<bool, ParseError> {
        Ok(match kind {
            Kind::Unsigned | Kind::UnsignedBytes => {
                UnsignedDecimal::try_from_utf8(one)? == UnsignedDecimal::try_from_utf8(other)?
            }
            Kind::Decimal | Kind::DecimalBytes => Decimal::try_from_utf8(one)? == Decimal::try_from_utf8(other)?,
            Kind::Integer => FixedInteger::try_from_utf8(one)? == FixedInteger::try_from_utf8(other)?,
            Kind::Scientific => ScientificDecimal::try_from_utf8(one)? == ScientificDecimal::try_from_utf8(other)?,
            Kind::Compact => compact(one)? == compact(other)?,
        })
    };
    match compared() {
        Ok(true) => Answer::Ok,
        Ok(false) => Answer::Different,
        Err(fault) => of_fault(fault),
    }
}

/// Returns a line for each type of integer that holds the number and each type made of it, as the library writes them.
pub fn integer(integer: u128) -> String {
    let mut lines = Vec::new();
    macro_rules! lines_of {
        ($number:expr, $name:ty => $($made:ident),+) => {
            if let Some(number) = <$name>::try_from($number).ok() {
                $(lines.push(text($made::from(number)));)+
            }
        };
    }
    lines_of!(integer, u8 => UnsignedDecimal, Decimal, FixedInteger);
    lines_of!(integer, u16 => UnsignedDecimal, Decimal, FixedInteger);
    lines_of!(integer, u32 => UnsignedDecimal, Decimal, FixedInteger);
    lines_of!(integer, u64 => UnsignedDecimal, Decimal, FixedInteger);
    lines_of!(integer, usize => UnsignedDecimal, Decimal, FixedInteger);
    lines_of!(integer, u128 => UnsignedDecimal, Decimal, FixedInteger);
    let integer = integer as i128;
    lines_of!(integer, i8 => Decimal, FixedInteger);
    lines_of!(integer, i16 => Decimal, FixedInteger);
    lines_of!(integer, i32 => Decimal, FixedInteger);
    lines_of!(integer, i64 => Decimal, FixedInteger);
    lines_of!(integer, isize => Decimal, FixedInteger);
    lines_of!(integer, i128 => Decimal, FixedInteger);
    lines.join("\n") + "\n"
}
