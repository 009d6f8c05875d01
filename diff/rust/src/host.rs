//! The same calls of the Rust crate over the C library.

use crate::library::Shown;
use crate::names::names_of;
use crate::reference::{Call, Display, Mode, Sign};
use crate::shared::Answer;
use fixed_decimal_proved::{
    Decimal, LimitError, OverlapError, ParseError, RoundingIncrement, SignDisplay, SignedRoundingMode,
    UnsignedRoundingMode,
};

impl From<ParseError> for Answer {
    fn from(error: ParseError) -> Self {
        match error {
            ParseError::Limit => Answer::Limit,
            ParseError::Syntax => Answer::Syntax,
        }
    }
}

impl From<LimitError> for Answer {
    fn from(_: LimitError) -> Self {
        Answer::Overflow
    }
}

impl From<OverlapError> for Answer {
    fn from(_: OverlapError) -> Self {
        Answer::Overlap
    }
}

names_of!(fixed_decimal_proved);

fn change(value: &mut Decimal, call: &Call) -> Result<(), Answer> {
    match *call {
        Call::Shift(delta) => value.multiply_pow10(delta)?,
        Call::TrimStart => value.trim_start(),
        Call::TrimEnd => value.trim_end(),
        Call::TrimEndIfInteger => value.trim_end_if_integer(),
        Call::PadStart(position) => value.pad_start(position),
        Call::PadEnd(position) => value.pad_end(position),
        Call::Max(position) => value.set_max_position(position),
        Call::Round(position, Mode::HalfEven, 1) => value.round(position)?,
        Call::Round(position, Mode::Expand, 1) => value.expand(position)?,
        Call::Round(position, Mode::Trunc, 1) => value.trunc(position),
        Call::Round(position, Mode::Ceil, 1) => value.ceil(position)?,
        Call::Round(position, Mode::Floor, 1) => value.floor(position)?,
        Call::Round(position, name, by) => {
            value.round_with_mode_and_increment(position, mode(name), increment(by))?;
        }
        Call::Sign(name) => value.set_sign(sign(name)),
        Call::Display(name) => value.apply_sign_display(display(name)),
        Call::Concatenate(ref text) => {
            // The original's operand has no sign.
            if text.first().is_some_and(|byte| matches!(byte, b'-' | b'+')) {
                return Err(Answer::Syntax);
            }
            value.concatenate_end(&Decimal::try_from_utf8(text)?)?;
        }
    }
    Ok(())
}

/// Makes the calls one by one: the result of each, what the last value shows, and its text.
pub fn single(start: &[u8], calls: &[Call], asked: &[i16]) -> Result<(Vec<Answer>, Shown, String), Answer> {
    let mut value = Decimal::try_from_utf8(start)?;
    let answers = calls.iter().map(|call| change(&mut value, call).err().unwrap_or(Answer::Ok)).collect();
    let range = value.magnitude_range();
    let (first, last) = (value.nonzero_magnitude_start(), value.nonzero_magnitude_end());
    let shown = Shown {
        digits: asked.iter().map(|magnitude| value.digit_at(*magnitude)).collect(),
        ends: [*range.start(), *range.end(), first, last, i16::from(value.is_zero())],
    };
    Ok((answers, shown, value.to_string()))
}
