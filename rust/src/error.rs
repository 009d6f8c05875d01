//! The errors.
use std::alloc::{handle_alloc_error, Layout};
use std::error::Error;
use std::fmt;

/// The status of a function of the C library, and where its error is.
pub(crate) struct Failure {
    pub(crate) status: u32,
    pub(crate) at: usize,
}

impl Failure {
    /// Out of memory ends the program, as of any value of `std`.
    pub(crate) fn new(status: u32, at: usize) -> Self {
        if status == 3 {
            handle_alloc_error(Layout::new::<u8>());
        }
        Failure { status, at }
    }

    /// Of an `fd_digit_reason`.
    pub(crate) fn digit_options_error(&self) -> DigitOptionsError {
        match self.at {
            0 => DigitOptionsError::IntegerDigits,
            1 => DigitOptionsError::Increment,
            2 => DigitOptionsError::SignificantDigits,
            3 => DigitOptionsError::FractionDigits,
            4 => DigitOptionsError::IncrementPrecision,
            _ => DigitOptionsError::IncrementDigits,
        }
    }

    /// What this crate never passes to the library.
    pub(crate) fn never(&self) -> ! {
        unreachable!("status {} at {}", self.status, self.at)
    }
}

/// Why a text is not a decimal.
#[derive(Clone, Copy, Debug, PartialEq, Eq)]
pub enum ParseError {
    /// It has more than 32,768 digits on a side of the decimal point.
    Limit,
    /// It is not in the grammar.
    Syntax,
}

/// The result of a shift or a rounding would pass magnitude -32768 or 32767. The value is unchanged.
#[derive(Clone, Copy, Debug, PartialEq, Eq)]
pub struct LimitError;

/// The second number is not below the last nonzero digit of the first. The value is unchanged.
#[derive(Clone, Copy, Debug, PartialEq, Eq)]
pub struct OverlapError;

/// Why a decimal is not an integer of the type.
#[derive(Clone, Copy, Debug, PartialEq, Eq)]
pub enum IntegerError {
    /// A fraction digit is not 0.
    NotWhole,
    /// The type does not hold the integer.
    OutOfRange,
}

/// Why a text is not read as a locale writes it.
#[derive(Clone, Copy, Debug, PartialEq, Eq)]
pub enum ReadError {
    /// The locale, or its numbering system, is unknown.
    UnknownLocale,
    /// The text is not a decimal in this form.
    Text(ParseError),
}

/// The locale, or its numbering system, is unknown.
#[derive(Clone, Copy, Debug, PartialEq, Eq)]
pub struct UnknownLocale;

/// A text is no code of a currency, or no name of a unit or of a numbering system.
#[derive(Clone, Copy, Debug, PartialEq, Eq)]
pub struct NameError;

/// Why numbers of digits are those of no format, the first that holds.
#[derive(Clone, Copy, Debug, PartialEq, Eq)]
pub enum DigitOptionsError {
    /// Not 1 to 21 integer digits.
    IntegerDigits,
    /// There is no such increment.
    Increment,
    /// Not 1 to 21 significant digits, or the minimum is above the maximum.
    SignificantDigits,
    /// More than 100 fraction digits, or the minimum is above the maximum.
    FractionDigits,
    /// An increment with significant digits, a priority, or compact notation by default.
    IncrementPrecision,
    /// An increment with two numbers of fraction digits.
    IncrementDigits,
}

/// Why there is no format of a locale and options or a skeleton, or a number is not formatted.
#[derive(Clone, Copy, Debug, PartialEq, Eq)]
pub enum NumberFormatError {
    /// The numbers of digits are those of no format.
    Digits(DigitOptionsError),
    /// The text is no number skeleton from this byte on.
    SkeletonSyntax(usize),
    /// The library has no such option as the stem at this byte of the skeleton.
    SkeletonUnsupported(usize),
    /// The locale, or its numbering system, is unknown.
    UnknownLocale,
    /// The numbering system of the options or of the skeleton is unknown.
    UnknownNumberingSystem,
    /// The number that is shown would pass magnitude -32768 or 32767.
    Limit,
}

/// Why a text is not read by a locale and a skeleton.
#[derive(Clone, Copy, Debug, PartialEq, Eq)]
pub enum NumberReadError {
    /// There is no such format.
    Format(NumberFormatError),
    /// The numbers of the format are not read: two have the same text, or a text of the unit has no number.
    /// In standard notation a text of the unit without a number is read if no sign is ever written and no other number
    /// has its plural category.
    /// With an exponent or in compact notation also: they are rounded to an increment, or integer digits are cut off.
    /// With an exponent also: its minus sign is not written, or a unit or a name of a currency is. In compact notation
    /// also: a word without a number is not that of 1 alone, as `mille` is.
    Unreadable,
    /// The text is not a number in this form.
    Text(ParseError),
}

/// Why a text is no plural rules.
#[derive(Clone, Copy, Debug, PartialEq, Eq)]
pub enum RulesError {
    /// It cannot go on as rules at this byte.
    Syntax(usize),
    /// The number at this byte is too great.
    Limit(usize),
}

impl fmt::Display for ParseError {
    fn fmt(&self, f: &mut fmt::Formatter<'_>) -> fmt::Result {
        f.write_str(match self {
            ParseError::Limit => "too many digits",
            ParseError::Syntax => "not a decimal",
        })
    }
}

impl fmt::Display for LimitError {
    fn fmt(&self, f: &mut fmt::Formatter<'_>) -> fmt::Result {
        f.write_str("beyond the limits of a decimal")
    }
}

impl fmt::Display for OverlapError {
    fn fmt(&self, f: &mut fmt::Formatter<'_>) -> fmt::Result {
        f.write_str("the numbers overlap")
    }
}

impl fmt::Display for IntegerError {
    fn fmt(&self, f: &mut fmt::Formatter<'_>) -> fmt::Result {
        f.write_str(match self {
            IntegerError::NotWhole => "not a whole number",
            IntegerError::OutOfRange => "beyond the range of the integer type",
        })
    }
}

impl fmt::Display for ReadError {
    fn fmt(&self, f: &mut fmt::Formatter<'_>) -> fmt::Result {
        match self {
            ReadError::UnknownLocale => UnknownLocale.fmt(f),
            ReadError::Text(error) => error.fmt(f),
        }
    }
}

impl fmt::Display for UnknownLocale {
    fn fmt(&self, f: &mut fmt::Formatter<'_>) -> fmt::Result {
        f.write_str("unknown locale")
    }
}

impl fmt::Display for DigitOptionsError {
    fn fmt(&self, f: &mut fmt::Formatter<'_>) -> fmt::Result {
        f.write_str(match self {
            DigitOptionsError::IntegerDigits => "integer digits are from 1 to 21",
            DigitOptionsError::Increment => "there is no such rounding increment",
            DigitOptionsError::SignificantDigits => "significant digits are from 1 to 21, in order",
            DigitOptionsError::FractionDigits => "fraction digits are from 0 to 100, in order",
            DigitOptionsError::IncrementPrecision => "an increment is used with fraction digits alone",
            DigitOptionsError::IncrementDigits => "an increment is used with one number of fraction digits",
        })
    }
}

impl fmt::Display for NameError {
    fn fmt(&self, f: &mut fmt::Formatter<'_>) -> fmt::Result {
        f.write_str("no code of a currency, or no name of a unit or of a numbering system")
    }
}

impl From<LimitError> for NumberFormatError {
    fn from(_: LimitError) -> Self {
        NumberFormatError::Limit
    }
}

impl fmt::Display for NumberFormatError {
    fn fmt(&self, f: &mut fmt::Formatter<'_>) -> fmt::Result {
        match self {
            NumberFormatError::Digits(error) => error.fmt(f),
            NumberFormatError::SkeletonSyntax(at) => write!(f, "not a number skeleton at byte {at}"),
            NumberFormatError::SkeletonUnsupported(at) => write!(f, "unsupported stem at byte {at}"),
            NumberFormatError::UnknownLocale => UnknownLocale.fmt(f),
            NumberFormatError::UnknownNumberingSystem => f.write_str("unknown numbering system"),
            NumberFormatError::Limit => LimitError.fmt(f),
        }
    }
}

impl fmt::Display for NumberReadError {
    fn fmt(&self, f: &mut fmt::Formatter<'_>) -> fmt::Result {
        match self {
            NumberReadError::Format(error) => error.fmt(f),
            NumberReadError::Unreadable => f.write_str("the numbers of the format are not read"),
            NumberReadError::Text(error) => error.fmt(f),
        }
    }
}

impl fmt::Display for RulesError {
    fn fmt(&self, f: &mut fmt::Formatter<'_>) -> fmt::Result {
        match self {
            RulesError::Syntax(at) => write!(f, "not plural rules at byte {at}"),
            RulesError::Limit(at) => write!(f, "too great a number at byte {at}"),
        }
    }
}

impl Error for ParseError {}
impl Error for LimitError {}
impl Error for OverlapError {}
impl Error for IntegerError {}
impl Error for ReadError {}
impl Error for UnknownLocale {}
impl Error for NameError {}
impl Error for DigitOptionsError {}
impl Error for NumberFormatError {}
impl Error for NumberReadError {}
impl Error for RulesError {}
