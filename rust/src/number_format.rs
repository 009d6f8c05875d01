//! Formats of numbers that are made once.
use crate::decimal::{pad, Decimal};
use crate::error::{Failure, LimitError, NumberFormatError, NumberReadError, ParseError};
use crate::ffi::{self, FdFormatter, FdPart, Formatted};
use crate::number_options::Options;
use std::fmt;

/// How a locale writes numbers, by options of `Intl.NumberFormat` or by a number skeleton of ICU.
///
/// It is made once, which looks the locale and the options up, and used for many numbers, also in several threads.
///
/// ```
/// use fixed_decimal_proved::{Decimal, NumberFormat, Options};
///
/// let percent = NumberFormat::new("fr", &Options::percent().with_maximum_fraction_digits(1))?;
/// let share: Decimal = "0.125".parse()?;
/// assert_eq!(percent.format(&share)?.to_string(), "12,5\u{a0}%");
/// # Ok::<(), Box<dyn std::error::Error>>(())
/// ```
#[derive(Clone, Copy)]
pub struct NumberFormat {
    formatter: FdFormatter,
}

/// The text of a number, or of a range of two numbers. `{}` writes it with the width, the fill and the alignment of the
/// format; the default is to the right, as for numbers. A precision changes nothing.
#[derive(Clone)]
pub struct FormattedNumber {
    text: Formatted,
}

/// What a part of the text of a number is, as `formatToParts` of ECMA-402 names it.
#[derive(Clone, Copy, Debug, PartialEq, Eq, Hash)]
pub enum PartKind {
    /// Integer digits.
    Integer,
    /// A separator of groups.
    Group,
    /// The decimal separator.
    Decimal,
    /// Fraction digits.
    Fraction,
    /// A minus sign.
    MinusSign,
    /// A plus sign.
    PlusSign,
    /// A percent sign or a permille sign.
    PercentSign,
    /// The symbol, the code or the name of a currency.
    Currency,
    /// Spaces, parentheses and marks.
    Literal,
    /// The word of a power of ten in compact notation.
    Compact,
    /// The text of a unit; also a percent sign that is one.
    Unit,
    /// The separator before an exponent.
    ExponentSeparator,
    /// The minus sign of an exponent.
    ExponentMinusSign,
    /// The plus sign of an exponent.
    ExponentPlusSign,
    /// The digits of an exponent.
    ExponentInteger,
    /// A sign before a number that is not exact, in a range.
    ApproximatelySign,
}

impl PartKind {
    /// Of each `fd_part_kind`.
    const ALL: [PartKind; 16] = [
        PartKind::Integer,
        PartKind::Group,
        PartKind::Decimal,
        PartKind::Fraction,
        PartKind::MinusSign,
        PartKind::PlusSign,
        PartKind::PercentSign,
        PartKind::Currency,
        PartKind::Literal,
        PartKind::Compact,
        PartKind::Unit,
        PartKind::ExponentSeparator,
        PartKind::ExponentMinusSign,
        PartKind::ExponentPlusSign,
        PartKind::ExponentInteger,
        PartKind::ApproximatelySign,
    ];
}

/// The text of a number with its parts, in order.
#[derive(Clone, Debug)]
pub struct NumberParts {
    text: String,
    parts: Vec<FdPart>,
}

/// To which number of a range a part of its text belongs, as `formatRangeToParts` of ECMA-402 names it.
#[derive(Clone, Copy, Debug, PartialEq, Eq, Hash)]
pub enum RangeSource {
    /// To neither number, or not all of it to one.
    Shared,
    /// To the first number.
    StartRange,
    /// To the second number.
    EndRange,
}

/// The text of a range of two numbers with its parts, in order.
#[derive(Clone, Debug)]
pub struct RangeParts {
    parts: NumberParts,
}

impl NumberFormat {
    /// Looks up the format of a locale by options. `locale` is a tag as `de-CH`, or a shell's name as `de_CH.UTF-8`.
    ///
    /// # Errors
    ///
    /// The first that holds: the numbers of digits are those of no format, the locale or the numbering system is
    /// unknown.
    ///
    /// ```
    /// # use fixed_decimal_proved::{DigitOptionsError, NumberFormat, NumberFormatError, Options};
    /// let options = Options::default().with_minimum_integer_digits(22);
    /// let error = NumberFormat::new("de", &options).unwrap_err();
    /// assert_eq!(error, NumberFormatError::Digits(DigitOptionsError::IntegerDigits));
    /// assert_eq!(NumberFormat::new("tlh", &Options::default()).unwrap_err(), NumberFormatError::UnknownLocale);
    /// ```
    pub fn new(locale: &str, options: &Options) -> Result<Self, NumberFormatError> {
        Ok(NumberFormat { formatter: ffi::formatter_by_options(locale, options).map_err(format_error)? })
    }

    /// Looks up the format of a locale by a number skeleton of ICU.
    ///
    /// # Errors
    ///
    /// The first that holds: of the skeleton, of the locale.
    ///
    /// ```
    /// # use fixed_decimal_proved::{Decimal, NumberFormat};
    /// let rupees = NumberFormat::by_skeleton("de", "currency/INR")?;
    /// assert_eq!(rupees.format(&Decimal::from(1234567))?.as_str(), "1.234.567,00\u{a0}₹");
    /// # Ok::<(), Box<dyn std::error::Error>>(())
    /// ```
    pub fn by_skeleton(locale: &str, skeleton: &str) -> Result<Self, NumberFormatError> {
        Ok(NumberFormat { formatter: ffi::formatter_by_skeleton(locale, skeleton).map_err(format_error)? })
    }

    /// Formats a number. The result does not allocate if its text has at most 126 bytes.
    ///
    /// # Errors
    ///
    /// The number that is shown is beyond the limits.
    ///
    /// ```
    /// # use fixed_decimal_proved::{Decimal, NumberFormat, Options};
    /// use std::fmt::Write;
    ///
    /// let format = NumberFormat::new("en", &Options::default())?;
    /// let mut line = String::new();
    /// write!(line, "{:9}|", format.format(&Decimal::from(1234))?)?;
    /// assert_eq!(line, "    1,234|");
    /// # Ok::<(), Box<dyn std::error::Error>>(())
    /// ```
    pub fn format(&self, number: &Decimal) -> Result<FormattedNumber, LimitError> {
        let text = ffi::format(&self.formatter, number.as_str()).map_err(limit_error)?;
        Ok(FormattedNumber { text })
    }

    /// Formats a number, with the parts of its text.
    ///
    /// # Errors
    ///
    /// As [`format`](NumberFormat::format).
    ///
    /// ```
    /// # use fixed_decimal_proved::{Decimal, NumberFormat, Options, PartKind};
    /// let parts = NumberFormat::new("en", &Options::percent())?.parts(&Decimal::from(-5))?;
    /// let found: Vec<_> = parts.iter().collect();
    /// assert_eq!(found, [(PartKind::MinusSign, "-"), (PartKind::Integer, "500"), (PartKind::PercentSign, "%")]);
    /// # Ok::<(), Box<dyn std::error::Error>>(())
    /// ```
    pub fn parts(&self, number: &Decimal) -> Result<NumberParts, LimitError> {
        let (text, parts) = ffi::format_parts(&self.formatter, number.as_str()).map_err(limit_error)?;
        Ok(NumberParts { text, parts })
    }

    /// Formats the range of two numbers, in any order. Two numbers that are equal or shown alike are one approximate
    /// number.
    ///
    /// # Errors
    ///
    /// One of the numbers that are shown is beyond the limits.
    ///
    /// ```
    /// # use fixed_decimal_proved::{Decimal, NumberFormat, Options};
    /// let format = NumberFormat::new("en", &Options::default())?;
    /// assert_eq!(format.format_range(&Decimal::from(1), &Decimal::from(2))?.as_str(), "1–2");
    /// assert_eq!(format.format_range(&Decimal::from(1), &"1.0001".parse()?)?.as_str(), "~1");
    /// # Ok::<(), Box<dyn std::error::Error>>(())
    /// ```
    pub fn format_range(&self, start: &Decimal, end: &Decimal) -> Result<FormattedNumber, LimitError> {
        let text = ffi::format_range(&self.formatter, start.as_str(), end.as_str()).map_err(limit_error)?;
        Ok(FormattedNumber { text })
    }

    /// Formats the range of two numbers, with the parts of its text.
    ///
    /// # Errors
    ///
    /// As [`format_range`](NumberFormat::format_range).
    ///
    /// ```
    /// # use fixed_decimal_proved::{Decimal, NumberFormat, Options, RangeSource};
    /// let parts = NumberFormat::new("en", &Options::percent())?.range_parts(&Decimal::from(1), &Decimal::from(2))?;
    /// let ends: Vec<_> = parts.iter().map(|(_, source, text)| (source, text)).collect();
    /// assert_eq!(parts.as_str(), "100% – 200%");
    /// assert_eq!(ends[0], (RangeSource::StartRange, "100"));
    /// # Ok::<(), Box<dyn std::error::Error>>(())
    /// ```
    pub fn range_parts(&self, start: &Decimal, end: &Decimal) -> Result<RangeParts, LimitError> {
        let found = ffi::format_range_parts(&self.formatter, start.as_str(), end.as_str());
        let (text, parts) = found.map_err(limit_error)?;
        Ok(RangeParts { parts: NumberParts { text, parts } })
    }

    /// Reads a text that [`format`](NumberFormat::format) writes, with its groups or without any. The value is the one
    /// that is shown, with the scale undone.
    ///
    /// # Errors
    ///
    /// The first that holds: the numbers of the format are not read, or the text is none of them.
    ///
    /// ```
    /// # use fixed_decimal_proved::{NumberFormat, Options};
    /// let percent = NumberFormat::new("en", &Options::percent().with_maximum_fraction_digits(1))?;
    /// assert_eq!(percent.read("12.5%")?.to_string(), "0.125");
    /// assert!(percent.read("12.5").is_err());
    /// # Ok::<(), Box<dyn std::error::Error>>(())
    /// ```
    pub fn read(&self, text: &str) -> Result<Decimal, NumberReadError> {
        self.read_by(text, false)
    }

    /// Reads a number as people type it: as [`Decimal::read_lenient`], with the symbol or the code of the currency, or
    /// the percent sign, on either side, or with nothing around it.
    ///
    /// # Errors
    ///
    /// As [`read`](NumberFormat::read).
    ///
    /// ```
    /// # use fixed_decimal_proved::NumberFormat;
    /// let euros = NumberFormat::by_skeleton("de", "currency/EUR")?;
    /// assert_eq!(euros.read_lenient("EUR 1.234,5")?.to_string(), "1234.5");
    /// # Ok::<(), Box<dyn std::error::Error>>(())
    /// ```
    pub fn read_lenient(&self, text: &str) -> Result<Decimal, NumberReadError> {
        self.read_by(text, true)
    }

    fn read_by(&self, text: &str, lenient: bool) -> Result<Decimal, NumberReadError> {
        match ffi::read(&self.formatter, text, lenient) {
            Ok(text) => Ok(Decimal::of_text(text)),
            Err(failure) => Err(match failure.status {
                1 => NumberReadError::Text(ParseError::Syntax),
                2 => NumberReadError::Text(ParseError::Limit),
                19 => NumberReadError::Unreadable,
                _ => failure.never(),
            }),
        }
    }
}

fn format_error(failure: Failure) -> NumberFormatError {
    match failure.status {
        10 => NumberFormatError::UnknownLocale,
        16 => NumberFormatError::SkeletonSyntax(failure.at),
        17 => NumberFormatError::SkeletonUnsupported(failure.at),
        18 => NumberFormatError::UnknownNumberingSystem,
        20 => NumberFormatError::Digits(failure.digit_options_error()),
        _ => failure.never(),
    }
}

fn limit_error(failure: Failure) -> LimitError {
    match failure.status {
        7 => LimitError,
        _ => failure.never(),
    }
}

impl FormattedNumber {
    /// The text.
    pub fn as_str(&self) -> &str {
        &self.text
    }
}

impl fmt::Display for FormattedNumber {
    fn fmt(&self, f: &mut fmt::Formatter<'_>) -> fmt::Result {
        pad(f, "", self.as_str())
    }
}

impl fmt::Debug for FormattedNumber {
    fn fmt(&self, f: &mut fmt::Formatter<'_>) -> fmt::Result {
        write!(f, "FormattedNumber({})", self.as_str())
    }
}

impl fmt::Debug for NumberFormat {
    fn fmt(&self, f: &mut fmt::Formatter<'_>) -> fmt::Result {
        f.debug_struct("NumberFormat").finish_non_exhaustive()
    }
}

impl NumberParts {
    /// The text, which is all parts together.
    pub fn as_str(&self) -> &str {
        &self.text
    }

    /// The parts in order: what each is, and its text.
    pub fn iter(&self) -> impl Iterator<Item = (PartKind, &str)> + '_ {
        self.parts.iter().map(|part| (PartKind::ALL[part.kind as usize], &self.text[part.start..part.end]))
    }
}

impl RangeParts {
    /// The text, which is all parts together.
    pub fn as_str(&self) -> &str {
        self.parts.as_str()
    }

    /// The parts in order: what each is, to which number it belongs, and its text.
    pub fn iter(&self) -> impl Iterator<Item = (PartKind, RangeSource, &str)> + '_ {
        let sources = self.parts.parts.iter().map(|part| match part.source {
            1 => RangeSource::StartRange,
            2 => RangeSource::EndRange,
            _ => RangeSource::Shared,
        });
        self.parts.iter().zip(sources).map(|((kind, text), source)| (kind, source, text))
    }
}
