//! The decimal.
use crate::error::{
    Failure, IntegerError, LimitError, NumberFormatError, NumberReadError, OverlapError, ParseError, ReadError,
    RulesError, UnknownLocale,
};
use crate::ffi::{self, FdCall, FdForm, FdForms, Text};
use crate::number_format::NumberFormat;
use crate::options::{PluralCategory, RoundingIncrement, Sign, SignDisplay, SignedRoundingMode, UnsignedRoundingMode};
use std::cmp::Ordering;
use std::fmt::{self, Write};
use std::ops::RangeInclusive;
use std::str::FromStr;

// The kinds of `fd_kind`.
const SHIFT: u8 = 0;
const TRIM_START: u8 = 1;
const TRIM_END: u8 = 2;
const TRIM_END_IF_INTEGER: u8 = 3;
const PAD_START: u8 = 4;
const PAD_END: u8 = 5;
const MAX: u8 = 6;
const ROUND: u8 = 7;
const SIGN: u8 = 8;
const DISPLAY: u8 = 9;
const CONCAT: u8 = 10;

const NONZERO: [char; 9] = ['1', '2', '3', '4', '5', '6', '7', '8', '9'];

/// A decimal as it is shown: a number of up to 65,536 digits with all its zeros, and a sign.
///
/// Two are equal if their texts are: `1.0` is not `1`, and `-0` not `0`. [`compare`](Decimal::compare) has the order of
/// the numbers.
///
/// `{}` writes the text, with the width, the fill and the alignment of the format; the default is to the right, as for
/// numbers. `{:+}` writes a plus if the text has no sign. `{:.2}` rounds to two fraction digits, ties to even. The
/// rounding fails with [`fmt::Error`] if its result is 10^32768 or more, or if more than 32,768 fraction digits are
/// asked for.
///
/// ```
/// use fixed_decimal_proved::Decimal;
///
/// let mut price: Decimal = "1234.565".parse()?;
/// price.round(-2)?;
/// assert_eq!(price.to_string(), "1234.56");
/// assert_eq!(price.format("de")?, "1.234,56");
/// # Ok::<(), Box<dyn std::error::Error>>(())
/// ```
#[derive(Clone, PartialEq, Eq, Hash)]
pub struct Decimal {
    /// Its own text, as the library writes it.
    text: Text,
}

fn call(kind: u8, position: i16) -> FdCall {
    FdCall { kind, position, ..FdCall::default() }
}

fn parse_error(failure: Failure) -> ParseError {
    match failure.status {
        1 => ParseError::Syntax,
        2 => ParseError::Limit,
        _ => failure.never(),
    }
}

/// # Texts
impl Decimal {
    /// Reads a decimal: digits with an optional point, sign and exponent. All zeros are kept.
    ///
    /// # Errors
    ///
    /// `Syntax`: it is not in the grammar; `Limit`: it has more than 32,768 digits on a side of the point.
    ///
    /// ```
    /// # use fixed_decimal_proved::{Decimal, ParseError};
    /// assert_eq!(Decimal::try_from_str("-002.50")?.to_string(), "-002.50");
    /// assert_eq!(Decimal::try_from_str("1,5"), Err(ParseError::Syntax));
    /// # Ok::<(), ParseError>(())
    /// ```
    pub fn try_from_str(text: &str) -> Result<Self, ParseError> {
        Self::try_from_utf8(text.as_bytes())
    }

    /// Reads a decimal from bytes, which need not be UTF-8: then it is `Syntax`.
    ///
    /// # Errors
    ///
    /// As [`try_from_str`](Decimal::try_from_str).
    pub fn try_from_utf8(text: &[u8]) -> Result<Self, ParseError> {
        let text = Text::new(text).map_err(parse_error)?;
        Ok(Decimal { text })
    }

    /// The decimal of a text that the library has written.
    pub(crate) fn of_text(text: String) -> Self {
        Decimal { text: Text::Long(text) }
    }

    /// The text.
    pub fn as_str(&self) -> &str {
        &self.text
    }

    /// The text as a locale writes it. `locale` is a tag as `de-CH` or `hi-u-nu-deva`, or a shell's name as
    /// `de_CH.UTF-8`.
    ///
    /// # Errors
    ///
    /// The locale, or its numbering system, is unknown.
    ///
    /// ```
    /// # use fixed_decimal_proved::{Decimal, UnknownLocale};
    /// let value = Decimal::from(1234567);
    /// assert_eq!(value.format("en-IN")?, "12,34,567");
    /// assert_eq!(value.format("tlh"), Err(UnknownLocale));
    /// # Ok::<(), UnknownLocale>(())
    /// ```
    pub fn format(&self, locale: &str) -> Result<String, UnknownLocale> {
        let format = FdForm { count: locale.len(), ..FdForm::default() };
        let forms = FdForms { format, ..FdForms::default() };
        if locale.is_empty() {
            return Err(UnknownLocale);
        }
        ffi::convert(self.text.as_bytes(), &forms, locale.as_bytes()).map_err(|failure| match failure.status {
            10 => UnknownLocale,
            _ => failure.never(),
        })
    }

    /// The number as `Intl.NumberFormat` writes it in a locale, by a number skeleton of ICU. For many numbers make a
    /// [`NumberFormat`] once.
    ///
    /// # Errors
    ///
    /// The first that holds: of the skeleton, of the locale, or the number that is shown is beyond the limits.
    ///
    /// ```
    /// # use fixed_decimal_proved::{Decimal, NumberFormatError};
    /// let value = Decimal::from(1234567);
    /// assert_eq!(value.format_number("de", "currency/INR")?, "1.234.567,00\u{a0}₹");
    /// assert_eq!(value.format_number("de", "percent/w"), Err(NumberFormatError::SkeletonSyntax(7)));
    /// # Ok::<(), NumberFormatError>(())
    /// ```
    pub fn format_number(&self, locale: &str, skeleton: &str) -> Result<String, NumberFormatError> {
        Ok(NumberFormat::by_skeleton(locale, skeleton)?.format(self)?.as_str().to_owned())
    }

    /// Reads a text that [`format_number`](Decimal::format_number) writes by this locale and this skeleton, with its
    /// groups or without any. The value is the one that is shown, with the scale of the skeleton undone.
    ///
    /// # Errors
    ///
    /// The first that holds: of the skeleton, of the locale, their numbers are not read, or the text is none of them.
    ///
    /// ```
    /// # use fixed_decimal_proved::{Decimal, NumberReadError};
    /// let value = Decimal::read_number("de", "currency/EUR", "-1.234,50\u{a0}€")?;
    /// assert_eq!(value.to_string(), "-1234.50");
    /// assert_eq!(Decimal::read_number("es", "K", "1,2\u{a0}mil")?.to_string(), "1200");
    /// assert_eq!(Decimal::read_number("fr", "KK", "mille")?.to_string(), "1000");
    /// assert_eq!(Decimal::read_number("vec", "K", "1"), Err(NumberReadError::Unreadable)); // of 1 and of 1000
    /// # Ok::<(), NumberReadError>(())
    /// ```
    pub fn read_number(locale: &str, skeleton: &str, text: &str) -> Result<Self, NumberReadError> {
        NumberFormat::by_skeleton(locale, skeleton).map_err(NumberReadError::Format)?.read(text)
    }

    /// Reads a number as people type it: as [`read_lenient`](Decimal::read_lenient), with the symbol or the code of the
    /// currency, or the percent sign, on either side, or with nothing around it.
    ///
    /// # Errors
    ///
    /// As [`read_number`](Decimal::read_number).
    ///
    /// ```
    /// # use fixed_decimal_proved::{Decimal, NumberReadError};
    /// assert_eq!(Decimal::read_number_lenient("de", "currency/EUR", "EUR 1.234,5")?.to_string(), "1234.5");
    /// # Ok::<(), NumberReadError>(())
    /// ```
    pub fn read_number_lenient(locale: &str, skeleton: &str, text: &str) -> Result<Self, NumberReadError> {
        NumberFormat::by_skeleton(locale, skeleton).map_err(NumberReadError::Format)?.read_lenient(text)
    }

    /// Reads a text that [`format`](Decimal::format) writes, with its groups or without any.
    ///
    /// # Errors
    ///
    /// The locale is unknown, or the text is not a decimal in its form.
    ///
    /// ```
    /// # use fixed_decimal_proved::{Decimal, ReadError};
    /// assert_eq!(Decimal::read("de", "1.234,50")?.to_string(), "1234.50");
    /// assert!(Decimal::read("de", "12.34,50").is_err());
    /// # Ok::<(), ReadError>(())
    /// ```
    pub fn read(locale: &str, text: &str) -> Result<Self, ReadError> {
        Self::read_by(locale, text, 0)
    }

    /// Reads a text as people type it: with ASCII digits, other spaces, or separators after any digits.
    ///
    /// # Errors
    ///
    /// As [`read`](Decimal::read).
    ///
    /// ```
    /// # use fixed_decimal_proved::{Decimal, ReadError};
    /// assert_eq!(Decimal::read_lenient("fr", "1 234,5")?.to_string(), "1234.5");
    /// # Ok::<(), ReadError>(())
    /// ```
    pub fn read_lenient(locale: &str, text: &str) -> Result<Self, ReadError> {
        Self::read_by(locale, text, 1)
    }

    fn read_by(locale: &str, text: &str, reading: u8) -> Result<Self, ReadError> {
        if locale.is_empty() {
            return Err(ReadError::UnknownLocale);
        }
        let read = FdForm { count: locale.len(), option: reading, ..FdForm::default() };
        let forms = FdForms { read, ..FdForms::default() };
        match ffi::convert(text.as_bytes(), &forms, locale.as_bytes()) {
            Ok(text) => Ok(Decimal { text: Text::Long(text) }),
            Err(failure) if failure.status == 10 => Err(ReadError::UnknownLocale),
            Err(failure) => Err(ReadError::Text(parse_error(failure))),
        }
    }

    /// The plural category in a locale, of a number of things: 2 days.
    ///
    /// # Errors
    ///
    /// The locale is unknown.
    ///
    /// ```
    /// # use fixed_decimal_proved::{Decimal, PluralCategory, UnknownLocale};
    /// assert_eq!(Decimal::from(2).plural("ru")?, PluralCategory::Few);
    /// assert_eq!(Decimal::from(1).padded_end(-1).plural("en")?, PluralCategory::Other);
    /// # Ok::<(), UnknownLocale>(())
    /// ```
    pub fn plural(&self, locale: &str) -> Result<PluralCategory, UnknownLocale> {
        self.plural_by(locale, 0)
    }

    /// The plural category in a locale, of a place in an order: the 2nd day.
    ///
    /// # Errors
    ///
    /// The locale is unknown.
    ///
    /// ```
    /// # use fixed_decimal_proved::{Decimal, PluralCategory, UnknownLocale};
    /// assert_eq!(Decimal::from(22).plural_ordinal("en")?, PluralCategory::Two);
    /// # Ok::<(), UnknownLocale>(())
    /// ```
    pub fn plural_ordinal(&self, locale: &str) -> Result<PluralCategory, UnknownLocale> {
        self.plural_by(locale, 1)
    }

    fn plural_by(&self, locale: &str, rule_type: u32) -> Result<PluralCategory, UnknownLocale> {
        match ffi::plural(locale, rule_type, &self.text) {
            Ok(code) => Ok(PluralCategory::of(code)),
            Err(failure) if failure.status == 10 => Err(UnknownLocale),
            Err(failure) => failure.never(),
        }
    }

    /// The plural category by rules in CLDR's syntax.
    ///
    /// # Errors
    ///
    /// The text is no rules, from this byte on.
    ///
    /// ```
    /// # use fixed_decimal_proved::{Decimal, PluralCategory, RulesError};
    /// let rules = "one: i = 1 and v = 0";
    /// assert_eq!(Decimal::from(1).category(rules)?, PluralCategory::One);
    /// assert_eq!(Decimal::from(1).padded_end(-1).category(rules)?, PluralCategory::Other);
    /// # Ok::<(), RulesError>(())
    /// ```
    pub fn category(&self, rules: &str) -> Result<PluralCategory, RulesError> {
        match ffi::category(rules, &self.text) {
            Ok(code) => Ok(PluralCategory::of(code)),
            Err(Failure { status: 14, at }) => Err(RulesError::Syntax(at)),
            Err(Failure { status: 15, at }) => Err(RulesError::Limit(at)),
            Err(failure) => failure.never(),
        }
    }
}

/// # Digits and signs
impl Decimal {
    fn unsigned(&self) -> &str {
        self.text.trim_start_matches(['-', '+'])
    }

    /// The magnitude of the digit at an index of the unsigned text, and of none 0.
    fn magnitude_at(&self, index: Option<usize>) -> i16 {
        let highest = i32::from(*self.magnitude_range().end());
        index.map_or(0, |index| {
            let magnitude = highest - index as i32;
            // A decimal point is before the fraction digits.
            (if magnitude < 0 { magnitude + 1 } else { magnitude }) as i16
        })
    }

    /// The magnitudes of the digits that are shown: those of `2.50` are `-2..=0`.
    pub fn magnitude_range(&self) -> RangeInclusive<i16> {
        let text = self.unsigned();
        let whole = text.find('.').unwrap_or(text.len());
        let fraction = (text.len() - whole).saturating_sub(1);
        -(fraction as i32) as i16..=(whole - 1) as i16
    }

    /// The digit at a magnitude, 0 where none is shown: `digit_at(-1)` of `2.50` is 5.
    pub fn digit_at(&self, magnitude: i16) -> u8 {
        let highest = *self.magnitude_range().end();
        if !self.magnitude_range().contains(&magnitude) {
            return 0;
        }
        let index = (i32::from(highest) - i32::from(magnitude)) as usize + usize::from(magnitude < 0);
        self.unsigned().as_bytes()[index] - b'0'
    }

    /// The magnitude of the first nonzero digit, 0 of the number 0.
    pub fn nonzero_magnitude_start(&self) -> i16 {
        self.magnitude_at(self.unsigned().find(NONZERO))
    }

    /// The magnitude of the last nonzero digit, 0 of the number 0.
    pub fn nonzero_magnitude_end(&self) -> i16 {
        self.magnitude_at(self.unsigned().rfind(NONZERO))
    }

    /// Whether the number is 0, whatever its sign and its zeros.
    pub fn is_zero(&self) -> bool {
        !self.text.contains(NONZERO)
    }

    /// The sign that is shown.
    pub fn sign(&self) -> Sign {
        match self.text.as_bytes()[0] {
            b'-' => Sign::Negative,
            b'+' => Sign::Positive,
            _ => Sign::None,
        }
    }

    /// Shows a sign.
    pub fn set_sign(&mut self, sign: Sign) {
        self.change(FdCall { option: sign as u8, ..call(SIGN, 0) });
    }

    /// Takes the value: [`set_sign`](Decimal::set_sign).
    #[must_use]
    pub fn with_sign(mut self, sign: Sign) -> Self {
        self.set_sign(sign);
        self
    }

    /// Shows the sign that a display shows.
    ///
    /// ```
    /// # use fixed_decimal_proved::{Decimal, SignDisplay};
    /// assert_eq!(Decimal::from(5).with_sign_display(SignDisplay::Always).to_string(), "+5");
    /// ```
    pub fn apply_sign_display(&mut self, display: SignDisplay) {
        self.change(FdCall { option: display as u8, ..call(DISPLAY, 0) });
    }

    /// Takes the value: [`apply_sign_display`](Decimal::apply_sign_display).
    #[must_use]
    pub fn with_sign_display(mut self, display: SignDisplay) -> Self {
        self.apply_sign_display(display);
        self
    }

    /// The order of the numbers: `1.0` and `1` are equal, and `-0` and `0`.
    ///
    /// `PartialOrd` is not implemented: it has to agree with `==`, which compares texts, and by text `1.0` is not `1`.
    /// Sort by `values.sort_by(Decimal::compare)`.
    ///
    /// ```
    /// # use fixed_decimal_proved::Decimal;
    /// let mut values = ["10", "9.50", "-1", "9.5"].map(|text| text.parse::<Decimal>().unwrap());
    /// values.sort_by(Decimal::compare);
    /// assert_eq!(values.map(|value| value.to_string()), ["-1", "9.50", "9.5", "10"]);
    /// ```
    pub fn compare(&self, other: &Decimal) -> Ordering {
        match ffi::compare(&self.text, &other.text) {
            Ok(order) => order.cmp(&0),
            Err(failure) => failure.never(),
        }
    }
}

/// # Zeros and magnitudes
impl Decimal {
    /// Makes a call that never fails.
    fn change(&mut self, call: FdCall) {
        if let Err(failure) = self.text.change(&[call], &[]) {
            failure.never();
        }
    }

    /// Makes a call that the limits may refuse.
    fn change_within_limits(&mut self, call: FdCall) -> Result<(), LimitError> {
        match self.text.change(&[call], &[]) {
            Ok(()) => Ok(()),
            Err(Failure { status: 7, .. }) => Err(LimitError),
            Err(failure) => failure.never(),
        }
    }

    /// Multiplies by 10 to the power of `delta`; the range of digits moves along.
    ///
    /// # Errors
    ///
    /// A digit would be above magnitude 32767 or below -32768. The value is unchanged.
    ///
    /// ```
    /// # use fixed_decimal_proved::{Decimal, LimitError};
    /// let mut cents = Decimal::from(250);
    /// cents.multiply_pow10(-2)?;
    /// assert_eq!(cents.to_string(), "2.50");
    /// # Ok::<(), LimitError>(())
    /// ```
    pub fn multiply_pow10(&mut self, delta: i16) -> Result<(), LimitError> {
        self.change_within_limits(call(SHIFT, delta))
    }

    /// Takes the value: [`multiply_pow10`](Decimal::multiply_pow10).
    ///
    /// # Errors
    ///
    /// As there.
    pub fn multiplied_pow10(mut self, delta: i16) -> Result<Self, LimitError> {
        self.multiply_pow10(delta)?;
        Ok(self)
    }

    /// Removes leading zeros.
    pub fn trim_start(&mut self) {
        self.change(call(TRIM_START, 0));
    }

    /// Takes the value: [`trim_start`](Decimal::trim_start).
    #[must_use]
    pub fn trimmed_start(mut self) -> Self {
        self.trim_start();
        self
    }

    /// Removes trailing zeros among the fraction digits.
    pub fn trim_end(&mut self) {
        self.change(call(TRIM_END, 0));
    }

    /// Takes the value: [`trim_end`](Decimal::trim_end).
    #[must_use]
    pub fn trimmed_end(mut self) -> Self {
        self.trim_end();
        self
    }

    /// Removes the fraction digits if all of them are 0.
    pub fn trim_end_if_integer(&mut self) {
        self.change(call(TRIM_END_IF_INTEGER, 0));
    }

    /// Takes the value: [`trim_end_if_integer`](Decimal::trim_end_if_integer).
    #[must_use]
    pub fn trimmed_end_if_integer(mut self) -> Self {
        self.trim_end_if_integer();
        self
    }

    /// Shows all magnitudes from 0 to below `position`, and none above but nonzero digits.
    ///
    /// ```
    /// # use fixed_decimal_proved::Decimal;
    /// assert_eq!(Decimal::from(7).padded_start(3).to_string(), "007");
    /// ```
    pub fn pad_start(&mut self, position: i16) {
        self.change(call(PAD_START, position));
    }

    /// Takes the value: [`pad_start`](Decimal::pad_start).
    #[must_use]
    pub fn padded_start(mut self, position: i16) -> Self {
        self.pad_start(position);
        self
    }

    /// Shows all magnitudes down to `position`, and none below but nonzero digits.
    ///
    /// ```
    /// # use fixed_decimal_proved::Decimal;
    /// assert_eq!(Decimal::from(7).padded_end(-2).to_string(), "7.00");
    /// ```
    pub fn pad_end(&mut self, position: i16) {
        self.change(call(PAD_END, position));
    }

    /// Takes the value: [`pad_end`](Decimal::pad_end).
    #[must_use]
    pub fn padded_end(mut self, position: i16) -> Self {
        self.pad_end(position);
        self
    }

    /// Keeps the digits below `position`: `4235.97` at 2 is `35.97`.
    pub fn set_max_position(&mut self, position: i16) {
        self.change(call(MAX, position));
    }

    /// Takes the value: [`set_max_position`](Decimal::set_max_position).
    #[must_use]
    pub fn with_max_position(mut self, position: i16) -> Self {
        self.set_max_position(position);
        self
    }

    /// Adds a number whose first nonzero digit is below the last nonzero one of this.
    ///
    /// # Errors
    ///
    /// It is not below. The value is unchanged.
    ///
    /// ```
    /// # use fixed_decimal_proved::{Decimal, OverlapError};
    /// let mut value = Decimal::from(123000);
    /// value.concatenate_end(&Decimal::from(456))?;
    /// assert_eq!(value.to_string(), "123456");
    /// assert_eq!(value.concatenate_end(&Decimal::from(7)), Err(OverlapError));
    /// # Ok::<(), OverlapError>(())
    /// ```
    pub fn concatenate_end(&mut self, other: &Decimal) -> Result<(), OverlapError> {
        let operand = other.unsigned().as_bytes();
        let call = FdCall { text_count: operand.len(), ..call(CONCAT, 0) };
        match self.text.change(&[call], operand) {
            Ok(()) => Ok(()),
            Err(Failure { status: 6, .. }) => Err(OverlapError),
            Err(failure) => failure.never(),
        }
    }

    /// Takes the value: [`concatenate_end`](Decimal::concatenate_end).
    ///
    /// # Errors
    ///
    /// As there.
    pub fn concatenated_end(mut self, other: &Decimal) -> Result<Self, OverlapError> {
        self.concatenate_end(other)?;
        Ok(self)
    }
}

/// # Roundings
///
/// The result is the multiple of 10^`position` that the mode names, shown down to the position, or to magnitude 0 where
/// that is lower. The sign stays.
impl Decimal {
    /// Rounds to the nearest multiple, a tie to the even one.
    ///
    /// # Errors
    ///
    /// The multiple is 10^32768 or more. The value is unchanged.
    ///
    /// ```
    /// # use fixed_decimal_proved::{Decimal, LimitError};
    /// let value: Decimal = "2.5".parse().unwrap();
    /// assert_eq!(value.rounded(0)?.to_string(), "2");
    /// # Ok::<(), LimitError>(())
    /// ```
    pub fn round(&mut self, position: i16) -> Result<(), LimitError> {
        self.round_with_mode(position, UnsignedRoundingMode::HalfEven.into())
    }

    /// Takes the value: [`round`](Decimal::round).
    ///
    /// # Errors
    ///
    /// As there.
    pub fn rounded(mut self, position: i16) -> Result<Self, LimitError> {
        self.round(position)?;
        Ok(self)
    }

    /// Rounds up.
    ///
    /// # Errors
    ///
    /// As [`round`](Decimal::round).
    pub fn ceil(&mut self, position: i16) -> Result<(), LimitError> {
        self.round_with_mode(position, SignedRoundingMode::Ceil)
    }

    /// Takes the value: [`ceil`](Decimal::ceil).
    ///
    /// # Errors
    ///
    /// As there.
    pub fn ceiled(mut self, position: i16) -> Result<Self, LimitError> {
        self.ceil(position)?;
        Ok(self)
    }

    /// Rounds down.
    ///
    /// # Errors
    ///
    /// As [`round`](Decimal::round).
    pub fn floor(&mut self, position: i16) -> Result<(), LimitError> {
        self.round_with_mode(position, SignedRoundingMode::Floor)
    }

    /// Takes the value: [`floor`](Decimal::floor).
    ///
    /// # Errors
    ///
    /// As there.
    pub fn floored(mut self, position: i16) -> Result<Self, LimitError> {
        self.floor(position)?;
        Ok(self)
    }

    /// Rounds away from zero.
    ///
    /// # Errors
    ///
    /// As [`round`](Decimal::round).
    pub fn expand(&mut self, position: i16) -> Result<(), LimitError> {
        self.round_with_mode(position, UnsignedRoundingMode::Expand.into())
    }

    /// Takes the value: [`expand`](Decimal::expand).
    ///
    /// # Errors
    ///
    /// As there.
    pub fn expanded(mut self, position: i16) -> Result<Self, LimitError> {
        self.expand(position)?;
        Ok(self)
    }

    /// Rounds toward zero, which never fails.
    pub fn trunc(&mut self, position: i16) {
        let option = SignedRoundingMode::Unsigned(UnsignedRoundingMode::Trunc).code();
        self.change(FdCall { option, increment: 1, ..call(ROUND, position) });
    }

    /// Takes the value: [`trunc`](Decimal::trunc).
    #[must_use]
    pub fn trunced(mut self, position: i16) -> Self {
        self.trunc(position);
        self
    }

    /// Rounds by a mode.
    ///
    /// # Errors
    ///
    /// As [`round`](Decimal::round).
    pub fn round_with_mode(&mut self, position: i16, mode: SignedRoundingMode) -> Result<(), LimitError> {
        self.round_with_mode_and_increment(position, mode, RoundingIncrement::MultiplesOf1)
    }

    /// Takes the value: [`round_with_mode`](Decimal::round_with_mode).
    ///
    /// # Errors
    ///
    /// As there.
    pub fn rounded_with_mode(mut self, position: i16, mode: SignedRoundingMode) -> Result<Self, LimitError> {
        self.round_with_mode(position, mode)?;
        Ok(self)
    }

    /// Rounds to a multiple of the increment times 10^`position`.
    ///
    /// # Errors
    ///
    /// As [`round`](Decimal::round).
    ///
    /// ```
    /// # use fixed_decimal_proved::{Decimal, LimitError, RoundingIncrement, SignedRoundingMode};
    /// let mut cash: Decimal = "4.23".parse().unwrap();
    /// cash.round_with_mode_and_increment(-2, SignedRoundingMode::HalfCeil, RoundingIncrement::MultiplesOf5)?;
    /// assert_eq!(cash.to_string(), "4.25");
    /// # Ok::<(), LimitError>(())
    /// ```
    pub fn round_with_mode_and_increment(
        &mut self,
        position: i16,
        mode: SignedRoundingMode,
        increment: RoundingIncrement,
    ) -> Result<(), LimitError> {
        self.change_within_limits(FdCall { option: mode.code(), increment: increment as u8, ..call(ROUND, position) })
    }

    /// Takes the value: [`round_with_mode_and_increment`](Decimal::round_with_mode_and_increment).
    ///
    /// # Errors
    ///
    /// As there.
    pub fn rounded_with_mode_and_increment(
        mut self,
        position: i16,
        mode: SignedRoundingMode,
        increment: RoundingIncrement,
    ) -> Result<Self, LimitError> {
        self.round_with_mode_and_increment(position, mode, increment)?;
        Ok(self)
    }
}

impl Default for Decimal {
    /// `0`.
    fn default() -> Self {
        Decimal::from(0u8)
    }
}

impl FromStr for Decimal {
    type Err = ParseError;

    fn from_str(text: &str) -> Result<Self, ParseError> {
        Self::try_from_str(text)
    }
}

impl fmt::Display for Decimal {
    fn fmt(&self, f: &mut fmt::Formatter<'_>) -> fmt::Result {
        match f.precision() {
            None => write_number(f, &self.text),
            Some(digits) => {
                let position = i32::try_from(digits).ok().and_then(|digits| i16::try_from(-digits).ok());
                let rounded = position.and_then(|position| self.clone().rounded(position).ok()).ok_or(fmt::Error)?;
                write_number(f, &rounded.text)
            }
        }
    }
}

/// Writes a text with the sign, the width, the fill and the alignment of the format, as numbers are written.
fn write_number(f: &mut fmt::Formatter<'_>, text: &str) -> fmt::Result {
    let digits = text.trim_start_matches(['-', '+']);
    let sign = match &text[..text.len() - digits.len()] {
        "" if f.sign_plus() => "+",
        sign => sign,
    };
    if f.sign_aware_zero_pad() {
        let missing = f.width().unwrap_or(0).saturating_sub(sign.len() + digits.len());
        return write!(f, "{sign}{}{digits}", "0".repeat(missing));
    }
    pad(f, sign, digits)
}

/// Writes a sign and a text with the width, the fill and the alignment of the format, to the right by default.
pub(crate) fn pad(f: &mut fmt::Formatter<'_>, sign: &str, text: &str) -> fmt::Result {
    let missing = f.width().map_or(0, |width| width.saturating_sub(sign.len() + text.chars().count()));
    let before = match f.align() {
        Some(fmt::Alignment::Left) => 0,
        Some(fmt::Alignment::Center) => missing / 2,
        Some(fmt::Alignment::Right) | None => missing,
    };
    let fill = f.fill();
    (0..before).try_for_each(|_| f.write_char(fill))?;
    f.write_str(sign)?;
    f.write_str(text)?;
    (before..missing).try_for_each(|_| f.write_char(fill))
}

impl fmt::Debug for Decimal {
    fn fmt(&self, f: &mut fmt::Formatter<'_>) -> fmt::Result {
        write!(f, "Decimal({})", self.as_str())
    }
}

macro_rules! integers {
    ($($integer:ty),*) => { $(
        impl From<$integer> for Decimal {
            fn from(integer: $integer) -> Self {
                Decimal { text: Text::Long(integer.to_string()) }
            }
        }

        impl TryFrom<&Decimal> for $integer {
            type Error = IntegerError;

            /// The integer, whatever zeros and sign are shown.
            fn try_from(value: &Decimal) -> Result<$integer, IntegerError> {
                let shown = value.clone().with_sign_display(SignDisplay::Negative).trimmed_end_if_integer();
                if shown.text.contains('.') {
                    return Err(IntegerError::NotWhole);
                }
                shown.text.parse().map_err(|_| IntegerError::OutOfRange)
            }
        }
    )* };
}

integers!(i8, i16, i32, i64, i128, isize, u8, u16, u32, u64, u128, usize);
