//! The options of a number, as those of `Intl.NumberFormat`.
use crate::error::NameError;
use crate::ffi;
use crate::options::{SignDisplay, SignedRoundingMode, UnsignedRoundingMode};
use std::fmt;
use std::str::FromStr;

/// No number of digits, and no increment: the default of `Intl.NumberFormat` applies.
const DEFAULT: u16 = u16::MAX;

/// The code of a currency: three letters. One that is not listed has two fraction digits, and its code is its symbol.
///
/// ```
/// # use fixed_decimal_proved::{CurrencyCode, NameError};
/// assert_eq!(CurrencyCode::try_from_str("EUR")?.as_str(), "EUR");
/// assert_eq!(CurrencyCode::try_from_str("euro"), Err(NameError));
/// # Ok::<(), NameError>(())
/// ```
#[repr(transparent)]
#[derive(Clone, Copy, PartialEq, Eq, Hash)]
pub struct CurrencyCode([u8; 3]);

/// The name of a numbering system: three to eight ASCII letters and digits, as `latn` or `deva`.
///
/// ```
/// # use fixed_decimal_proved::{NameError, NumberingSystem};
/// assert_eq!(NumberingSystem::try_from_str("arab")?.as_str(), "arab");
/// assert_eq!(NumberingSystem::try_from_str("a b"), Err(NameError));
/// # Ok::<(), NameError>(())
/// ```
#[repr(transparent)]
#[derive(Clone, Copy, PartialEq, Eq, Hash)]
pub struct NumberingSystem([u8; 16]);

/// A unit that ECMA-402 has: one of 45, as `kilometer`, or two of these, as `gram-per-second`.
///
/// ```
/// # use fixed_decimal_proved::{NameError, Unit};
/// assert_eq!(Unit::try_from_str("kilometer-per-hour")?.to_string(), "kilometer-per-hour");
/// assert_eq!(Unit::try_from_str("furlong"), Err(NameError));
/// # Ok::<(), NameError>(())
/// ```
#[repr(C)]
#[derive(Clone, Copy, PartialEq, Eq, Hash)]
pub struct Unit {
    unit: u8,
    /// 0 is none.
    per_unit: u8,
}

impl CurrencyCode {
    /// Reads a code.
    ///
    /// # Errors
    ///
    /// It is not three ASCII letters.
    pub fn try_from_str(code: &str) -> Result<Self, NameError> {
        match code.as_bytes().try_into() {
            Ok(letters) if code.bytes().all(|letter| letter.is_ascii_alphabetic()) => Ok(CurrencyCode(letters)),
            _ => Err(NameError),
        }
    }

    /// The code.
    pub fn as_str(&self) -> &str {
        text_of(&self.0)
    }
}

impl NumberingSystem {
    /// Reads a name. Whether the library has the system is found when a format is made.
    ///
    /// # Errors
    ///
    /// It is not three to eight lowercase ASCII letters and digits.
    pub fn try_from_str(name: &str) -> Result<Self, NameError> {
        let is_name = name.bytes().all(|byte| byte.is_ascii_lowercase() || byte.is_ascii_digit());
        if !is_name || !(3..=8).contains(&name.len()) {
            return Err(NameError);
        }
        let mut padded = [b' '; 16];
        padded[..name.len()].copy_from_slice(name.as_bytes());
        Ok(NumberingSystem(padded))
    }

    /// The name.
    pub fn as_str(&self) -> &str {
        text_of(&self.0).trim_end()
    }
}

impl Unit {
    /// Zeros, which are no unit.
    const NONE: Unit = Unit { unit: 0, per_unit: 0 };

    /// Reads the name of a unit.
    ///
    /// # Errors
    ///
    /// ECMA-402 has no unit with this name. Letters have to be of the same case.
    pub fn try_from_str(name: &str) -> Result<Self, NameError> {
        match ffi::unit(name) {
            Ok((unit, per_unit)) => Ok(Unit { unit, per_unit }),
            Err(_) => Err(NameError),
        }
    }
}

impl FromStr for Unit {
    type Err = NameError;

    fn from_str(text: &str) -> Result<Self, NameError> {
        Self::try_from_str(text)
    }
}

impl fmt::Display for Unit {
    fn fmt(&self, f: &mut fmt::Formatter<'_>) -> fmt::Result {
        f.write_str(&ffi::unit_name(self.unit))?;
        if self.per_unit == 0 {
            return Ok(());
        }
        f.write_str("-per-")?;
        f.write_str(&ffi::unit_name(self.per_unit))
    }
}

impl fmt::Debug for Unit {
    fn fmt(&self, f: &mut fmt::Formatter<'_>) -> fmt::Result {
        match *self {
            Unit::NONE => f.write_str("none"),
            _ => fmt::Display::fmt(self, f),
        }
    }
}

/// The text of ASCII bytes.
fn text_of(bytes: &[u8]) -> &str {
    std::str::from_utf8(bytes).expect("a name is ASCII")
}

macro_rules! names {
    ($($name:ty),*) => { $(
        impl FromStr for $name {
            type Err = NameError;

            fn from_str(text: &str) -> Result<Self, NameError> {
                Self::try_from_str(text)
            }
        }

        impl fmt::Debug for $name {
            fn fmt(&self, f: &mut fmt::Formatter<'_>) -> fmt::Result {
                f.write_str(self.as_str())
            }
        }
    )* };
}

names!(CurrencyCode, NumberingSystem);

/// What a number counts.
#[repr(u8)]
#[derive(Clone, Copy, Debug, PartialEq, Eq, Hash)]
enum Style {
    Decimal = 0,
    Percent = 1,
    Permille = 2,
    Currency = 3,
    Unit = 4,
}

/// Which symbol of a currency is written, or its name.
#[repr(u8)]
#[derive(Clone, Copy, Debug, Default, PartialEq, Eq, Hash)]
pub enum CurrencyDisplay {
    /// The symbol of the locale, as `US$`.
    #[default]
    Symbol = 0,
    /// The narrow symbol, as `$`.
    Narrow = 1,
    /// The code, as `USD`.
    Code = 2,
    /// None: the digits are those of the currency.
    Hidden = 3,
    /// The name, as `US dollars`.
    Name = 4,
}

/// Which pattern of amounts is used.
#[repr(u8)]
#[derive(Clone, Copy, Debug, Default, PartialEq, Eq, Hash)]
pub enum CurrencySign {
    /// The usual one.
    #[default]
    Standard = 0,
    /// That of accounts, as `($5.00)`.
    Accounting = 1,
}

/// For which use a currency's digits are chosen.
#[repr(u8)]
#[derive(Clone, Copy, Debug, Default, PartialEq, Eq, Hash)]
pub enum CurrencyUsage {
    /// The usual digits.
    #[default]
    Standard = 0,
    /// Those of cash, with its increment.
    Cash = 1,
}

/// The width of a unit.
#[repr(u8)]
#[derive(Clone, Copy, Debug, Default, PartialEq, Eq, Hash)]
pub enum UnitDisplay {
    /// `5 km/h`
    #[default]
    Short = 0,
    /// `5km/h`
    Narrow = 1,
    /// `5 kilometers per hour`
    Long = 2,
}

/// Where the decimal separator is written.
#[repr(u8)]
#[derive(Clone, Copy, Debug, Default, PartialEq, Eq, Hash)]
pub enum DecimalSeparatorDisplay {
    /// Before fraction digits.
    #[default]
    Auto = 0,
    /// After the integer digits, also if there are no fraction digits: `5.`.
    Always = 1,
}

/// In which notation a number is written.
#[repr(u8)]
#[derive(Clone, Copy, Debug, Default, PartialEq, Eq, Hash)]
enum Notation {
    #[default]
    Standard = 0,
    Scientific = 1,
    Engineering = 2,
    CompactShort = 3,
    CompactLong = 4,
}

/// How long the words of a number in compact notation are.
#[derive(Clone, Copy, Debug, Default, PartialEq, Eq, Hash)]
pub enum CompactLength {
    /// `1.2M`
    #[default]
    Short,
    /// `1.2 million`
    Long,
}

/// Where groups are separated.
#[repr(u8)]
#[derive(Clone, Copy, Debug, Default, PartialEq, Eq, Hash)]
pub enum GroupingStrategy {
    /// As the locale does. In compact notation it is `Min2`.
    #[default]
    Auto = 0,
    /// Never.
    Never = 1,
    /// Wherever there is a digit before the first separator.
    Always = 2,
    /// As the locale does, with at least two digits before the first separator.
    Min2 = 3,
}

/// Which of two roundings is chosen, that to fraction digits or that to significant digits.
#[repr(u8)]
#[derive(Clone, Copy, Debug, Default, PartialEq, Eq, Hash)]
pub enum RoundingPriority {
    /// That to significant digits if a number of significant digits is given.
    #[default]
    Auto = 0,
    /// The one that keeps a lower digit.
    MorePrecision = 1,
    /// The other one.
    LessPrecision = 2,
}

/// Whether zeros are written after the decimal point of an integer.
#[repr(u8)]
#[derive(Clone, Copy, Debug, Default, PartialEq, Eq, Hash)]
pub enum TrailingZeroDisplay {
    /// As the numbers of digits say.
    #[default]
    Auto = 0,
    /// Not if all fraction digits are 0.
    StripIfInteger = 1,
}

/// How a number is written, by the options of `Intl.NumberFormat` (ECMA-402) with its defaults: a plain number with at
/// most three fraction digits, rounded half-expand.
///
/// ```
/// use fixed_decimal_proved::{CompactLength, CurrencyCode, Decimal, NumberFormat, Options};
///
/// let price: Decimal = "1234567.5".parse()?;
/// let euros = Options::currency(CurrencyCode::try_from_str("EUR")?);
/// assert_eq!(NumberFormat::new("de", &euros)?.format(&price)?.as_str(), "1.234.567,50\u{a0}€");
/// let short = euros.with_maximum_fraction_digits(0);
/// assert_eq!(NumberFormat::new("de", &short)?.format(&price)?.as_str(), "1.234.568\u{a0}€");
/// let compact = Options::compact(CompactLength::Long);
/// assert_eq!(NumberFormat::new("en", &compact)?.format(&price)?.as_str(), "1.2 million");
/// # Ok::<(), Box<dyn std::error::Error>>(())
/// ```
#[repr(C)]
#[derive(Clone, Copy, Debug, PartialEq, Eq, Hash)]
pub struct Options {
    style: Style,
    currency: CurrencyCode,
    /// Zeros are the system of the locale.
    numbering_system: [u8; 16],
    currency_display: CurrencyDisplay,
    currency_sign: CurrencySign,
    currency_usage: CurrencyUsage,
    unit: Unit,
    unit_display: UnitDisplay,
    notation: Notation,
    sign_display: SignDisplay,
    grouping: GroupingStrategy,
    decimal_separator: DecimalSeparatorDisplay,
    rounding_mode: u8,
    rounding_priority: RoundingPriority,
    trailing_zeros: TrailingZeroDisplay,
    scale: i16,
    minimum_integer_digits: u16,
    minimum_fraction_digits: u16,
    maximum_fraction_digits: u16,
    minimum_significant_digits: u16,
    maximum_significant_digits: u16,
    rounding_increment: u16,
}

impl Default for Options {
    fn default() -> Self {
        Options {
            style: Style::Decimal,
            currency: CurrencyCode([0; 3]),
            numbering_system: [0; 16],
            currency_display: CurrencyDisplay::default(),
            currency_sign: CurrencySign::default(),
            currency_usage: CurrencyUsage::default(),
            unit: Unit::NONE,
            unit_display: UnitDisplay::default(),
            notation: Notation::default(),
            sign_display: SignDisplay::default(),
            grouping: GroupingStrategy::default(),
            decimal_separator: DecimalSeparatorDisplay::default(),
            rounding_mode: SignedRoundingMode::Unsigned(UnsignedRoundingMode::HalfExpand).code(),
            rounding_priority: RoundingPriority::default(),
            trailing_zeros: TrailingZeroDisplay::default(),
            scale: 0,
            minimum_integer_digits: DEFAULT,
            minimum_fraction_digits: DEFAULT,
            maximum_fraction_digits: DEFAULT,
            minimum_significant_digits: DEFAULT,
            maximum_significant_digits: DEFAULT,
            rounding_increment: DEFAULT,
        }
    }
}

/// # Styles and notations
impl Options {
    /// A percentage: 0.5 is `50%`.
    #[must_use]
    pub fn percent() -> Self {
        Options { style: Style::Percent, scale: 2, ..Options::default() }
    }

    /// A number of thousandths, as ICU has it: 5 is `5‰`.
    #[must_use]
    pub fn permille() -> Self {
        Options { style: Style::Permille, ..Options::default() }
    }

    /// An amount of money.
    #[must_use]
    pub fn currency(code: CurrencyCode) -> Self {
        Options { style: Style::Currency, currency: code, ..Options::default() }
    }

    /// A number of units.
    ///
    /// ```
    /// # use fixed_decimal_proved::{Decimal, NumberFormat, Options, Unit, UnitDisplay};
    /// let speed = Options::unit("kilometer-per-hour".parse()?);
    /// let format = NumberFormat::new("de", &speed.with_unit_display(UnitDisplay::Long))?;
    /// assert_eq!(format.format(&Decimal::from(100))?.as_str(), "100 Kilometer pro Stunde");
    /// # Ok::<(), Box<dyn std::error::Error>>(())
    /// ```
    #[must_use]
    pub fn unit(unit: Unit) -> Self {
        Options { style: Style::Unit, unit, ..Options::default() }
    }

    /// A plain number in compact notation: 1234567 is `1.2M` or `1.2 million`.
    #[must_use]
    pub fn compact(length: CompactLength) -> Self {
        Options::default().with_compact_notation(length)
    }

    /// A plain number in scientific notation: 1500 is `1.5E3`.
    #[must_use]
    pub fn scientific() -> Self {
        Options::default().with_scientific_notation()
    }

    /// A plain number in engineering notation, whose exponents are multiples of 3: 15000 is `15E3`.
    #[must_use]
    pub fn engineering() -> Self {
        Options::default().with_engineering_notation()
    }

    /// The same in compact notation.
    #[must_use]
    pub fn with_compact_notation(self, length: CompactLength) -> Self {
        let notation = match length {
            CompactLength::Short => Notation::CompactShort,
            CompactLength::Long => Notation::CompactLong,
        };
        Options { notation, ..self }
    }

    /// The same in scientific notation.
    #[must_use]
    pub fn with_scientific_notation(self) -> Self {
        Options { notation: Notation::Scientific, ..self }
    }

    /// The same in engineering notation.
    #[must_use]
    pub fn with_engineering_notation(self) -> Self {
        Options { notation: Notation::Engineering, ..self }
    }

    /// The same times 10^`scale`. [`Options::percent`] has 2.
    #[must_use]
    pub fn with_scale(self, scale: i16) -> Self {
        Options { scale, ..self }
    }

    /// The same in a numbering system. The default is that of the locale.
    #[must_use]
    pub fn with_numbering_system(self, system: NumberingSystem) -> Self {
        Options { numbering_system: system.0, ..self }
    }

    /// The same with a rounding mode. The default is half-expand.
    #[must_use]
    pub fn with_rounding_mode(self, mode: SignedRoundingMode) -> Self {
        Options { rounding_mode: mode.code(), ..self }
    }
}

macro_rules! setters {
    ($($(#[$doc:meta])* $name:ident $field:ident: $kind:ty;)*) => {
        /// # Words
        impl Options { $(
            $(#[$doc])*
            #[must_use]
            pub fn $name(self, $field: $kind) -> Self {
                Options { $field, ..self }
            }
        )* }
    };
}

setters! {
    /// The same with another symbol of the currency, or its name.
    with_currency_display currency_display: CurrencyDisplay;
    /// The same with the usual pattern of amounts, or that of accounts.
    with_currency_sign currency_sign: CurrencySign;
    /// The same with the usual digits of the currency, or those of cash.
    with_currency_usage currency_usage: CurrencyUsage;
    /// The same with a unit of another width.
    with_unit_display unit_display: UnitDisplay;
    /// The same with the decimal separator also after integers, as ICU has it.
    with_decimal_separator decimal_separator: DecimalSeparatorDisplay;
    /// The same with another sign: that of the rounded number.
    with_sign_display sign_display: SignDisplay;
    /// The same with other groups.
    with_grouping grouping: GroupingStrategy;
    /// The same with another choice of two roundings.
    with_rounding_priority rounding_priority: RoundingPriority;
    /// The same with or without the zeros of an integer.
    with_trailing_zeros trailing_zeros: TrailingZeroDisplay;
}

macro_rules! counts {
    ($($(#[$doc:meta])* $name:ident $field:ident;)*) => {
        /// # Numbers of digits
        ///
        /// Those that no format has are an error of [`NumberFormat::new`](crate::NumberFormat::new).
        impl Options { $(
            $(#[$doc])*
            #[must_use]
            pub fn $name(self, $field: u16) -> Self {
                Options { $field: $field.min(DEFAULT - 1), ..self }
            }
        )* }
    };
}

counts! {
    /// The same with at least this number of integer digits, 1 to 21.
    with_minimum_integer_digits minimum_integer_digits;
    /// The same with at least this number of fraction digits, 0 to 100.
    with_minimum_fraction_digits minimum_fraction_digits;
    /// The same with at most this number of fraction digits, 0 to 100.
    with_maximum_fraction_digits maximum_fraction_digits;
    /// The same with at least this number of significant digits, 1 to 21.
    with_minimum_significant_digits minimum_significant_digits;
    /// The same with at most this number of significant digits, 1 to 21.
    with_maximum_significant_digits maximum_significant_digits;
    /// The same with multiples of this increment in units of the last fraction digit: 1, 2 or 5 with up to three zeros,
    /// 25 with up to two.
    with_rounding_increment rounding_increment;
}
