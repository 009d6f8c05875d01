//! Modes, increments and signs, with the original's names.
use crate::error::UnknownLocale;
use crate::ffi;

/// How a number between two multiples is rounded, by its magnitude alone.
#[derive(Clone, Copy, Debug, PartialEq, Eq, Hash)]
pub enum UnsignedRoundingMode {
    /// Away from zero.
    Expand,
    /// Toward zero.
    Trunc,
    /// To the nearest; a tie away from zero.
    HalfExpand,
    /// To the nearest; a tie toward zero.
    HalfTrunc,
    /// To the nearest; a tie to the even multiple.
    HalfEven,
}

/// How a number between two multiples is rounded.
#[derive(Clone, Copy, Debug, PartialEq, Eq, Hash)]
pub enum SignedRoundingMode {
    /// By the magnitude.
    Unsigned(UnsignedRoundingMode),
    /// Up.
    Ceil,
    /// Down.
    Floor,
    /// To the nearest; a tie up.
    HalfCeil,
    /// To the nearest; a tie down.
    HalfFloor,
}

impl SignedRoundingMode {
    /// The `fd_mode`.
    pub(crate) fn code(self) -> u8 {
        match self {
            SignedRoundingMode::Ceil => 0,
            SignedRoundingMode::Floor => 1,
            SignedRoundingMode::Unsigned(UnsignedRoundingMode::Expand) => 2,
            SignedRoundingMode::Unsigned(UnsignedRoundingMode::Trunc) => 3,
            SignedRoundingMode::HalfCeil => 4,
            SignedRoundingMode::HalfFloor => 5,
            SignedRoundingMode::Unsigned(UnsignedRoundingMode::HalfExpand) => 6,
            SignedRoundingMode::Unsigned(UnsignedRoundingMode::HalfTrunc) => 7,
            SignedRoundingMode::Unsigned(UnsignedRoundingMode::HalfEven) => 8,
        }
    }
}

impl From<UnsignedRoundingMode> for SignedRoundingMode {
    fn from(mode: UnsignedRoundingMode) -> Self {
        SignedRoundingMode::Unsigned(mode)
    }
}

/// The multiples, of 10 to the power of the position, to which a number is rounded.
#[derive(Clone, Copy, Debug, Default, PartialEq, Eq, Hash)]
pub enum RoundingIncrement {
    #[default]
    MultiplesOf1 = 1,
    MultiplesOf2 = 2,
    MultiplesOf5 = 5,
    MultiplesOf25 = 25,
}

/// The sign that a decimal shows.
#[derive(Clone, Copy, Debug, Default, PartialEq, Eq, Hash)]
pub enum Sign {
    #[default]
    None,
    Negative,
    Positive,
}

/// Which signs are shown.
#[repr(u8)]
#[derive(Clone, Copy, Debug, Default, PartialEq, Eq, Hash)]
pub enum SignDisplay {
    /// A minus.
    #[default]
    Auto,
    /// None.
    Never,
    /// A minus or a plus.
    Always,
    /// A minus or a plus, but none for zero.
    ExceptZero,
    /// A minus, but none for zero.
    Negative,
}

/// The category of a number in a language's plural rules.
#[derive(Clone, Copy, Debug, PartialEq, Eq, Hash)]
pub enum PluralCategory {
    Zero,
    One,
    Two,
    Few,
    Many,
    Other,
}

impl PluralCategory {
    /// The category of a range of numbers in a locale, by those of its first and of its last number. Cardinal and
    /// ordinal numbers have the same ones.
    ///
    /// # Errors
    ///
    /// The locale is unknown.
    ///
    /// ```
    /// # use fixed_decimal_proved::{PluralCategory, UnknownLocale};
    /// let days = PluralCategory::of_range("ru", PluralCategory::One, PluralCategory::Many)?;
    /// assert_eq!(days, PluralCategory::Many);
    /// # Ok::<(), UnknownLocale>(())
    /// ```
    pub fn of_range(locale: &str, start: PluralCategory, end: PluralCategory) -> Result<Self, UnknownLocale> {
        match ffi::plural_range(locale, start as u32, end as u32) {
            Ok(code) => Ok(PluralCategory::of(code)),
            Err(failure) if failure.status == 10 => Err(UnknownLocale),
            Err(failure) => failure.never(),
        }
    }

    /// Of an `fd_plural`.
    pub(crate) fn of(code: i64) -> Self {
        match code {
            0 => PluralCategory::Zero,
            1 => PluralCategory::One,
            2 => PluralCategory::Two,
            3 => PluralCategory::Few,
            4 => PluralCategory::Many,
            _ => PluralCategory::Other,
        }
    }
}
