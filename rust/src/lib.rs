//! Exact decimals for display: ICU4X's `fixed_decimal`, formally verified, for Rust.
//!
//! A [`Decimal`] is a number of up to 65,536 digits as it is shown: `2.50` is not `2.5`. Each method is a call of the C
//! library, whose functions are proved; methods have the names of the original. What passes the limits, magnitudes
//! -32768 to 32767, is an error, and the value is unchanged. Out of memory ends the program, as with a `Vec`.
//!
//! The crate links the library, `.a` or `.so`, that the environment's `FIXED_DECIMAL_LIB` names, or else the static one
//! in `c/out`. If there is none, the build stops: run `bash c/build.sh` first, which needs the Rattle kit.
#![deny(unsafe_code, unsafe_op_in_unsafe_fn, missing_debug_implementations)]

mod decimal;
mod error;
mod ffi;
mod number_format;
mod number_options;
mod options;

pub use decimal::Decimal;
pub use error::{
    DigitOptionsError, IntegerError, LimitError, NameError, NumberFormatError, NumberReadError, OverlapError,
    ParseError, ReadError, RulesError, UnknownLocale,
};
pub use number_format::{FormattedNumber, NumberFormat, NumberParts, PartKind, RangeParts, RangeSource};
pub use number_options::{
    CompactLength, CurrencyCode, CurrencyDisplay, CurrencySign, CurrencyUsage, DecimalSeparatorDisplay,
    GroupingStrategy, NumberingSystem, Options, RoundingPriority, TrailingZeroDisplay, Unit, UnitDisplay,
};
pub use options::{PluralCategory, RoundingIncrement, Sign, SignDisplay, SignedRoundingMode, UnsignedRoundingMode};
