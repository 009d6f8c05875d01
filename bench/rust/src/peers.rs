//! The other libraries.

use crate::original::worked;
use bigdecimal::BigDecimal;
use rust_decimal::prelude::ToPrimitive;
use rust_decimal::{Decimal as RustDecimal, RoundingStrategy};
use std::ffi::{c_char, c_int, c_void};
use std::panic::{catch_unwind, AssertUnwindSafe};
use std::process::Command;
use std::ptr::null_mut;

/// A library of numbers. A call returns `None` if it has no result.
pub trait Peer {
    type Number: Ord + ToPrimitive;

    fn read(text: &str) -> Option<Self::Number>;

    /// A hundredth of the number.
    fn shift(number: &Self::Number) -> Option<Self::Number>;

    /// The number rounded half-even to `decimals` decimals.
    fn round(number: &Self::Number, decimals: u16) -> Option<Self::Number>;

    fn print(number: &Self::Number) -> String;

    fn whole(text: &str, decimals: u16) -> Option<String> {
        let number = Self::shift(&Self::read(text)?)?;
        Some(Self::print(&Self::round(&number, decimals)?))
    }
}

impl Peer for RustDecimal {
    type Number = RustDecimal;

    fn read(text: &str) -> Option<RustDecimal> {
        text.parse().ok()
    }

    fn shift(number: &RustDecimal) -> Option<RustDecimal> {
        let mut shifted = *number;
        shifted.set_scale(number.scale() + 2).ok()?;
        Some(shifted)
    }

    fn round(number: &RustDecimal, decimals: u16) -> Option<RustDecimal> {
        let strategy = RoundingStrategy::MidpointNearestEven;
        let mut rounded = number.round_dp_with_strategy(decimals.into(), strategy);
        rounded.rescale(decimals.into());
        Some(rounded)
    }

    fn print(number: &RustDecimal) -> String {
        number.to_string()
    }
}

impl Peer for BigDecimal {
    type Number = BigDecimal;

    fn read(text: &str) -> Option<BigDecimal> {
        text.parse().ok()
    }

    fn shift(number: &BigDecimal) -> Option<BigDecimal> {
        Some(number * BigDecimal::new(1.into(), 2))
    }

    fn round(number: &BigDecimal, decimals: u16) -> Option<BigDecimal> {
        // It panics where a tail of the digits is too long.
        catch_unwind(AssertUnwindSafe(|| number.round(decimals.into()))).ok()
    }

    fn print(number: &BigDecimal) -> String {
        number.to_string()
    }
}

extern "C" {
    fn icu_open(decimals: c_int) -> *mut c_void;
    fn icu_open_result() -> *mut c_void;
    fn icu_format(
        formatter: *const c_void,
        result: *mut c_void,
        text: *const c_char,
        length: c_int,
        printed: *mut u16,
        room: c_int,
    ) -> c_int;
}

/// ICU's formatter, which does all in one call.
pub struct Icu {
    formatter: *mut c_void,
    result: *mut c_void,
    printed: Vec<u16>,
}

impl Icu {
    pub fn new(decimals: u16) -> Self {
        // Both are kept until the process ends.
        let (formatter, result) = unsafe { (icu_open(decimals.into()), icu_open_result()) };
        assert!(formatter != null_mut() && result != null_mut(), "ICU opens");
        Icu { formatter, result, printed: vec![0; 70_000] }
    }

    pub fn whole(&mut self, text: &str) -> Option<&[u16]> {
        // The text and the room live through the call, and are not kept.
        let length = unsafe {
            icu_format(
                self.formatter,
                self.result,
                text.as_ptr().cast(),
                text.len() as c_int,
                self.printed.as_mut_ptr(),
                self.printed.len() as c_int,
            )
        };
        self.printed.get(..usize::try_from(length).ok()?)
    }
}

/// Returns the output of Python's decimal for some words; `None` if there is no Python.
pub fn python(words: &[&str]) -> Option<String> {
    let output = Command::new("python3").arg(env!("MPDEC")).args(words).output().ok()?;
    output.status.success().then(|| String::from_utf8_lossy(&output.stdout).trim().to_owned())
}

/// Returns the results of each for one text, parsed, shifted by -2, rounded half-even to `decimals` and printed.
pub fn answers(text: &str, decimals: u16) -> [Option<String>; 5] {
    let icu = Icu::new(decimals).whole(text).map(String::from_utf16_lossy);
    [
        Some(worked(text, -(decimals as i16))),
        RustDecimal::whole(text, decimals),
        BigDecimal::whole(text, decimals),
        python(&["whole", text, &decimals.to_string()]),
        icu,
    ]
}
