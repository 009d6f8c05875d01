//! Stands in for the crate `writeable`: what the original uses of it, with the same behaviour.
#![no_std]

extern crate alloc;

use alloc::borrow::Cow;
pub use alloc::string::String;
use core::fmt;
use core::ops::{Add, AddAssign};

/// What has a text.
pub trait Writeable {
    fn write_to<W: fmt::Write + ?Sized>(&self, sink: &mut W) -> fmt::Result;

    fn writeable_length_hint(&self) -> LengthHint;

    fn write_to_string(&self) -> Cow<'_, str> {
        let hint = self.writeable_length_hint();
        let mut text = String::with_capacity(hint.1.unwrap_or(hint.0));
        let _ = self.write_to(&mut text);
        Cow::Owned(text)
    }
}

/// A least length, and a greatest one where it is known.
#[derive(Clone, Copy)]
pub struct LengthHint(pub usize, pub Option<usize>);

impl LengthHint {
    pub fn exact(length: usize) -> Self {
        Self(length, Some(length))
    }
}

impl Add for LengthHint {
    type Output = Self;

    fn add(self, other: Self) -> Self {
        let most = self.1.zip(other.1).and_then(|(one, other)| one.checked_add(other));
        Self(self.0.saturating_add(other.0), most)
    }
}

impl Add<usize> for LengthHint {
    type Output = Self;

    fn add(self, other: usize) -> Self {
        self + Self::exact(other)
    }
}

impl AddAssign for LengthHint {
    fn add_assign(&mut self, other: Self) {
        *self = *self + other;
    }
}

impl Writeable for u8 {
    fn write_to<W: fmt::Write + ?Sized>(&self, sink: &mut W) -> fmt::Result {
        write!(sink, "{self}")
    }

    fn writeable_length_hint(&self) -> LengthHint {
        LengthHint::exact(self.checked_ilog10().unwrap_or(0) as usize + 1)
    }
}

/// Display, and a `to_string` that makes the text at its length.
#[macro_export]
macro_rules! impl_display_with_writeable {
    ($name:ty) => {
        impl core::fmt::Display for $name {
            #[inline]
            fn fmt(&self, formatter: &mut core::fmt::Formatter<'_>) -> core::fmt::Result {
                $crate::Writeable::write_to(self, formatter)
            }
        }

        impl $name {
            /// The text as a string.
            pub fn to_string(&self) -> $crate::String {
                $crate::Writeable::write_to_string(self).into_owned()
            }
        }
    };
}

/// The text of a part is that of the whole.
#[macro_export]
macro_rules! impl_writeable_delegate {
    ($name:ty, |&$self:ident| $part:expr) => {
        impl $crate::Writeable for $name {
            fn write_to<W: core::fmt::Write + ?Sized>(&$self, sink: &mut W) -> core::fmt::Result {
                $crate::Writeable::write_to($part, sink)
            }

            fn writeable_length_hint(&$self) -> $crate::LengthHint {
                $crate::Writeable::writeable_length_hint($part)
            }
        }

        $crate::impl_display_with_writeable!($name);
    };
}
