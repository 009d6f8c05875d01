//! The names that the original and the Rust crate share, of the options of a call.

/// Defines what makes a sign, a display, a mode and an increment of a crate from those of the reference.
macro_rules! names_of {
    ($library:ident) => {
        fn sign(sign: Sign) -> $library::Sign {
            match sign {
                Sign::None => $library::Sign::None,
                Sign::Minus => $library::Sign::Negative,
                Sign::Plus => $library::Sign::Positive,
            }
        }

        fn display(display: Display) -> SignDisplay {
            match display {
                Display::Auto => SignDisplay::Auto,
                Display::Never => SignDisplay::Never,
                Display::Always => SignDisplay::Always,
                Display::ExceptZero => SignDisplay::ExceptZero,
                Display::Negative => SignDisplay::Negative,
            }
        }

        fn mode(mode: Mode) -> SignedRoundingMode {
            let unsigned = match mode {
                Mode::Ceil => return SignedRoundingMode::Ceil,
                Mode::Floor => return SignedRoundingMode::Floor,
                Mode::HalfCeil => return SignedRoundingMode::HalfCeil,
                Mode::HalfFloor => return SignedRoundingMode::HalfFloor,
                Mode::Expand => UnsignedRoundingMode::Expand,
                Mode::Trunc => UnsignedRoundingMode::Trunc,
                Mode::HalfExpand => UnsignedRoundingMode::HalfExpand,
                Mode::HalfTrunc => UnsignedRoundingMode::HalfTrunc,
                Mode::HalfEven => UnsignedRoundingMode::HalfEven,
            };
            SignedRoundingMode::Unsigned(unsigned)
        }

        fn increment(increment: u32) -> RoundingIncrement {
            match increment {
                2 => RoundingIncrement::MultiplesOf2,
                5 => RoundingIncrement::MultiplesOf5,
                25 => RoundingIncrement::MultiplesOf25,
                _ => RoundingIncrement::MultiplesOf1,
            }
        }
    };
}

pub(crate) use names_of;
