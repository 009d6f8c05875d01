//! Worked rows of the original's documentation and tests, texts of node and ICU, each error, the limits, and threads.
use fixed_decimal_proved::SignedRoundingMode::{Ceil, Floor, HalfCeil, HalfFloor};
use fixed_decimal_proved::UnsignedRoundingMode::{Expand, HalfEven, HalfExpand, HalfTrunc, Trunc};
use fixed_decimal_proved::{
    CompactLength, CurrencyCode, CurrencyDisplay, CurrencySign, CurrencyUsage, Decimal, DecimalSeparatorDisplay,
    DigitOptionsError, FormattedNumber, GroupingStrategy, IntegerError, LimitError, NameError, NumberFormat,
    NumberFormatError, NumberParts, NumberReadError, NumberingSystem, Options, OverlapError, ParseError, PartKind,
    PluralCategory, RangeParts, RangeSource, ReadError, RoundingIncrement, RoundingPriority, RulesError, Sign,
    SignDisplay, SignedRoundingMode, TrailingZeroDisplay, Unit, UnitDisplay, UnknownLocale,
};
use std::cmp::Ordering;
use std::error::Error;

fn decimal(text: &str) -> Decimal {
    text.parse().unwrap_or_else(|error| panic!("{text}: {error}"))
}

#[test]
fn nine_modes() {
    let modes: [SignedRoundingMode; 9] = [
        Ceil, Expand.into(), Floor, Trunc.into(),
        HalfCeil, HalfExpand.into(), HalfFloor, HalfTrunc.into(), HalfEven.into(),
    ];
    for (text, results) in [
        ("1.8", "2 2 1 1 2 2 2 2 2"),
        ("1.5", "2 2 1 1 2 2 1 1 2"),
        ("0.5", "1 1 0 0 1 1 0 0 0"),
        ("0.2", "1 1 0 0 0 0 0 0 0"),
        ("-0.5", "-0 -1 -1 -0 -0 -1 -1 -0 -0"),
        ("-1.2", "-1 -2 -2 -1 -1 -1 -1 -1 -1"),
        ("-1.5", "-1 -2 -2 -1 -1 -2 -2 -1 -2"),
    ] {
        for (mode, result) in modes.into_iter().zip(results.split(' ')) {
            assert_eq!(decimal(text).rounded_with_mode(0, mode), Ok(decimal(result)), "{text} {mode:?}");
        }
    }
}

#[test]
fn roundings() {
    use RoundingIncrement::{MultiplesOf1, MultiplesOf2, MultiplesOf25, MultiplesOf5};
    for (text, position, mode, increment, result) in [
        ("-7.266", -2, Expand, MultiplesOf1, "-7.27"),
        ("-7.266", -2, Expand, MultiplesOf2, "-7.28"),
        ("-7.266", -2, Expand, MultiplesOf5, "-7.30"),
        ("-7.266", -2, Expand, MultiplesOf25, "-7.50"),
        ("5.455", -2, HalfExpand, MultiplesOf5, "5.45"),
        ("9.75", -1, HalfEven, MultiplesOf1, "9.8"),
        ("1.75", -1, HalfEven, MultiplesOf5, "2.0"),
        ("0.60", -2, Trunc, MultiplesOf25, "0.50"),
        ("0.7000000099", -3, Expand, MultiplesOf2, "0.702"),
        ("99.999", -2, Expand, MultiplesOf1, "100.00"),
        ("99.999", -5, Expand, MultiplesOf1, "99.99900"),
        ("12.34", 1, Trunc, MultiplesOf1, "10"),
    ] {
        let rounded = decimal(text).rounded_with_mode_and_increment(position, mode.into(), increment);
        assert_eq!(rounded, Ok(decimal(result)), "{text} {position} {mode:?} {increment:?}");
    }
    let value = decimal("-2.45");
    assert_eq!(value.clone().rounded(-1), Ok(decimal("-2.4")));
    assert_eq!(value.clone().ceiled(0), Ok(decimal("-2")));
    assert_eq!(value.clone().floored(0), Ok(decimal("-3")));
    assert_eq!(value.clone().expanded(-1), Ok(decimal("-2.5")));
    assert_eq!(value.trunced(-1), decimal("-2.4"));
}

#[test]
fn shown_range() {
    assert_eq!(decimal("51423").multiplied_pow10(-8), Ok(decimal("0.00051423")));
    assert_eq!(decimal("0").multiplied_pow10(3), Ok(decimal("0000")));
    assert_eq!(decimal("0012.3400").trimmed_start(), decimal("12.3400"));
    assert_eq!(decimal("0012.3400").trimmed_end(), decimal("0012.34"));
    assert_eq!(decimal("0012.3400").trimmed_end_if_integer(), decimal("0012.3400"));
    assert_eq!(decimal("123400.00").trimmed_end_if_integer(), decimal("123400"));
    assert_eq!(decimal("0000.42").padded_start(2), decimal("00.42"));
    assert_eq!(decimal("123.456").padded_end(-6), decimal("123.456000"));
    assert_eq!(decimal("123.000").padded_end(0), decimal("123"));
    assert_eq!(decimal("4235.970").with_max_position(2), decimal("35.970"));
    assert_eq!(decimal("4235.970").with_max_position(-4), decimal("0.0000"));
}

#[test]
fn concatenation() {
    for (left, right, result) in [
        ("123", "0.456", "123.456"),
        ("123000", "456", "123456"),
        ("0", "222", "222"),
        ("000", "0", "000"),
        ("-12", "0.5", "-12.5"),
    ] {
        assert_eq!(decimal(left).concatenated_end(&decimal(right)), Ok(decimal(result)), "{left} {right}");
    }
    for (left, right) in [("0.456", "123"), ("5", "5"), ("1.1", "0.2")] {
        let mut value = decimal(left);
        assert_eq!(value.concatenate_end(&decimal(right)), Err(OverlapError));
        assert_eq!(value, decimal(left));
    }
}

#[test]
fn signs() {
    use SignDisplay::{Always, Auto, ExceptZero, Negative, Never};
    for (text, results) in [
        ("-0", "-0 -0 0 0 0"),
        ("+0", "0 +0 0 0 0"),
        ("-5", "-5 -5 5 -5 -5"),
        ("5", "5 +5 5 +5 5"),
    ] {
        for (display, result) in [Auto, Always, Never, ExceptZero, Negative].into_iter().zip(results.split(' ')) {
            assert_eq!(decimal(text).with_sign_display(display), decimal(result), "{text} {display:?}");
        }
    }
    for (sign, text) in [(Sign::None, "5"), (Sign::Negative, "-5"), (Sign::Positive, "+5")] {
        assert_eq!(decimal("5").with_sign(sign), decimal(text));
        assert_eq!(decimal(text).sign(), sign);
    }
}

#[test]
fn digits() {
    for (text, highest, first, last, lowest) in [
        ("00123400", 7, 5, 2, 0),
        ("0012.3400", 3, 1, -2, -4),
        ("000", 2, 0, 0, 0),
        (".000000001", 0, -9, -9, -9),
        ("5.4e-2", 0, -2, -3, -3),
        ("0.009E10", 7, 7, 7, 0),
        ("-01.2e0", 1, 0, -1, -1),
    ] {
        let value = decimal(text);
        assert_eq!(value.magnitude_range(), lowest..=highest, "{text}");
        assert_eq!((value.nonzero_magnitude_start(), value.nonzero_magnitude_end()), (first, last), "{text}");
        assert_eq!(value.is_zero(), text == "000");
    }
    let value = decimal("-12.50");
    let digits: Vec<u8> = (-3..=2).rev().map(|magnitude| value.digit_at(magnitude)).collect();
    assert_eq!(digits, [0, 1, 2, 5, 0, 0]);
}

#[test]
fn texts() {
    for (text, own) in [("1e+5", "100000"), (".5", "0.5"), ("1.20e1", "12.0"), ("-00.0", "-00.0"), ("+1", "+1")] {
        assert_eq!(decimal(text).as_str(), own);
    }
    for text in ["", "-", "+-5", "0.012.3400", "5.", "123_456", "1e", "1e--5", " 1", "½"] {
        assert_eq!(Decimal::try_from_str(text), Err(ParseError::Syntax), "{text}");
    }
    for text in ["1e99999", "1.5e-32768", &"0".repeat(32769)] {
        assert_eq!(Decimal::try_from_str(text), Err(ParseError::Limit), "{text}");
    }
    assert_eq!(Decimal::try_from_utf8(b"1\xff"), Err(ParseError::Syntax));
    assert_eq!(Decimal::default(), decimal("0"));
}

/// The texts that `f64` has for the same number and format, where its text is the decimal's.
#[test]
fn formats() {
    for (text, n) in
        [("2.5", 2.5), ("-2.5", -2.5), ("0.125", 0.125), ("-0.375", -0.375), ("1234.5", 1234.5), ("9.75", 9.75)]
    {
        let d = decimal(text);
        assert_eq!(format!("{d}|{d:+}|{d:9}|{d:+9}"), format!("{n}|{n:+}|{n:9}|{n:+9}"));
        assert_eq!(format!("{d:<9}|{d:>9}|{d:^9}"), format!("{n:<9}|{n:>9}|{n:^9}"));
        assert_eq!(format!("{d:*<9}|{d:é>+9}|{d:09}"), format!("{n:*<9}|{n:é>+9}|{n:09}"));
        assert_eq!(format!("{d:+09}|{d:1}|{d:^8}"), format!("{n:+09}|{n:1}|{n:^8}"));
        for p in 0..5 {
            assert_eq!(format!("{d:.p$}|{d:+.p$}|{d:10.p$}"), format!("{n:.p$}|{n:+.p$}|{n:10.p$}"));
            assert_eq!(format!("{d:<+10.p$}|{d:^10.p$}|{d:010.p$}"), format!("{n:<+10.p$}|{n:^10.p$}|{n:010.p$}"));
        }
    }
    let d = decimal("-2.50");
    assert_eq!(format!("{d}|{d:>7}|{d:*<7}|{d:.1}|{d:?}"), "-2.50|  -2.50|-2.50**|-2.5|Decimal(-2.50)");
    let d = decimal("+7");
    assert_eq!(format!("{d}|{d:+}|{d:.1}|{d:5}|{d:05}"), "+7|+7|+7.0|   +7|+0007");
    assert_eq!(format!("{:.0}|{:.0}|{:+.1}", decimal("0.5"), decimal("1.5"), decimal("-0.04")), "0|2|-0.0");
    assert_eq!(format!("{:+}|{:+}", decimal("0"), decimal("-0")), "+0|-0");
}

#[test]
fn formats_that_fail() {
    use std::fmt::Write;
    let mut text = String::new();
    let nines = decimal(&format!("{}.9", "9".repeat(32768)));
    assert!(write!(text, "{nines:.0}").is_err());
    assert!(write!(text, "{nines:>60000.0}").is_err());
    assert!(write!(text, "{:.32769}", decimal("1")).is_err());
    assert_eq!(text, "");
    assert!(write!(text, "{:.32768}", decimal("1")).is_ok());
    assert_eq!(text, format!("1.{}", "0".repeat(32768)));
}

#[test]
fn equality_and_order() {
    assert_ne!(decimal("1.0"), decimal("1"));
    assert_ne!(decimal("-0"), decimal("0"));
    for (left, right, order) in [
        ("1.0", "1", Ordering::Equal),
        ("-0", "0", Ordering::Equal),
        ("-2", "1", Ordering::Less),
        ("1e100", "99", Ordering::Greater),
    ] {
        assert_eq!(decimal(left).compare(&decimal(right)), order, "{left} {right}");
    }
}

#[test]
fn integers() {
    assert_eq!(Decimal::from(i128::MIN).as_str(), "-170141183460469231731687303715884105728");
    assert_eq!(i128::try_from(&Decimal::from(i128::MIN)), Ok(i128::MIN));
    assert_eq!(u64::try_from(&decimal("0018446744073709551615.00")), Ok(u64::MAX));
    assert_eq!(u8::try_from(&decimal("-0")), Ok(0));
    assert_eq!(i8::try_from(&decimal("+127")), Ok(127));
    assert_eq!(i8::try_from(&decimal("128")), Err(IntegerError::OutOfRange));
    assert_eq!(u8::try_from(&decimal("-1.0")), Err(IntegerError::OutOfRange));
    assert_eq!(i64::try_from(&decimal("1.5")), Err(IntegerError::NotWhole));
}

#[test]
fn locales() {
    for (locale, text, written) in [
        ("en-IN", "1234567.50", "12,34,567.50"),
        ("de-CH", "-1234.5", "-1’234.5"),
        ("ar-EG", "12345", "١٢٬٣٤٥"),
        ("hi-u-nu-deva", "1.5", "१.५"),
        ("fr", "1234.5", "1\u{202f}234,5"),
    ] {
        let value = decimal(text);
        let found = value.format(locale).map(|found| found.replace('\'', "’"));
        assert_eq!(found.as_deref(), Ok(written), "{locale}");
        assert_eq!(Decimal::read(locale, &value.format(locale).unwrap()), Ok(value), "{locale}");
    }
    assert_eq!(Decimal::read("de", "1,234.5"), Err(ReadError::Text(ParseError::Syntax)));
    assert_eq!(Decimal::read("de", &"1".repeat(32769)), Err(ReadError::Text(ParseError::Limit)));
    for locale in ["", "tlh", "en-u-nu-xxxx"] {
        assert_eq!(Decimal::read_lenient(locale, "1"), Err(ReadError::UnknownLocale));
        assert_eq!(Decimal::from(1).format(locale), Err(UnknownLocale));
    }
}

/// Texts of ICU, and each error.
#[test]
fn skeletons() {
    for (locale, skeleton, text, written) in [
        ("de", "currency/USD", "-1234.5", "-1.234,50\u{a0}$"),
        ("es", "KK", "-1234.5", "-1,2 mil"),
        ("is", "scientific", "1500", "1,5E3"),
        ("uk", "percent", "5300000", "5\u{a0}300\u{a0}000%"),
        ("en", "%x100 sign-never numbering-system/arabext", "-3.5", "۳۵۰٪"),
        ("hi", "precision-increment/0.25 group-thousands permille sign-negative", "1000", "1,000.00‰"),
        ("cs", "integer-width-trunc", "-2.5", "-,5"),
    ] {
        assert_eq!(decimal(text).format_number(locale, skeleton).as_deref(), Ok(written), "{locale} {skeleton}");
    }
    for (text, locale, skeleton, error) in [
        ("1", "tlh", "percent/w", NumberFormatError::SkeletonSyntax(7)),
        ("1", "tlh", ".00 rounding-mode-half-odd", NumberFormatError::SkeletonUnsupported(4)),
        ("1e32767", "tlh", "scale/100", NumberFormatError::UnknownLocale),
        ("1e32767", "en", "scale/100", NumberFormatError::Limit),
    ] {
        assert_eq!(decimal(text).format_number(locale, skeleton), Err(error), "{locale} {skeleton}");
    }
}

/// Texts of ICU, read, and each error.
#[test]
fn numbers_are_read() {
    for (locale, skeleton, text, own) in [
        ("de", "currency/EUR", "-1.234,50\u{a0}€", "-1234.50"),
        ("en", "%x100 .0#", "12.5%", "0.125"),
        ("en", "currency/USD sign-accounting", "($1,234.50)", "-1234.50"),
        ("de", "scientific", "-1,25E3", "-1250"),
        ("hi-u-nu-deva", "currency/INR", "₹१२,३४,५६७.५०", "1234567.50"),
    ] {
        assert_eq!(Decimal::read_number(locale, skeleton, text), Ok(decimal(own)), "{locale} {skeleton}");
        assert_eq!(Decimal::read_number_lenient(locale, skeleton, text), Ok(decimal(own)), "{locale} {skeleton}");
    }
    assert_eq!(Decimal::read_number_lenient("de", "currency/EUR", "1.234,5 EUR"), Ok(decimal("1234.5")));
    for (locale, skeleton, text, error) in [
        ("de", "percent/w", "x", NumberReadError::Format(NumberFormatError::SkeletonSyntax(7))),
        ("tlh", "percent", "x", NumberReadError::Format(NumberFormatError::UnknownLocale)),
        ("de", "scientific", "12E3", NumberReadError::Text(ParseError::Syntax)),
        ("de", "scientific/sign-never", "x", NumberReadError::Unreadable),
        ("de", "percent", "x", NumberReadError::Text(ParseError::Syntax)),
    ] {
        assert_eq!(Decimal::read_number(locale, skeleton, text), Err(error), "{locale} {skeleton}");
    }
}

fn currency(code: &str) -> Options {
    Options::currency(code.parse().unwrap())
}

fn unit(name: &str) -> Options {
    Options::unit(name.parse().unwrap())
}

/// Texts of `Intl.NumberFormat` in node 20 (CLDR 48), and of ICU where the option is its own.
#[test]
fn number_formats() {
    let deva: NumberingSystem = "deva".parse().unwrap();
    let plain = Options::default();
    for (locale, options, text, written) in [
        ("en", plain, "-1234.5678", "-1,234.568"),
        ("de", currency("EUR"), "1234567.5", "1.234.567,50\u{a0}€"),
        ("en", currency("USD").with_currency_sign(CurrencySign::Accounting), "-5", "($5.00)"),
        ("en-CA", currency("USD").with_currency_display(CurrencyDisplay::Narrow), "5", "$5.00"),
        ("en", currency("USD").with_currency_display(CurrencyDisplay::Code), "5", "USD\u{a0}5.00"),
        ("en", currency("USD").with_currency_display(CurrencyDisplay::Hidden), "12.345", "12.35"),
        ("en", currency("CHF").with_currency_usage(CurrencyUsage::Cash), "1.03", "CHF\u{a0}1.05"),
        ("de", currency("EUR").with_maximum_fraction_digits(0), "1234567.5", "1.234.568\u{a0}€"),
        ("fr", Options::percent().with_maximum_fraction_digits(1), "0.125", "12,5\u{a0}%"),
        ("en", Options::permille(), "1234567", "1,234,567‰"),
        ("en", Options::compact(CompactLength::Long), "1234567", "1.2 million"),
        ("en", Options::compact(CompactLength::Short), "12345", "12K"),
        ("en", currency("USD").with_compact_notation(CompactLength::Short), "1234567", "$1.2M"),
        ("en", Options::scientific(), "1500", "1.5E3"),
        ("en", Options::engineering(), "15000", "15E3"),
        ("hi", plain.with_numbering_system(deva), "1234567.891", "१२,३४,५६७.८९१"),
        ("en", plain.with_sign_display(SignDisplay::ExceptZero), "-0.0001", "0"),
        ("en", plain.with_sign_display(SignDisplay::Always), "5", "+5"),
        ("de", plain.with_grouping(GroupingStrategy::Never), "1234567", "1234567"),
        ("es", plain.with_grouping(GroupingStrategy::Always), "1234", "1.234"),
        ("en", plain.with_rounding_mode(Floor).with_maximum_fraction_digits(0), "-1.5", "-2"),
        ("en", plain.with_minimum_integer_digits(3), "5", "005"),
        ("en", plain.with_minimum_significant_digits(3), "5", "5.00"),
        ("en", plain.with_maximum_significant_digits(2), "12345", "12,000"),
        ("en", plain.with_scale(2), "5", "500"),
        ("en", plain.with_decimal_separator(DecimalSeparatorDisplay::Always), "5", "5."),
        ("en", currency("USD").with_currency_display(CurrencyDisplay::Name), "42", "42.00 US dollars"),
        ("ja", currency("INR").with_currency_display(CurrencyDisplay::Name), "5000", "5,000.00インド ルピー"),
        ("en", unit("mile-per-gallon"), "1234567.891", "1,234,567.891 mpg"),
        ("en", unit("celsius-per-stone"), "1.0", "1°C/st"),
        ("fr", unit("hectare").with_unit_display(UnitDisplay::Narrow), "20", "20ha"),
        ("pl", unit("day").with_unit_display(UnitDisplay::Long), "3", "3 dni"),
        ("ar", unit("hour-per-byte").with_unit_display(UnitDisplay::Long), "-1", "ساعة لكل بايت"),
        (
            "fr",
            unit("gallon").with_unit_display(UnitDisplay::Long).with_engineering_notation(),
            "1.01",
            "1,01E0 gallon",
        ),
    ] {
        let format = NumberFormat::new(locale, &options).unwrap();
        assert_eq!(format.format(&decimal(text)).unwrap().as_str(), written, "{locale} {options:?}");
        assert_eq!(format.parts(&decimal(text)).unwrap().as_str(), written, "{locale} {options:?}");
    }
    let two = plain.with_minimum_fraction_digits(2);
    let quarters = two.with_maximum_fraction_digits(2).with_rounding_increment(25);
    let both = plain.with_maximum_significant_digits(2).with_maximum_fraction_digits(1);
    for (options, text, written) in [
        (quarters, "1.13", "1.25"),
        (two.with_trailing_zeros(TrailingZeroDisplay::StripIfInteger), "5.00", "5"),
        (both.with_rounding_priority(RoundingPriority::MorePrecision), "123.456", "123.5"),
        (both.with_rounding_priority(RoundingPriority::LessPrecision), "123.456", "120"),
    ] {
        let format = NumberFormat::new("en", &options).unwrap();
        assert_eq!(format.format(&decimal(text)).unwrap().to_string(), written, "{options:?}");
    }
}

#[test]
fn texts_of_number_formats() {
    let euros = NumberFormat::new("de", &currency("EUR")).unwrap();
    let text = euros.format(&decimal("5")).unwrap();
    assert_eq!(
        format!("{text}|{text:7}|{text:<7}|{text:^8}|{text:*>7.1}"),
        "5,00\u{a0}€| 5,00\u{a0}€|5,00\u{a0}€ | 5,00\u{a0}€ |*5,00\u{a0}€"
    );
    assert_eq!(format!("{text:?}"), "FormattedNumber(5,00\u{a0}€)");
    for count in [100, 119, 120, 121, 122, 126, 127, 200, 32768] {
        let digits = "7".repeat(count);
        let plain = NumberFormat::new("de", &Options::default().with_grouping(GroupingStrategy::Never)).unwrap();
        assert_eq!(plain.format(&decimal(&digits)).unwrap().as_str(), digits);
        let grouped = euros.format(&decimal(&digits)).unwrap();
        assert_eq!(euros.parts(&decimal(&digits)).unwrap().as_str(), grouped.as_str());
        assert_eq!(euros.read(grouped.as_str()).unwrap().compare(&decimal(&digits)), Ordering::Equal);
    }
}

/// The parts of `formatToParts` in node 20.
#[test]
fn parts() {
    use PartKind::{Currency, Decimal, Fraction, Group, Integer, Literal, MinusSign};
    let euros = NumberFormat::new("de", &currency("EUR")).unwrap();
    let parts = euros.parts(&decimal("-1234567.5")).unwrap();
    let found: Vec<_> = parts.iter().collect();
    let expected = [
        (MinusSign, "-"),
        (Integer, "1"),
        (Group, "."),
        (Integer, "234"),
        (Group, "."),
        (Integer, "567"),
        (Decimal, ","),
        (Fraction, "50"),
        (Literal, "\u{a0}"),
        (Currency, "€"),
    ];
    assert_eq!(found, expected);
    let scientific = NumberFormat::new("en", &Options::scientific()).unwrap();
    let parts = scientific.parts(&decimal("0.00012345")).unwrap();
    let kinds: Vec<_> = parts.iter().map(|(kind, _)| kind).collect();
    let exponent = [PartKind::ExponentSeparator, PartKind::ExponentMinusSign, PartKind::ExponentInteger];
    assert_eq!(kinds, [&[Integer, Decimal, Fraction], &exponent[..]].concat());
}

#[test]
/// Rows of `formatRange`, `formatRangeToParts` and `selectRange` in node 20.
fn ranges() {
    use PartKind::{Currency, Decimal, Fraction, Integer, Literal};
    use RangeSource::{EndRange, Shared, StartRange};
    for (locale, options, start, end, written) in [
        ("de", currency("EUR"), "1", "2.5", "1,00–2,50\u{a0}€"),
        ("en", currency("USD"), "1", "2", "$1.00 – $2.00"),
        ("en", currency("USD"), "1", "1.001", "~$1.00"),
        ("en", Options::percent(), "1", "2", "100% – 200%"),
        ("en", Options::compact(CompactLength::Short), "1000", "2000000", "1K – 2M"),
        ("ja", Options::default(), "-5", "3", "-5 ～ 3"),
        ("ru", unit("day").with_unit_display(UnitDisplay::Long), "5", "1", "5–1 день"),
    ] {
        let format = NumberFormat::new(locale, &options).unwrap();
        let (start, end) = (decimal(start), decimal(end));
        assert_eq!(format.format_range(&start, &end).unwrap().as_str(), written, "{locale} {options:?}");
        assert_eq!(format.range_parts(&start, &end).unwrap().as_str(), written, "{locale} {options:?}");
    }
    let euros = NumberFormat::new("de", &currency("EUR")).unwrap();
    let parts = euros.range_parts(&decimal("1"), &decimal("2.5")).unwrap();
    let found: Vec<_> = parts.iter().collect();
    let expected = [
        (Integer, StartRange, "1"),
        (Decimal, StartRange, ","),
        (Fraction, StartRange, "00"),
        (Literal, Shared, "–"),
        (Integer, EndRange, "2"),
        (Decimal, EndRange, ","),
        (Fraction, EndRange, "50"),
        (Literal, Shared, "\u{a0}"),
        (Currency, Shared, "€"),
    ];
    assert_eq!(found, expected);
    let about = euros.range_parts(&decimal("1"), &decimal("1")).unwrap();
    assert_eq!(about.iter().next(), Some((PartKind::ApproximatelySign, Shared, "≈")));
    let long = decimal(&"7".repeat(300));
    let parts = euros.range_parts(&long, &long).unwrap();
    assert_eq!(parts.as_str().len(), euros.format(&long).unwrap().as_str().len() + 3);
    let scaled = NumberFormat::by_skeleton("en", "scale/100").unwrap();
    let (one, greatest) = (decimal("1"), decimal("1e32767"));
    assert_eq!(scaled.format_range(&one, &greatest).unwrap_err(), LimitError);
    assert_eq!(scaled.range_parts(&greatest, &one).unwrap_err(), LimitError);
    let category = PluralCategory::of_range("ru", PluralCategory::One, PluralCategory::Many);
    assert_eq!(category, Ok(PluralCategory::Many));
    assert_eq!(PluralCategory::of_range("tlh", PluralCategory::One, PluralCategory::One), Err(UnknownLocale));
}

#[test]
fn errors_of_number_formats() {
    use DigitOptionsError::{
        FractionDigits, Increment, IncrementDigits, IncrementPrecision, IntegerDigits, SignificantDigits,
    };
    let plain = Options::default();
    for (options, error) in [
        (plain.with_minimum_integer_digits(22), IntegerDigits),
        (plain.with_minimum_integer_digits(65535), IntegerDigits),
        (plain.with_rounding_increment(3), Increment),
        (plain.with_maximum_significant_digits(22), SignificantDigits),
        (plain.with_minimum_fraction_digits(3).with_maximum_fraction_digits(2), FractionDigits),
        (plain.with_rounding_increment(5).with_maximum_significant_digits(2), IncrementPrecision),
        (plain.with_rounding_increment(5).with_maximum_fraction_digits(2), IncrementDigits),
    ] {
        let found = NumberFormat::new("tlh", &options).unwrap_err();
        assert_eq!(found, NumberFormatError::Digits(error), "{options:?}");
    }
    let roman = plain.with_numbering_system("roman".parse().unwrap());
    for (locale, options, error) in [
        ("tlh", roman, NumberFormatError::UnknownLocale),
        ("", plain, NumberFormatError::UnknownLocale),
        ("en", roman, NumberFormatError::UnknownNumberingSystem),
    ] {
        assert_eq!(NumberFormat::new(locale, &options).unwrap_err(), error);
    }
    let scaled = NumberFormat::new("en", &Options::percent()).unwrap();
    assert_eq!(scaled.format(&decimal("1e32767")).unwrap_err(), LimitError);
    assert_eq!(scaled.parts(&decimal("1e32767")).unwrap_err(), LimitError);
    let compact = NumberFormat::new("en", &Options::compact(CompactLength::Short)).unwrap();
    assert_eq!(compact.read("1.25M"), Ok(decimal("1250000")));
    assert_eq!(compact.read("1250K"), Err(NumberReadError::Text(ParseError::Syntax)));
    assert_eq!(compact.read_lenient("1250K"), Ok(decimal("1250000")));
    let words = NumberFormat::new("fr", &Options::compact(CompactLength::Long)).unwrap();
    assert_eq!(words.read("mille"), Ok(decimal("1000")));
    let words = NumberFormat::new("it", &Options::compact(CompactLength::Long)).unwrap();
    assert_eq!(words.read("-mille"), Ok(decimal("-1000")));
    let words = NumberFormat::new("vec", &Options::compact(CompactLength::Short)).unwrap();
    assert_eq!(words.read("1"), Err(NumberReadError::Unreadable));
    assert_eq!(scaled.read("5"), Err(NumberReadError::Text(ParseError::Syntax)));
    assert_eq!(scaled.read_lenient("5"), Ok(decimal("0.05")));
    assert_eq!(scaled.read(&format!("{}%", "1".repeat(32769))), Err(NumberReadError::Text(ParseError::Limit)));
    for code in ["", "EU", "EURO", "E1R", "é!"] {
        assert_eq!(CurrencyCode::try_from_str(code), Err(NameError), "{code}");
    }
    for name in ["", "la", "latinlatin", "la n", "Latn", "latn\0", "lätn"] {
        assert_eq!(NumberingSystem::try_from_str(name), Err(NameError), "{name}");
    }
    for name in ["", "foo", "Meter", "furlong", "meter-per-foo", "meter-per-square-second", "meter per second"] {
        assert_eq!(Unit::try_from_str(name), Err(NameError), "{name}");
    }
    for name in ["meter", "kilometer-per-hour", "gram-per-second"] {
        assert_eq!(Unit::try_from_str(name).unwrap().to_string(), name);
        assert_eq!(format!("{:?}", Unit::try_from_str(name).unwrap()), name);
    }
    let speed = NumberFormat::new("en", &unit("kilometer-per-hour")).unwrap();
    assert_eq!(speed.read("5 km/h"), Ok(decimal("5")));
    let days = NumberFormat::new("ar", &unit("day").with_unit_display(UnitDisplay::Long)).unwrap();
    assert_eq!(days.read("5"), Err(NumberReadError::Unreadable));
    let parts = NumberFormat::new("en", &unit("celsius")).unwrap().parts(&decimal("5")).unwrap();
    assert_eq!(parts.iter().collect::<Vec<_>>(), [(PartKind::Integer, "5"), (PartKind::Unit, "°C")]);
    assert_ne!(plain.with_numbering_system("arab".parse().unwrap()), plain);
}

/// One format in four threads; each type is `Send` and `Sync`.
#[test]
fn shared_number_format() {
    fn is_shared<T: Send + Sync + 'static>() {}
    is_shared::<NumberFormat>();
    is_shared::<Options>();
    is_shared::<FormattedNumber>();
    is_shared::<NumberParts>();
    is_shared::<RangeParts>();
    let euros = NumberFormat::new("en", &currency("EUR")).unwrap();
    std::thread::scope(|scope| {
        for _ in 0..4 {
            scope.spawn(|| {
                for integer in 0..1000 {
                    let text = euros.format(&Decimal::from(integer)).unwrap();
                    assert_eq!(text.as_str(), format!("€{integer}.00"));
                }
            });
        }
    });
}

#[test]
fn plural_rules() {
    let rules = "one: n = 1; few: n = 2..4";
    for (text, category) in [("1", PluralCategory::One), ("3", PluralCategory::Few), ("1.5", PluralCategory::Other)] {
        assert_eq!(decimal(text).category(rules), Ok(category), "{text}");
    }
    for (locale, text, category) in [
        ("ru", "2", PluralCategory::Few),
        ("en", "1.0", PluralCategory::Other),
        ("ar", "0", PluralCategory::Zero),
        ("pl", "5", PluralCategory::Many),
    ] {
        assert_eq!(decimal(text).plural(locale), Ok(category), "{locale} {text}");
    }
    assert_eq!(decimal("3").plural_ordinal("en_GB.UTF-8"), Ok(PluralCategory::Few));
    assert_eq!(decimal("1").plural_ordinal("tlh"), Err(UnknownLocale));
    assert_eq!(decimal("1").category("one n = 1"), Err(RulesError::Syntax(4)));
    assert_eq!(decimal("1").category("one: n = 99999999999999999999"), Err(RulesError::Limit(9)));
}

#[test]
fn limits() {
    let most = format!("{0}.{0}", "9".repeat(32768));
    let mut value = decimal(&most);
    assert_eq!(value.magnitude_range(), -32768..=32767);
    assert_eq!(value.round(-1), Err(LimitError));
    assert_eq!(value.multiply_pow10(1), Err(LimitError));
    assert_eq!(value.as_str(), most);
    value.trunc(-32767);
    assert_eq!(value.as_str(), &most[..most.len() - 1]);
    let error: Box<dyn Error> = LimitError.into();
    assert_eq!(error.to_string(), "beyond the limits of a decimal");
}

#[test]
fn four_threads() {
    std::thread::scope(|scope| {
        for start in 0..4i64 {
            scope.spawn(move || {
                for integer in (start..40_000).step_by(4) {
                    let rounded = Decimal::from(integer).multiplied_pow10(-2).unwrap().rounded(0).unwrap();
                    let expected = (integer + 49 + (integer / 100) % 2) / 100;
                    assert_eq!(i64::try_from(&rounded), Ok(expected), "{integer}");
                }
            });
        }
    });
}
