//! Times calls of the Rust crate beside those of the C library that they make: nanoseconds, and their ratio.
use fixed_decimal_proved::{CompactLength, Decimal, NumberFormat, Options};
use std::fmt::Write;
use std::hint::black_box;
use std::time::Instant;

#[repr(C)]
struct FdResult {
    status: u32,
    at: usize,
    count: usize,
}

#[repr(C)]
struct FdCall {
    kind: u8,
    option: u8,
    increment: u8,
    position: i16,
    text_start: usize,
    text_count: usize,
}

/// An `fd_formatter`: 152 bytes.
type FdFormatter = [u64; 19];

#[repr(C)]
struct FdMade {
    status: u32,
    at: usize,
    formatter: FdFormatter,
}

extern "C" {
    fn fd_version() -> u32;
    fn fd_formatter_by_options(tag: *const u8, tag_count: usize, options: *const Options) -> FdMade;
    #[rustfmt::skip]
    fn fd_format(
        formatter: *const FdFormatter, text: *const u8, count: usize, buffer: *mut u8, capacity: usize,
    ) -> FdResult;
    #[rustfmt::skip]
    fn fd_run(
        start: *const u8, start_count: usize, calls: *const FdCall, call_count: usize,
        texts: *const u8, texts_count: usize, buffer: *mut u8, capacity: usize,
    ) -> FdResult;
}

const ROUND: FdCall = FdCall { kind: 7, option: 8, increment: 1, position: -2, text_start: 0, text_count: 0 };

/// The least time of a call on one of a thousand values, of many batches; the values are made before the clock starts.
fn least<T>(values: impl Fn() -> Vec<T>, mut call: impl FnMut(&mut T)) -> f64 {
    let mut batch = || {
        let mut values = values();
        let start = Instant::now();
        values.iter_mut().for_each(&mut call);
        start.elapsed().as_nanos() as f64 / values.len() as f64
    };
    (0..300).map(|_| batch()).fold(f64::MAX, f64::min)
}

/// The time of a format, also into a `fmt::Write`, beside that of `fd_format` into a buffer.
fn format_row(name: &str, locale: &str, options: &Options) {
    let value: Decimal = "1234.5".parse().expect("a decimal");
    // SAFETY: the pointers are those of a slice of the length beside it, and of a struct as the library has it.
    let made = unsafe { fd_formatter_by_options(locale.as_ptr(), locale.len(), options) };
    assert_eq!((made.status, made.at), (0, 0));
    let mut buffer = [0u8; 126];
    let there = least(|| vec![value.clone(); 1000], |value| {
        let text = value.as_str();
        // SAFETY: as above, and the buffer has the capacity.
        let answer =
            unsafe { fd_format(&made.formatter, text.as_ptr(), text.len(), buffer.as_mut_ptr(), buffer.len()) };
        black_box((answer.status, answer.at, answer.count));
    });
    let format = NumberFormat::new(locale, options).expect("a format");
    let here = least(|| vec![value.clone(); 1000], |value| {
        black_box(format.format(value).expect("within the limits"));
    });
    let mut line = String::new();
    let written = least(|| vec![value.clone(); 1000], |value| {
        line.clear();
        write!(line, "{}", format.format(value).expect("within the limits")).expect("a String takes it");
    });
    println!("|{name}, {locale}|{here:.0}|{written:.0}|{there:.0}|{:.2}|", here / there);
}

fn main() {
    // SAFETY: the function takes nothing.
    assert_eq!(unsafe { fd_version() }, 8, "the structs are those of the library");
    println!("|`NumberFormat::format` of 1234.5|crate, ns|and `write!`, ns|fd_format, ns|ratio|");
    println!("|---|---|---|---|---|");
    for locale in ["en", "de", "hi", "ar-EG", "ja"] {
        format_row("currency", locale, &Options::currency("EUR".parse().expect("a code")));
        format_row("percent", locale, &Options::percent());
        format_row("compact", locale, &Options::compact(CompactLength::Short));
    }
    println!("\n|Round|crate, ns|fd_run, ns|ratio|\n|---|---|---|---|");
    for text in ["1234.5678", "1234567890123.456789", &format!("{0}.{0}", "1234567890".repeat(5))] {
        let value: Decimal = text.parse().expect("a decimal");
        let mut buffer = [0u8; 256];
        let there = least(|| vec![text.to_owned(); 1000], |text| {
            // SAFETY: each pointer is that of a place of the size beside it.
            let answer = unsafe {
                let (start, buffer) = (text.as_str(), &mut buffer);
                fd_run(start.as_ptr(), start.len(), &ROUND, 1, start.as_ptr(), 0, buffer.as_mut_ptr(), buffer.len())
            };
            black_box((answer.status, answer.at, answer.count));
        });
        let here = least(|| vec![value.clone(); 1000], |value| value.round(-2).expect("within the limits"));
        println!("|{} digits|{here:.0}|{there:.0}|{:.2}|", text.len() - 1, here / there);
    }
}
