//! The tables of plural rules, beside ICU's.

use crate::shared::{Operation, ROUNDS};
use crate::table::{time, Case, Outcome};
use std::ffi::{c_char, c_int, c_void, CStr};
use std::hint::black_box;
use std::ptr::null_mut;
use std::time::Instant;

extern "C" {
    fn icu_rules_open(locale: *const c_char) -> *const c_void;
    fn icu_number_open(text: *const c_char, length: c_int) -> *const c_void;
    fn icu_select_double(rules: *const c_void, number: f64, room: *mut c_char) -> c_int;
    fn icu_select_int32(rules: *const c_void, number: i32, room: *mut c_char) -> c_int;
    fn icu_select_formatted(rules: *const c_void, number: *const c_void, room: *mut c_char) -> c_int;
}

/// Locales, and their rules of cardinal numbers, as CLDR writes them.
const RULES: [(&CStr, &str); 4] = [
    (c"en", "one: i = 1 and v = 0; other:"),
    (
        c"ru",
        "one: v = 0 and i % 10 = 1 and i % 100 != 11; few: v = 0 and i % 10 = 2..4 and i % 100 != 12..14; \
         many: v = 0 and i % 10 = 0 or v = 0 and i % 10 = 5..9 or v = 0 and i % 100 = 11..14; other:",
    ),
    (c"ar", "zero: n = 0; one: n = 1; two: n = 2; few: n % 100 = 3..10; many: n % 100 = 11..99; other:"),
    (c"cy", "zero: n = 0; one: n = 1; two: n = 2; few: n = 3; many: n = 6; other:"),
];

const NUMBERS: [&str; 4] = ["1", "1.5", "1000000", "12345678901234567890.5"];

/// The number of values of a batch.
const COPIES: usize = 16;

const CALLS: usize = COPIES * ROUNDS;

/// The calls of ICU.
#[derive(Clone, Copy)]
enum Way {
    Double,
    Int32,
    Formatted,
}

const WAYS: [(Way, &str); 3] = [(Way::Double, "double"), (Way::Int32, "int32"), (Way::Formatted, "formatted number")];

/// A locale's rules in ICU, and a number in ICU's forms.
struct Icu {
    rules: *const c_void,
    formatted: *const c_void,
    double: f64,
    int32: Option<i32>,
}

impl Icu {
    fn new(locale: &CStr, text: &str) -> Self {
        // Both are kept until the process ends.
        let rules = unsafe { icu_rules_open(locale.as_ptr()) };
        let formatted = unsafe { icu_number_open(text.as_ptr().cast(), text.len() as c_int) };
        assert!(!rules.is_null() && !formatted.is_null(), "ICU opens");
        Icu { rules, formatted, double: text.parse().expect("a number"), int32: text.parse().ok() }
    }

    /// Writes the number's category if there is room, and returns its length; `None` if the number has no such form.
    #[inline(always)]
    fn select(&self, way: Way, room: *mut c_char) -> Option<c_int> {
        // The rules and the number are live, and the room has 8 bytes or is null.
        unsafe {
            Some(match way {
                Way::Double => icu_select_double(self.rules, black_box(self.double), room),
                Way::Int32 => icu_select_int32(self.rules, black_box(self.int32?), room),
                Way::Formatted => icu_select_formatted(self.rules, black_box(self.formatted), room),
            })
        }
    }

    fn category(&self, way: Way) -> Option<String> {
        let mut room = [0_u8; 8];
        let length = self.select(way, room.as_mut_ptr().cast())?;
        Some(String::from_utf8_lossy(&room[..length as usize]).into_owned())
    }

    /// Returns the nanoseconds of a call, on average over a batch.
    fn time(&self, way: Way) -> Option<f64> {
        self.select(way, null_mut())?;
        let start = Instant::now();
        for _ in 0..CALLS {
            black_box(self.select(way, null_mut()));
        }
        Some(start.elapsed().as_nanos() as f64 / CALLS as f64)
    }
}

fn case(operation: Operation, text: &str, rules: &str) -> Case {
    Case { operation, text: text.to_owned(), other: rules.to_owned(), position: 0, copies: COPIES }
}

/// Returns the nanoseconds of a call here, on average over a batch.
fn time_here(case: &Case) -> f64 {
    time(case, &mut Outcome::new(case)) as f64 / CALLS as f64
}

/// Returns the category of a number by the library.
fn category(case: &Case) -> String {
    let mut outcome = Outcome::new(case);
    time(case, &mut outcome);
    let length = outcome.answer.iter().position(|byte| *byte == 0).unwrap_or(0);
    String::from_utf8_lossy(&outcome.answer[..length]).into_owned()
}

/// Returns the least times of one locale and number: here, and in each call of ICU.
fn cell(locale: &CStr, rules: &str, text: &str, passes: usize) -> (f64, [Option<f64>; 3]) {
    let (case, icu) = (case(Operation::Category, text, rules), Icu::new(locale, text));
    let (mut here, mut there) = (f64::MAX, [None; 3]);
    for _ in 0..passes * 10 {
        here = here.min(time_here(&case));
        for (least, (way, _)) in there.iter_mut().zip(WAYS) {
            *least = icu.time(way).map(|took| took.min(least.unwrap_or(f64::MAX)));
        }
    }
    (here, there)
}

/// Prints the time here over the time there, by locale, call and number, and the nanoseconds here.
pub fn print(passes: usize) {
    println!("| |{}", NUMBERS.map(|text| format!(" `{text}` |")).concat());
    println!("|---|{}", "---|".repeat(NUMBERS.len()));
    for (locale, rules) in RULES {
        let cells = NUMBERS.map(|text| cell(locale, rules, text, passes));
        let locale = locale.to_string_lossy();
        for (place, (_, way)) in WAYS.into_iter().enumerate() {
            let ratio = |(here, there): &(f64, [Option<f64>; 3])| {
                there[place].map_or(" |".to_owned(), |there| format!(" {:.2} |", here / there))
            };
            println!("| {locale}, {way} |{}", cells.iter().map(ratio).collect::<String>());
        }
        let here: String = cells.iter().map(|(here, _)| format!(" {here:.0} |")).collect();
        println!("| {locale}, nanoseconds here |{here}");
    }
}

/// Prints where ICU returns another category.
pub fn print_differences() {
    println!("| Locale | Number | Way | Here | ICU |");
    println!("|---|---|---|---|---|");
    for (locale, rules) in RULES {
        for text in NUMBERS {
            let (here, icu) = (category(&case(Operation::Category, text, rules)), Icu::new(locale, text));
            for (way, name) in WAYS {
                if let Some(there) = icu.category(way).filter(|there| *there != here) {
                    println!("| {} | `{text}` | {name} | {here} | {there} |", locale.to_string_lossy());
                }
            }
        }
    }
}

/// Prints the time of `i % 100` of a short number and of one of 65,536 digits.
pub fn print_remainders(passes: usize) {
    let long = format!("{}.{}", "7".repeat(1 << 15), "3".repeat(1 << 15));
    let rules = "one: i % 100 = 77; other:";
    println!("| nanoseconds | 2 digits | 65,536 digits |");
    println!("|---|---|---|");
    for (operation, name) in [(Operation::Remainder, "`i_modulo(100)`"), (Operation::Category, "`i % 100 = 77`")] {
        let cases = ["77", &long].map(|text| case(operation, text, rules));
        let mut least = [f64::MAX; 2];
        for _ in 0..passes * 10 {
            for (least, case) in least.iter_mut().zip(&cases) {
                *least = least.min(time_here(case));
            }
        }
        println!("| {name} | {:.1} | {:.1} |", least[0], least[1]);
    }
}
