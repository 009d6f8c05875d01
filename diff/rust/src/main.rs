//! Compares the library, the original and the reference until a time is over.
//!
//!     diff FIXDEC SECONDS THREADS SEED
//!
//! Status 0: no difference was found but the listed ones.

mod cases;
mod compare;
mod counts;
mod host;
mod library;
mod memory;
mod names;
mod original;
mod program;
mod reference;
#[allow(dead_code)]
mod shared;

use cases::{case, full_case, neighbour, text_of_kind, Case, Dice, Region, INCREMENTS, MODES};
use compare::Comparison;
use counts::Counts;
use reference::Call;
use shared::{Kind, KINDS};
use std::path::PathBuf;
use std::process::ExitCode;
use std::time::{Duration, Instant};

/// A family of cases; the families take turns, each with its part of the time.
#[derive(Clone, Copy)]
enum Family {
    EveryText,
    EveryRounding,
    Calls(&'static str, Region),
    Texts(&'static str, Region),
    Pairs(Region),
    Parts(Region),
    Integers,
    NarrowSinks(Region),
    RefusedMemory(Region),
    Program(Region),
}

const FAMILIES: [(Family, u64); 20] = [
    (Family::EveryText, 12),
    (Family::EveryRounding, 12),
    (Family::Calls("calls, short", Region::Short), 12),
    (Family::Calls("calls, at the limits", Region::Ends), 8),
    (Family::Calls("calls, long", Region::Long), 4),
    (Family::Calls("calls, huge", Region::Huge), 4),
    (Family::Texts("texts, short", Region::Short), 6),
    (Family::Texts("texts, at the limits", Region::Ends), 4),
    (Family::Texts("texts, long", Region::Long), 2),
    (Family::Texts("texts, huge", Region::Huge), 3),
    (Family::Pairs(Region::Short), 2),
    (Family::Pairs(Region::Long), 2),
    (Family::Parts(Region::Short), 2),
    (Family::Integers, 2),
    (Family::NarrowSinks(Region::Short), 1),
    (Family::NarrowSinks(Region::Long), 1),
    (Family::RefusedMemory(Region::Short), 3),
    (Family::RefusedMemory(Region::Long), 2),
    (Family::Program(Region::Short), 1),
    (Family::Program(Region::Ends), 1),
];

/// Returns the text with a number, in the order of their lengths, of the nine bytes that matter.
fn nth_text(mut number: u64) -> Vec<u8> {
    const BYTES: &[u8; 9] = b"015.eE-+c";
    let mut text = Vec::new();
    while number > 0 {
        number -= 1;
        text.push(BYTES[(number % 9) as usize]);
        number /= 9;
    }
    text
}

/// Returns the rounding with a number: a position from -6 to 5, a mode, an increment, a sign, and up to four digits
/// around a decimal point; `None` if there are no more.
fn nth_rounding(mut number: u64) -> Option<Case> {
    let mut part = |count: u64| {
        let rest = number % count;
        number /= count;
        rest as usize
    };
    let position = part(12) as i16 - 6;
    let (mode, increment) = (MODES[part(9)], INCREMENTS[part(4)]);
    let sign = ["", "-"][part(2)];
    let mut rest = number;
    for count in 1..=4_u32 {
        let places = u64::from(count) + 1;
        let all = 10_u64.pow(count) * places;
        if rest < all {
            let digits = format!("{:0size$}", rest / places, size = count as usize);
            let (whole, decimals) = digits.split_at((rest % places) as usize);
            let dot = if decimals.is_empty() { "" } else { "." };
            let start = format!("{sign}{whole}{dot}{decimals}").into_bytes();
            return Some(Case { start, calls: vec![Call::Round(position, mode, increment)] });
        }
        rest -= all;
    }
    None
}

/// Returns an integer with few bits, or near a power of ten or of two.
fn integer(dice: &mut Dice) -> u128 {
    let any = u128::from(dice.next()) << 64 | u128::from(dice.next());
    let short = any >> dice.below(128);
    let ten = 10_u128.pow(dice.below(39) as u32);
    let two = 1_u128 << dice.below(128);
    let near = dice.of(&[short, ten, two, 0, short.wrapping_mul(ten)]);
    dice.of(&[near, near.wrapping_sub(1), near.wrapping_neg()])
}

struct Worker {
    comparison: Comparison,
    fixdec: PathBuf,
    /// The numbers of the next text and of the next rounding, and the distance to the following one: each worker has
    /// its own.
    next_text: u64,
    next_rounding: u64,
    step: u64,
}

impl Worker {
    /// Compares one case. False: the family has no more.
    fn turn(&mut self, family: Family) -> bool {
        let comparison = &mut self.comparison;
        let dice = &mut comparison.dice;
        match family {
            Family::EveryText => {
                let text = nth_text(self.next_text);
                self.next_text += self.step;
                for kind in KINDS {
                    comparison.text("every text", kind, &text);
                }
                return text.len() < 9;
            }
            Family::EveryRounding => {
                let Some(case) = nth_rounding(self.next_rounding) else {
                    return false;
                };
                self.next_rounding += self.step;
                comparison.calls("every rounding", &case);
            }
            Family::Calls(name, region) => {
                let case = case(dice, region);
                comparison.calls(name, &case);
            }
            Family::Texts(name, region) => {
                let kind = dice.of(&KINDS);
                let text = text_of_kind(dice, kind, region);
                comparison.text(name, kind, &text);
            }
            Family::Pairs(region) => {
                let kind = dice.of(&KINDS);
                let one = text_of_kind(dice, kind, region);
                let other = if dice.one_in(3) { text_of_kind(dice, kind, region) } else { neighbour(dice, &one) };
                comparison.pair(kind, &one, &other);
            }
            Family::Parts(region) => {
                let one = text_of_kind(dice, Kind::Decimal, region);
                let other = text_of_kind(dice, Kind::Integer, region);
                let exponent = dice.next() as u8 >> dice.below(8);
                comparison.join(&one, &other, exponent);
            }
            Family::Integers => {
                let integer = integer(dice);
                comparison.integer(integer);
            }
            Family::NarrowSinks(region) => {
                let case = case(dice, region);
                comparison.narrow_sink(&case);
            }
            Family::RefusedMemory(region) => {
                let case = if dice.one_in(4) { full_case(dice) } else { case(dice, region) };
                comparison.refused_memory(&case);
            }
            Family::Program(region) => {
                let case = case(dice, region);
                program::compare(&self.fixdec, &case, dice, &mut comparison.counts);
            }
        }
        true
    }

    /// Runs each family for its part of the time, in turns, until the time is over.
    fn work(&mut self, end: Instant) {
        let mut families = FAMILIES.to_vec();
        while Instant::now() < end {
            families.retain(|(family, parts)| {
                let pause = Instant::now() + Duration::from_millis(4 * parts);
                let mut has_more = true;
                while has_more && Instant::now() < pause.min(end) {
                    has_more = self.turn(*family);
                }
                has_more
            });
        }
    }
}

fn main() -> ExitCode {
    let arguments: Vec<String> = std::env::args().collect();
    let number = |at: usize| arguments[at].parse::<u64>().expect("a number");
    let fixdec = PathBuf::from(&arguments[1]);
    let (seconds, threads, seed) = (number(2), number(3), number(4));
    // A panic of the original is a result. A panic of the driver's own is reported.
    let hook = std::panic::take_hook();
    std::panic::set_hook(Box::new(move |info| {
        if info.location().is_some_and(|place| place.file().starts_with("diff/")) {
            hook(info);
        }
    }));
    let start = Instant::now();
    let end = start + Duration::from_secs(seconds);
    let mut counts = Counts::default();
    std::thread::scope(|scope| {
        let workers: Vec<_> = (0..threads)
            .map(|thread| {
                let mut worker = Worker {
                    comparison: Comparison::new(seed + thread * 1_000_003),
                    fixdec: fixdec.clone(),
                    next_text: thread,
                    next_rounding: thread,
                    step: threads,
                };
                scope.spawn(move || {
                    worker.work(end);
                    worker.comparison.counts
                })
            })
            .collect();
        for worker in workers {
            counts.merge(worker.join().expect("no panic but the original's"));
        }
    });
    counts.print(start.elapsed().as_secs_f64());
    if counts.differences() == 0 {
        ExitCode::SUCCESS
    } else {
        ExitCode::FAILURE
    }
}
