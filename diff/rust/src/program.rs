//! The program `fixdec`, run as a process.

use crate::cases::{Case, Dice};
use crate::counts::{shortened, Counts};
use crate::reference::{read_decimal, Call, Display, Mode, Rules, Sign, Value};
use crate::shared::Answer;
use std::ffi::OsStr;
use std::os::unix::ffi::OsStrExt;
use std::path::Path;
use std::process::Command;

/// Words that name no call.
const UNKNOWN: [&[u8]; 18] = [
    b"",
    b"shift",
    b"shift:",
    b"shift:+1",
    b"shift:0000001",
    b"shift:32768",
    b"shift:-32769",
    b"shift:--1",
    b"shift:1:2",
    b"Shift:1",
    b"trim-start:",
    b"max:1 ",
    b"pad-end:1e1",
    b"round:1:even:1",
    b"round:1:trunc:3",
    b"round:1:trunc",
    b"sign:negative",
    b"display:Auto",
];

fn mode(mode: Mode) -> &'static str {
    match mode {
        Mode::Ceil => "ceil",
        Mode::Floor => "floor",
        Mode::Expand => "expand",
        Mode::Trunc => "trunc",
        Mode::HalfCeil => "half-ceil",
        Mode::HalfFloor => "half-floor",
        Mode::HalfExpand => "half-expand",
        Mode::HalfTrunc => "half-trunc",
        Mode::HalfEven => "half-even",
    }
}

fn sign(sign: Sign) -> &'static str {
    match sign {
        Sign::None => "none",
        Sign::Minus => "minus",
        Sign::Plus => "plus",
    }
}

fn display(display: Display) -> &'static str {
    match display {
        Display::Auto => "auto",
        Display::Never => "never",
        Display::Always => "always",
        Display::ExceptZero => "except-zero",
        Display::Negative => "negative",
    }
}

/// Returns the word of a call, its number sometimes with leading zeros.
fn word(dice: &mut Dice, call: &Call) -> Vec<u8> {
    let mut number = |number: i16| {
        if dice.one_in(8) {
            format!("{number:06}")
        } else {
            number.to_string()
        }
    };
    let word = match call {
        Call::Shift(delta) => format!("shift:{}", number(*delta)),
        Call::TrimStart => "trim-start".to_owned(),
        Call::TrimEnd => "trim-end".to_owned(),
        Call::TrimEndIfInteger => "trim-end-if-integer".to_owned(),
        Call::PadStart(position) => format!("pad-start:{}", number(*position)),
        Call::PadEnd(position) => format!("pad-end:{}", number(*position)),
        Call::Max(position) => format!("max:{}", number(*position)),
        Call::Round(position, name, increment) => {
            format!("round:{}:{}:{increment}", number(*position), mode(*name))
        }
        Call::Sign(name) => format!("sign:{}", sign(*name)),
        Call::Display(name) => format!("display:{}", display(*name)),
        Call::Concatenate(text) => return [b"concat:", &text[..]].concat(),
    };
    word.into_bytes()
}

/// Returns the status and the line on standard error of an error.
fn refusal(place: &str, answer: Answer) -> (i32, String) {
    let name = format!("{answer:?}").to_lowercase();
    (1, format!("{place}: {name}\n"))
}

/// Returns the expected status, standard output and standard error of a case.
fn outcome(case: &Case) -> (i32, Vec<u8>, String) {
    let mut value: Value = match read_decimal(&case.start, Rules::Library) {
        Ok(value) => value,
        Err(fault) => {
            let (status, line) = refusal("start", fault);
            return (status, Vec::new(), line);
        }
    };
    for (at, call) in case.calls.iter().enumerate() {
        let answer = value.make(call, Rules::Library);
        if answer != Answer::Ok {
            let (status, line) = refusal(&format!("call {at}"), answer);
            return (status, Vec::new(), line);
        }
    }
    let mut text = value.text();
    text.push(b'\n');
    (0, text, String::new())
}

fn usage() -> (i32, Vec<u8>, String) {
    (2, Vec::new(), "usage: fixdec TEXT [CALL]..\n".to_owned())
}

/// Runs the program on a case, and one time in eight on words one of which names no call.
pub fn compare(fixdec: &Path, case: &Case, dice: &mut Dice, counts: &mut Counts) {
    // A process takes words without a zero byte, of 131,071 bytes at most.
    let fits = |text: &[u8]| text.len() < 120_000 && !text.contains(&0);
    let mut words = vec![case.start.clone()];
    words.extend(case.calls.iter().map(|call| word(dice, call)));
    if !words.iter().all(|word| fits(word)) {
        return;
    }
    let mut wanted = outcome(case);
    if dice.one_in(8) {
        let at = 1 + dice.below(words.len());
        words.insert(at, dice.of(&UNKNOWN).to_vec());
        wanted = usage();
    }
    // Words that are not UTF-8 are reported before all else.
    if words.iter().any(|word| std::str::from_utf8(word).is_err()) {
        wanted = usage();
    }
    counts.add_case("runs of the program", wanted.0 != 0);
    let arguments = words.iter().map(|word| OsStr::from_bytes(word));
    let output = Command::new(fixdec).args(arguments).output().expect("fixdec runs");
    let found = (output.status.code(), &output.stdout, &*String::from_utf8_lossy(&output.stderr));
    counts.check("the program", found, (Some(wanted.0), &wanted.1, &wanted.2), || shortened(&words.join(&b' '), 600));
}
