//! Runs cases through both libraries and the reference.

use crate::cases::{Case, Dice};
use crate::counts::{shortened, Counts};
use crate::host;
use crate::library::{compare, Library, RawCalls, Shown};
use crate::memory::refusing;
use crate::original::{self, asked, unclaimed, unclaimed_call, PLUS, ROUNDING, SHIFT};
use crate::reference::{
    join_text, read, read_compact, read_decimal, read_integer, Call, Rules, Value, HIGHEST, IN_PLACE, LOWEST,
};
use crate::shared::{Answer, Kind, FORMS, WAYS};

pub struct Comparison {
    pub counts: Counts,
    pub dice: Dice,
    library: Library,
}

fn told(case: &Case) -> String {
    let calls: Vec<String> = case.calls.iter().map(|call| format!("{call:?}")).collect();
    let calls = shortened(calls.join(" ").as_bytes(), 600);
    format!("{} [{calls}]", shortened(&case.start, 200))
}

/// Makes calls by the reference, past errors: the results, and the last value.
fn made(start: &[u8], calls: &[Call], rules: Rules) -> Result<(Vec<Answer>, Value), Answer> {
    let mut value = read_decimal(start, rules)?;
    let answers = calls.iter().map(|call| value.make(call, rules)).collect();
    Ok((answers, value))
}

/// Returns what a value shows by the reference.
fn shown(value: &Value, magnitudes: &[i16]) -> Shown {
    let digits = magnitudes.iter().map(|magnitude| value.digit_at((*magnitude).into()));
    let ends = [value.low, value.high, value.first(), value.last, value.is_zero().into()];
    Shown { digits: digits.collect(), ends: ends.map(|end| end as i16) }
}

/// Returns what is not claimed of the value of a text, or of a part of it.
fn unclaimed_text(text: &[u8]) -> Option<&'static str> {
    let parts = text.split(|byte| matches!(byte, b'e' | b'c')).chain([text]);
    let mut values = parts.filter_map(|part| read_decimal(part, Rules::Original).ok());
    values.find_map(|value| unclaimed(&value))
}

/// A compact value is parsed from text alone.
fn is_no_text(kind: Kind, bytes: &[u8]) -> bool {
    kind == Kind::Compact && std::str::from_utf8(bytes).is_err()
}

fn with_line_feed(mut text: Vec<u8>) -> Vec<u8> {
    text.push(b'\n');
    text
}

impl Comparison {
    pub fn new(seed: u64) -> Self {
        Comparison { counts: Counts::default(), dice: Dice(seed), library: Library::new() }
    }

    /// Returns magnitudes to compare: near the ends of the value, and some others.
    fn magnitudes(&mut self, value: &Value) -> Vec<i16> {
        let ends = [value.first(), value.last, value.high, value.low, 0, LOWEST, HIGHEST];
        let mut around: Vec<i32> = ends.iter().flat_map(|end| [end - 1, *end, end + 1]).collect();
        for _ in 0..4 {
            around.push(self.dice.between(value.last, value.first()));
        }
        around.iter().map(|place| (*place).clamp(LOWEST, HIGHEST) as i16).collect()
    }

    /// Compares a list of calls: as a run, one by one, by the Rust crate, and by the original.
    pub fn calls(&mut self, family: &'static str, case: &Case) {
        let wanted = made(&case.start, &case.calls, Rules::Library);
        self.run(family, case, &wanted);
        self.single(case, &wanted);
        self.host(case, &wanted);
        self.original(case);
    }

    fn run(&mut self, family: &'static str, case: &Case, wanted: &Result<(Vec<Answer>, Value), Answer>) {
        let way = self.dice.of(&WAYS);
        let raw = RawCalls::new(&case.calls);
        let wanted = match wanted {
            Err(fault) => (*fault, 0, Vec::new()),
            Ok((answers, value)) => match answers.iter().position(|it| *it != Answer::Ok) {
                Some(at) => (answers[at], at, Vec::new()),
                None => (Answer::Ok, 0, value.text()),
            },
        };
        self.counts.add_case(family, wanted.0 != Answer::Ok);
        let found = self.library.run(&case.start, &raw, way, usize::MAX);
        let wanted = ((wanted.0, &wanted.2[..]), wanted.1);
        self.counts.check("a run", found, wanted, || told(case));
    }

    fn single(&mut self, case: &Case, wanted: &Result<(Vec<Answer>, Value), Answer>) {
        let form = self.dice.of(&FORMS);
        let is_packed = self.dice.one_in(2);
        let raw = RawCalls::new(&case.calls);
        let magnitudes = match wanted {
            Ok((_, value)) => self.magnitudes(value),
            Err(_) => Vec::new(),
        };
        let mut found = Shown { digits: vec![0; magnitudes.len()], ..Shown::default() };
        let ((start, text), answers) = self.library.single(&case.start, &raw, is_packed, form, &magnitudes, &mut found);
        match wanted {
            Err(fault) => self.counts.check("a start", start, *fault, || told(case)),
            Ok((wanted, value)) => {
                let answers = &answers[..case.calls.len()];
                let wanted_text = with_line_feed(value.text());
                let wanted = (&wanted[..], shown(value, &magnitudes), &wanted_text[..]);
                self.counts.check("single calls", (answers, found, text), wanted, || told(case));
            }
        }
    }

    fn host(&mut self, case: &Case, wanted: &Result<(Vec<Answer>, Value), Answer>) {
        let magnitudes = wanted.as_ref().map_or(Vec::new(), |(_, value)| self.magnitudes(value));
        let wanted = wanted.as_ref().map_err(|fault| *fault).map(|(answers, value)| {
            let text = String::from_utf8(value.text()).expect("digits");
            (answers.clone(), shown(value, &magnitudes), text)
        });
        let found = host::single(&case.start, &case.calls, &magnitudes);
        self.counts.check("the Rust crate", found, wanted, || told(case));
    }

    /// Returns the calls before the first that is not claimed, and its claim. Notes where the two rules differ.
    fn claimed(&mut self, case: &Case, start: &Value) -> (usize, Option<&'static str>) {
        let mut value = start.clone();
        let mut row = unclaimed(&value);
        for (index, call) in case.calls.iter().enumerate() {
            row = row.or_else(|| unclaimed_call(&value, call));
            if row.is_some() {
                return (index, row);
            }
            let here = value.clone().make(call, Rules::Library);
            let there = value.make(call, Rules::Original);
            if here != there {
                let listed = match call {
                    Call::Shift(_) => SHIFT,
                    Call::Round(..) => ROUNDING,
                    _ => PLUS,
                };
                self.counts.add(listed, || told(case));
            }
            row = unclaimed(&value);
            if row.is_some() {
                return (index, row);
            }
        }
        (case.calls.len(), row)
    }

    fn original(&mut self, case: &Case) {
        let is_in_place = self.dice.one_in(2);
        let start = read_decimal(&case.start, Rules::Original);
        let (count, row) = match &start {
            Ok(start) => self.claimed(case, start),
            Err(_) => {
                if read_decimal(&case.start, Rules::Library).is_ok() {
                    self.counts.add(PLUS, || told(case));
                }
                (0, None)
            }
        };
        let is_claimed = row.is_none() || count > 0;
        let calls = &case.calls[..count];
        let magnitudes = start.as_ref().map_or(Vec::new(), |start| self.magnitudes(start));
        let wanted = made(&case.start, calls, Rules::Original).map(|(answers, value)| {
            let text = String::from_utf8(value.text()).expect("digits");
            (answers, shown(&value, &magnitudes), text)
        });
        let ask = |calls| asked(|| original::single(&case.start, calls, is_in_place, &magnitudes));
        if is_claimed {
            self.counts.check("the original", ask(calls), Some(wanted), || told(case));
        }
        if let Some(row) = row {
            let calls = &case.calls[..case.calls.len().min(count + 1)];
            let wanted = made(&case.start, calls, Rules::Original);
            let wanted = wanted.map(|(answers, value)| (answers, value.text()));
            let found = ask(calls).map(|found| found.map(|(answers, _, text)| (answers, text.into_bytes())));
            let what = if found == Some(wanted) { "agrees" } else { "differs" };
            self.counts.add(&format!("{row}; {what}"), || told(case));
        }
    }

    /// Compares a text of a kind, parsed, printed and split into parts, by all three.
    pub fn text(&mut self, family: &'static str, kind: Kind, text: &[u8]) {
        if is_no_text(kind, text) {
            return;
        }
        let wanted = read(kind, text, Rules::Library);
        self.counts.add_case(family, wanted.is_err());
        let lines = |rules| -> Result<Vec<u8>, Answer> {
            let mut lines = with_line_feed(read(kind, text, rules)?);
            match kind {
                Kind::Decimal => {
                    if let Ok(integer) = read_integer(text, rules) {
                        lines.extend(with_line_feed(integer.text()));
                    }
                }
                Kind::Integer => lines.extend_from_within(..),
                Kind::Compact => {
                    let (significand, exponent) = read_compact(text, rules)?;
                    lines.extend(with_line_feed(significand.text()));
                    lines.extend(with_line_feed(join_text(&significand, b'c', exponent)));
                }
                _ => {}
            }
            Ok(lines)
        };
        let input = || format!("{kind:?} {}", shortened(text, 300));
        let (answer, found) = self.library.read(kind, text);
        let found = if answer == Answer::Ok { Ok(found.to_vec()) } else { Err(answer) };
        let here = lines(Rules::Library);
        self.counts.check("a text", &found, &here, input);
        if let Ok(printed) = &wanted {
            let again = self.library.read(kind, printed);
            self.counts.check("a text read back", Ok(again.1), here.as_deref(), input);
        }
        self.original_lines(&here, &lines(Rules::Original), || original::read(kind, text), text, input);
    }

    /// Compares lines of the original with those by its rules. Lines that the library's rules change are listed.
    fn original_lines(
        &mut self,
        here: &Result<Vec<u8>, Answer>,
        there: &Result<Vec<u8>, Answer>,
        question: impl FnOnce() -> Result<String, Answer>,
        text: &[u8],
        input: impl Fn() -> String + Copy,
    ) {
        let found = asked(question).map(|found| found.map(String::into_bytes));
        if found.as_ref() != Some(there) {
            match unclaimed_text(text) {
                Some(row) => self.counts.add(&format!("{row}; differs"), input),
                None => self.counts.check("the original's text", found.as_ref(), Some(there), input),
            }
        } else if here != there {
            self.counts.add(PLUS, input);
        }
    }

    /// Compares two texts of a kind, which may be equal values.
    pub fn pair(&mut self, kind: Kind, one: &[u8], other: &[u8]) {
        if is_no_text(kind, one) || is_no_text(kind, other) {
            return;
        }
        let compared = |rules| match (read(kind, one, rules), read(kind, other, rules)) {
            (Err(fault), _) | (_, Err(fault)) => fault,
            (Ok(one), Ok(other)) if one == other => Answer::Ok,
            _ => Answer::Different,
        };
        let input = || format!("{kind:?} {} {}", shortened(one, 300), shortened(other, 300));
        let wanted = compared(Rules::Library);
        self.counts.add_case("pairs", !matches!(wanted, Answer::Ok | Answer::Different));
        self.counts.check("equality", compare(kind, one, other), wanted, input);
        let there = compared(Rules::Original);
        if [one, other].iter().any(|text| unclaimed_text(text).is_some()) {
            return;
        }
        let found = asked(|| original::compare(kind, one, other));
        self.counts.check("the original's equality", found, Some(there), input);
    }

    /// Compares a scientific and a compact value of parts.
    pub fn join(&mut self, one: &[u8], other: &[u8], exponent: u8) {
        let joined = |rules| -> Result<Vec<u8>, Answer> {
            let significand = read_decimal(one, rules)?;
            let power = read_integer(other, rules)?.text();
            let digits = exponent.to_string();
            let digits = if exponent == 0 { b"" } else { digits.as_bytes() };
            let mut lines = with_line_feed(join_text(&significand, b'e', &power));
            lines.extend(with_line_feed(join_text(&significand, b'c', digits)));
            Ok(lines)
        };
        let here = joined(Rules::Library);
        self.counts.add_case("parts", here.is_err());
        let input = || format!("{} {} {exponent}", shortened(one, 300), shortened(other, 300));
        let (answer, found) = self.library.join(one, other, exponent);
        let found = if answer == Answer::Ok { Ok(found.to_vec()) } else { Err(answer) };
        self.counts.check("parts", &found, &here, input);
        let there = joined(Rules::Original);
        let question = || original::join(one, other, exponent);
        let texts = [one, b"c", other].concat();
        self.original_lines(&here, &there, question, &texts, input);
    }

    /// Compares an integer as a value of each type that holds it.
    pub fn integer(&mut self, integer: u128) {
        self.counts.add_case("integers", false);
        let mut wanted = String::new();
        for bits in [8, 16, 32, 64, 64, 128] {
            if bits == 128 || integer >> bits == 0 {
                wanted += &format!("{integer}\n").repeat(3);
            }
        }
        let signed = integer as i128;
        for bits in [8, 16, 32, 64, 64, 128] {
            let half = 1_i128 << (bits - 1).min(126);
            if bits == 128 || (-half..half).contains(&signed) {
                wanted += &format!("{signed}\n").repeat(2);
            }
        }
        let found = self.library.integer(integer);
        let input = || integer.to_string();
        self.counts.check("integers", found, (Answer::Ok, wanted.as_bytes()), input);
        let found = asked(|| original::integer(integer));
        self.counts.check("the original's integers", found, Some(wanted), input);
    }

    /// Compares a run into a sink with too little room, which takes a prefix of the text.
    pub fn narrow_sink(&mut self, case: &Case) {
        let Ok((answers, value)) = made(&case.start, &case.calls, Rules::Library) else {
            return;
        };
        if answers.iter().any(|answer| *answer != Answer::Ok) {
            return;
        }
        self.counts.add_case("sinks that fail", true);
        let text = value.text();
        let near_end = text.len() - 1 - self.dice.below(text.len().min(70));
        let room = self.dice.of(&[near_end, text.len() / 2]);
        let way = self.dice.of(&WAYS[1..]);
        let raw = RawCalls::new(&case.calls);
        let found = self.library.run(&case.start, &raw, way, room);
        let wanted = ((Answer::Sink, &text[..room]), 0);
        self.counts.check("a failing sink", found, wanted, || told(case));
    }

    /// Compares single calls, one allocation of which fails: `Memory` only from calls that may allocate, and the value
    /// is then unchanged.
    pub fn refused_memory(&mut self, case: &Case) {
        let form = self.dice.of(&FORMS);
        let is_packed = self.dice.one_in(2);
        let in_place = IN_PLACE[usize::from(!is_packed)];
        let number = 1 + self.dice.below(6 + 2 * case.calls.len());
        let raw = RawCalls::new(&case.calls);
        let library = &mut self.library;
        let mut found = Shown::default();
        let (((start, text), answers), is_refused) =
            refusing(number, || library.single(&case.start, &raw, is_packed, form, &[], &mut found));
        self.counts.add_case("memory that is refused", is_refused);
        let input = || format!("{number} {form:?} {in_place} {}", told(case));
        // The list of calls is the harness's own, and its allocation may be the one that failed.
        if start == Answer::Inconsistent {
            return;
        }
        let mut value = match read_decimal(&case.start, Rules::Library) {
            Ok(value) if start == Answer::Memory => {
                let may = is_refused && value.digits.len() > in_place;
                return self.counts.check("memory of a start", may, true, input);
            }
            Ok(value) => value,
            Err(fault) => return self.counts.check("a start", start, fault, input),
        };
        let mut refusals = 0;
        for (call, answer) in case.calls.iter().zip(answers) {
            let mut after = value.clone();
            let wanted = after.make(call, Rules::Library);
            if answer == Answer::Memory {
                refusals += 1;
                let may = is_refused && refusals == 1 && value.may_want_memory(call, in_place);
                self.counts.check("memory of a call", may, true, input);
            } else {
                self.counts.check("a call with little memory", answer, wanted, input);
                value = after;
            }
        }
        let wanted = with_line_feed(value.text());
        self.counts.check("a value with little memory", text, &wanted[..], input);
    }
}
