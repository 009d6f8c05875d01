//! The library, by its exports.

use crate::cases::{DISPLAYS, INCREMENTS, MODES, SIGNS};
use crate::reference::Call;
use crate::shared::{Answer, Form, Kind, Operation, RawCall, Way, ANSWERS};

extern "C" {
    fn decimal_run(
        start: *const u8,
        start_length: usize,
        calls: *const RawCall,
        call_count: usize,
        texts: *const u8,
        texts_length: usize,
        way: u8,
        text: *mut u8,
        room: usize,
        length: *mut usize,
        at: *mut usize,
    ) -> u8;
    fn decimal_single(
        start: *const u8,
        start_length: usize,
        calls: *const RawCall,
        call_count: usize,
        texts: *const u8,
        texts_length: usize,
        is_packed: bool,
        form: u8,
        answers: *mut u8,
        answer_count: usize,
        asked: *const i16,
        asked_count: usize,
        digits: *mut u8,
        digit_count: usize,
        ends: *mut i16,
        end_count: usize,
        text: *mut u8,
        room: usize,
        length: *mut usize,
    ) -> u8;
    fn decimal_read(
        kind: u8,
        text: *const u8,
        text_length: usize,
        found: *mut u8,
        room: usize,
        length: *mut usize,
    ) -> u8;
    fn decimal_compare(kind: u8, one: *const u8, one_length: usize, other: *const u8, other_length: usize) -> u8;
    fn decimal_join(
        one: *const u8,
        one_length: usize,
        other: *const u8,
        other_length: usize,
        exponent: u8,
        found: *mut u8,
        room: usize,
        length: *mut usize,
    ) -> u8;
    fn decimal_integer(high: u64, low: u64, found: *mut u8, room: usize, length: *mut usize);
}

/// The calls in the form of the library, and the operands, one after the other.
#[derive(Default)]
pub struct RawCalls {
    calls: Vec<RawCall>,
    texts: Vec<u8>,
}

fn place<T: PartialEq>(items: &[T], item: T) -> u8 {
    items.iter().position(|other| *other == item).expect("an item of the list") as u8
}

impl RawCalls {
    pub fn new(calls: &[Call]) -> Self {
        let mut raw = RawCalls::default();
        for call in calls {
            raw.push(call);
        }
        raw
    }

    fn push(&mut self, call: &Call) {
        let (operation, position, choice, increment) = match *call {
            Call::Shift(delta) => (Operation::Shift, delta, 0, 0),
            Call::TrimStart => (Operation::TrimStart, 0, 0, 0),
            Call::TrimEnd => (Operation::TrimEnd, 0, 0, 0),
            Call::TrimEndIfInteger => (Operation::TrimEndIfInteger, 0, 0, 0),
            Call::PadStart(position) => (Operation::PadStart, position, 0, 0),
            Call::PadEnd(position) => (Operation::PadEnd, position, 0, 0),
            Call::Max(position) => (Operation::Max, position, 0, 0),
            Call::Round(position, mode, increment) => {
                (Operation::Round, position, place(&MODES, mode), place(&INCREMENTS, increment))
            }
            Call::Sign(sign) => (Operation::Sign, 0, place(&SIGNS, sign), 0),
            Call::Display(display) => (Operation::Display, 0, place(&DISPLAYS, display), 0),
            Call::Concatenate(_) => (Operation::Concatenate, 0, 0, 0),
        };
        let from = self.texts.len();
        if let Call::Concatenate(text) = call {
            self.texts.extend_from_slice(text);
        }
        let to = self.texts.len();
        self.calls.push(RawCall { from, to, operation: operation as u8, choice, increment, position });
    }
}

/// What a value shows: a digit at each of the given magnitudes, its lowest and highest magnitude, its first and last
/// nonzero digit, and whether it is 0.
#[derive(Debug, Default, PartialEq)]
pub struct Shown {
    pub digits: Vec<u8>,
    pub ends: [i16; 5],
}

/// A list has fewer calls.
pub const MOST_CALLS: usize = 8;

/// The memory into which the library writes.
pub struct Library {
    bytes: Vec<u8>,
}

impl Library {
    pub fn new() -> Self {
        Library { bytes: vec![0; 400_000] }
    }

    /// Makes a call that writes to the memory. Its arguments live through the call, and are not kept.
    fn filled(&mut self, call: impl FnOnce(*mut u8, usize, &mut usize) -> u8) -> (Answer, &[u8]) {
        let mut length = 0;
        let answer = call(self.bytes.as_mut_ptr(), self.bytes.len(), &mut length);
        (ANSWERS[usize::from(answer)], &self.bytes[..length])
    }

    /// Makes a run into a sink with room for `room` bytes: its result, the text, and the number of the call that
    /// failed.
    pub fn run(&mut self, start: &[u8], raw: &RawCalls, way: Way, room: usize) -> ((Answer, &[u8]), usize) {
        let mut at = 0;
        let (calls, texts) = (&raw.calls, &raw.texts);
        let answer = self.filled(|text, all, length| unsafe {
            let (start, start_length) = (start.as_ptr(), start.len());
            let (calls, call_count, texts, texts_length) = (calls.as_ptr(), calls.len(), texts.as_ptr(), texts.len());
            let (way, room) = (way as u8, room.min(all));
            decimal_run(start, start_length, calls, call_count, texts, texts_length, way, text, room, length, &mut at)
        });
        (answer, at)
    }

    /// Makes the calls one by one: the result of the start and the text with a line feed, and the result of each call.
    /// Only the library allocates here.
    pub fn single(
        &mut self,
        start: &[u8],
        raw: &RawCalls,
        is_packed: bool,
        form: Form,
        asked: &[i16],
        shown: &mut Shown,
    ) -> ((Answer, &[u8]), [Answer; MOST_CALLS]) {
        let mut answers = [0; MOST_CALLS];
        let (calls, texts) = (&raw.calls, &raw.texts);
        let answer = self.filled(|text, room, length| unsafe {
            decimal_single(
                start.as_ptr(),
                start.len(),
                calls.as_ptr(),
                calls.len(),
                texts.as_ptr(),
                texts.len(),
                is_packed,
                form as u8,
                answers.as_mut_ptr(),
                answers.len(),
                asked.as_ptr(),
                asked.len(),
                shown.digits.as_mut_ptr(),
                shown.digits.len(),
                shown.ends.as_mut_ptr(),
                shown.ends.len(),
                text,
                room,
                length,
            )
        });
        (answer, answers.map(|answer| ANSWERS[usize::from(answer)]))
    }

    pub fn read(&mut self, kind: Kind, text: &[u8]) -> (Answer, &[u8]) {
        self.filled(|found, room, length| unsafe {
            decimal_read(kind as u8, text.as_ptr(), text.len(), found, room, length)
        })
    }

    pub fn join(&mut self, one: &[u8], other: &[u8], exponent: u8) -> (Answer, &[u8]) {
        self.filled(|found, room, length| unsafe {
            decimal_join(one.as_ptr(), one.len(), other.as_ptr(), other.len(), exponent, found, room, length)
        })
    }

    pub fn integer(&mut self, integer: u128) -> (Answer, &[u8]) {
        self.filled(|found, room, length| unsafe {
            decimal_integer((integer >> 64) as u64, integer as u64, found, room, length);
            Answer::Ok as u8
        })
    }
}

pub fn compare(kind: Kind, one: &[u8], other: &[u8]) -> Answer {
    // The slices live through the call, and none of them is kept.
    let answer = unsafe { decimal_compare(kind as u8, one.as_ptr(), one.len(), other.as_ptr(), other.len()) };
    ANSWERS[usize::from(answer)]
}
