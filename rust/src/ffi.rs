//! The functions of `c/fixed_decimal.h` that the crate calls, behind safe ones. This is the only module with `unsafe`.
#![allow(unsafe_code)]
use crate::error::Failure;
use crate::number_options::Options;
use std::hash::{Hash, Hasher};
use std::mem;
use std::ops::Deref;
use std::sync::Once;

/// The version of the interface that the structs below are of.
const VERSION: u32 = 8;
const OK: u32 = 0;
const BUFFER_TOO_SMALL: u32 = 8;
const PARTS_TOO_SMALL: u32 = 23;

/// How many bytes more than its operands most results have at most.
const ROOM: usize = 24;

#[repr(C)]
struct FdResult {
    status: u32,
    at: usize,
    count: usize,
}

#[repr(C)]
struct FdNumber {
    status: u32,
    at: usize,
    value: i64,
}

#[repr(C)]
struct FdUnsigned {
    status: u32,
    at: usize,
    value: u64,
}

#[repr(C)]
#[derive(Clone, Copy, Default)]
pub(crate) struct FdCall {
    pub(crate) kind: u8,
    pub(crate) option: u8,
    pub(crate) increment: u8,
    pub(crate) position: i16,
    pub(crate) text_start: usize,
    pub(crate) text_count: usize,
}

#[repr(C)]
#[derive(Clone, Copy, Default)]
pub(crate) struct FdForm {
    pub(crate) locale: u64,
    pub(crate) start: usize,
    pub(crate) count: usize,
    pub(crate) skeleton_start: usize,
    pub(crate) skeleton_count: usize,
    pub(crate) option: u8,
}

#[repr(C)]
#[derive(Clone, Copy, Default)]
pub(crate) struct FdForms {
    pub(crate) read: FdForm,
    pub(crate) format: FdForm,
}

#[repr(C)]
struct FdUnits {
    status: u32,
    unit: u8,
    per_unit: u8,
}

/// A formatter, of 152 bytes that only the library reads.
#[repr(C)]
#[derive(Clone, Copy)]
pub(crate) struct FdFormatter([u64; 19]);

#[repr(C)]
struct FdMade {
    status: u32,
    at: usize,
    formatter: FdFormatter,
}

#[repr(C)]
#[derive(Clone, Copy, Debug)]
pub(crate) struct FdPart {
    pub(crate) kind: u32,
    pub(crate) source: u32,
    pub(crate) start: usize,
    pub(crate) end: usize,
}

#[repr(C)]
struct FdParted {
    status: u32,
    at: usize,
    count: usize,
    parts: usize,
}

extern "C" {
    fn fd_version() -> u32;
    #[rustfmt::skip]
    fn fd_run(
        start: *const u8, start_count: usize, calls: *const FdCall, call_count: usize,
        texts: *const u8, texts_count: usize, buffer: *mut u8, capacity: usize,
    ) -> FdResult;
    #[rustfmt::skip]
    fn fd_convert(
        text: *const u8, count: usize, forms: *const FdForms, calls: *const FdCall, call_count: usize,
        texts: *const u8, texts_count: usize, buffer: *mut u8, capacity: usize,
    ) -> FdResult;
    fn fd_unit(text: *const u8, count: usize) -> FdUnits;
    fn fd_unit_name(number: u32, buffer: *mut u8, capacity: usize) -> FdResult;
    fn fd_formatter_by_options(tag: *const u8, tag_count: usize, options: *const Options) -> FdMade;
    #[rustfmt::skip]
    fn fd_formatter_by_skeleton(
        tag: *const u8, tag_count: usize, skeleton: *const u8, skeleton_count: usize,
    ) -> FdMade;
    #[rustfmt::skip]
    fn fd_format(
        formatter: *const FdFormatter, text: *const u8, count: usize, buffer: *mut u8, capacity: usize,
    ) -> FdResult;
    #[rustfmt::skip]
    fn fd_format_parts(
        formatter: *const FdFormatter, text: *const u8, count: usize,
        buffer: *mut u8, capacity: usize, parts: *mut FdPart, part_capacity: usize,
    ) -> FdParted;
    #[rustfmt::skip]
    fn fd_format_range(
        formatter: *const FdFormatter, start: *const u8, start_count: usize, end: *const u8, end_count: usize,
        buffer: *mut u8, capacity: usize,
    ) -> FdResult;
    #[rustfmt::skip]
    fn fd_format_range_parts(
        formatter: *const FdFormatter, start: *const u8, start_count: usize, end: *const u8, end_count: usize,
        buffer: *mut u8, capacity: usize, parts: *mut FdPart, part_capacity: usize,
    ) -> FdParted;
    #[rustfmt::skip]
    fn fd_read(
        formatter: *const FdFormatter, text: *const u8, count: usize, lenient: u32,
        buffer: *mut u8, capacity: usize,
    ) -> FdResult;
    fn fd_compare(left: *const u8, left_count: usize, right: *const u8, right_count: usize) -> FdNumber;
    fn fd_category(rules: *const u8, rules_count: usize, text: *const u8, count: usize) -> FdNumber;
    fn fd_plural_rules(tag: *const u8, count: usize, rule_type: u32) -> FdUnsigned;
    fn fd_category_of(rules: u64, text: *const u8, count: usize) -> FdNumber;
    fn fd_category_range(tag: *const u8, count: usize, start: u32, end: u32) -> FdNumber;
}

/// How many bytes are kept in place.
const IN_PLACE: usize = 30;

/// The text of a decimal, in place if it is short.
#[derive(Clone)]
pub(crate) enum Text {
    Short { count: u8, bytes: [u8; IN_PLACE] },
    Long(String),
}

impl Deref for Text {
    type Target = str;

    fn deref(&self) -> &str {
        match self {
            // SAFETY: `set` alone makes it, of the ASCII that `fd_run` writes.
            Text::Short { count, bytes } => unsafe { std::str::from_utf8_unchecked(&bytes[..usize::from(*count)]) },
            Text::Long(text) => text,
        }
    }
}

impl PartialEq for Text {
    fn eq(&self, other: &Text) -> bool {
        **self == **other
    }
}

impl Eq for Text {}

impl Hash for Text {
    fn hash<H: Hasher>(&self, state: &mut H) {
        (**self).hash(state);
    }
}

impl Text {
    const EMPTY: Text = Text::Short { count: 0, bytes: [0; IN_PLACE] };

    /// The text of the decimal that `start` writes.
    pub(crate) fn new(start: &[u8]) -> Result<Text, Failure> {
        check_version();
        let mut text = Text::EMPTY;
        text.set(start, &[], &[])?;
        Ok(text)
    }

    /// Makes calls on the decimal; operands are parts of `texts`. On error it is unchanged.
    pub(crate) fn change(&mut self, calls: &[FdCall], texts: &[u8]) -> Result<(), Failure> {
        let start = mem::replace(self, Text::EMPTY);
        let changed = self.set(start.as_bytes(), calls, texts);
        if changed.is_err() {
            *self = start;
        }
        changed
    }

    /// Takes the text of the decimal that `start` writes, after calls on it. On error it is unchanged.
    fn set(&mut self, start: &[u8], calls: &[FdCall], texts: &[u8]) -> Result<(), Failure> {
        let write = |buffer: *mut u8, capacity| {
            // SAFETY: each pointer is that of a slice of the length beside it, and the buffer has the capacity.
            unsafe {
                let (calls, call_count) = (calls.as_ptr(), calls.len());
                fd_run(start.as_ptr(), start.len(), calls, call_count, texts.as_ptr(), texts.len(), buffer, capacity)
            }
        };
        match self {
            Text::Short { count, bytes } if start.len() + texts.len() <= IN_PLACE => {
                let answer = write(bytes.as_mut_ptr(), IN_PLACE);
                match answer.status {
                    OK => {
                        *count = answer.count as u8;
                        return Ok(());
                    }
                    BUFFER_TOO_SMALL => {}
                    status => return Err(Failure::new(status, answer.at)),
                }
            }
            _ => {}
        }
        let bytes = bytes(start.len() + texts.len() + ROOM, write)?;
        // SAFETY: `fd_run` writes ASCII.
        *self = Text::Long(unsafe { String::from_utf8_unchecked(bytes) });
        Ok(())
    }
}

/// Reads a text in one form, and writes it in another; the tags are parts of `texts`.
pub(crate) fn convert(start: &[u8], forms: &FdForms, texts: &[u8]) -> Result<String, Failure> {
    text(4 * start.len() + ROOM, |buffer, capacity| {
        let none: &[FdCall] = &[];
        // SAFETY: as in `Text::set`; `forms` is borrowed.
        unsafe {
            let (texts, texts_count) = (texts.as_ptr(), texts.len());
            fd_convert(start.as_ptr(), start.len(), forms, none.as_ptr(), 0, texts, texts_count, buffer, capacity)
        }
    })
}

/// The numbers of the unit of a name, and of the one after `per` or 0.
pub(crate) fn unit(name: &str) -> Result<(u8, u8), Failure> {
    // SAFETY: the pointer is that of a slice of the length beside it.
    let units = unsafe { fd_unit(name.as_ptr(), name.len()) };
    match units.status {
        OK => Ok((units.unit, units.per_unit)),
        status => Err(Failure::new(status, 0)),
    }
}

/// The name of the unit with a number that `unit` returned.
pub(crate) fn unit_name(number: u8) -> String {
    // SAFETY: the buffer has the capacity.
    match text(ROOM, |buffer, capacity| unsafe { fd_unit_name(u32::from(number), buffer, capacity) }) {
        Ok(name) => name,
        Err(failure) => failure.never(),
    }
}

/// Panics if the library that was linked has another version of the interface, whose structs may differ.
fn check_version() {
    static CHECKED: Once = Once::new();
    CHECKED.call_once(|| {
        // SAFETY: it takes nothing.
        let found = unsafe { fd_version() };
        assert!(found == VERSION, "the C library has version {found} of its interface, not {VERSION}");
    });
}

/// Makes a formatter of a locale and options.
pub(crate) fn formatter_by_options(locale: &str, options: &Options) -> Result<FdFormatter, Failure> {
    check_version();
    // SAFETY: the pointers are those of a slice of the length beside it, and of a struct as the library has it.
    formatter(unsafe { fd_formatter_by_options(locale.as_ptr(), locale.len(), options) })
}

/// Makes a formatter of a locale and a number skeleton.
pub(crate) fn formatter_by_skeleton(locale: &str, skeleton: &str) -> Result<FdFormatter, Failure> {
    check_version();
    // SAFETY: each pointer is that of a slice of the length beside it.
    let made =
        unsafe { fd_formatter_by_skeleton(locale.as_ptr(), locale.len(), skeleton.as_ptr(), skeleton.len()) };
    formatter(made)
}

fn formatter(made: FdMade) -> Result<FdFormatter, Failure> {
    match made.status {
        OK => Ok(made.formatter),
        status => Err(Failure::new(status, made.at)),
    }
}

/// How many bytes of a formatted text are kept in place.
const FORMATTED_IN_PLACE: usize = 126;

/// The text of a formatted number, in place if it is short.
#[derive(Clone)]
pub(crate) enum Formatted {
    InPlace { count: u8, bytes: [u8; FORMATTED_IN_PLACE] },
    Allocated(String),
}

impl Deref for Formatted {
    type Target = str;

    fn deref(&self) -> &str {
        match self {
            // SAFETY: `formatted` alone makes it, of the UTF-8 that `fd_format` or `fd_format_range` writes.
            Formatted::InPlace { count, bytes } => unsafe {
                std::str::from_utf8_unchecked(&bytes[..usize::from(*count)])
            },
            Formatted::Allocated(text) => text,
        }
    }
}

/// Formats a decimal.
pub(crate) fn format(formatter: &FdFormatter, start: &str) -> Result<Formatted, Failure> {
    // SAFETY: as in `Text::set`; the formatter is borrowed.
    formatted(|buffer, capacity| unsafe { fd_format(formatter, start.as_ptr(), start.len(), buffer, capacity) })
}

/// Formats the range of two decimals.
pub(crate) fn format_range(formatter: &FdFormatter, start: &str, end: &str) -> Result<Formatted, Failure> {
    formatted(|buffer, capacity| {
        let (start, start_count, end, end_count) = (start.as_ptr(), start.len(), end.as_ptr(), end.len());
        // SAFETY: as in `format`.
        unsafe { fd_format_range(formatter, start, start_count, end, end_count, buffer, capacity) }
    })
}

fn formatted(write: impl Fn(*mut u8, usize) -> FdResult) -> Result<Formatted, Failure> {
    let mut bytes = [0; FORMATTED_IN_PLACE];
    let answer = write(bytes.as_mut_ptr(), FORMATTED_IN_PLACE);
    match answer.status {
        OK => Ok(Formatted::InPlace { count: answer.count as u8, bytes }),
        BUFFER_TOO_SMALL => Ok(Formatted::Allocated(text(answer.count, write)?)),
        status => Err(Failure::new(status, answer.at)),
    }
}

/// Formats a decimal, with the parts of its text.
pub(crate) fn format_parts(formatter: &FdFormatter, start: &str) -> Result<(String, Vec<FdPart>), Failure> {
    parted(start.len(), |buffer, capacity, parts, part_capacity| {
        let (start, count) = (start.as_ptr(), start.len());
        // SAFETY: as in `format`; the parts have the capacity beside them.
        unsafe { fd_format_parts(formatter, start, count, buffer, capacity, parts, part_capacity) }
    })
}

/// Formats the range of two decimals, with the parts of its text.
#[rustfmt::skip]
pub(crate) fn format_range_parts(
    formatter: &FdFormatter, start: &str, end: &str,
) -> Result<(String, Vec<FdPart>), Failure> {
    parted(start.len() + end.len(), |buffer, capacity, parts, part_capacity| {
        let (start, start_count, end, end_count) = (start.as_ptr(), start.len(), end.as_ptr(), end.len());
        // SAFETY: as in `format_parts`.
        unsafe {
            fd_format_range_parts(
                formatter, start, start_count, end, end_count, buffer, capacity, parts, part_capacity,
            )
        }
    })
}

/// The text and the parts that a function writes of texts of `count` bytes.
#[rustfmt::skip]
fn parted(
    count: usize, write: impl Fn(*mut u8, usize, *mut FdPart, usize) -> FdParted,
) -> Result<(String, Vec<FdPart>), Failure> {
    let mut parts: Vec<FdPart> = Vec::new();
    let mut buffer: Vec<u8> = Vec::new();
    let mut write = |count, part_count| {
        buffer.reserve(count);
        parts.reserve(part_count);
        let answer = write(buffer.as_mut_ptr(), buffer.capacity(), parts.as_mut_ptr(), parts.capacity());
        if answer.status == OK {
            // SAFETY: the function has written the first `count` bytes and the first `parts` parts.
            unsafe {
                buffer.set_len(answer.count);
                parts.set_len(answer.parts);
            }
        }
        answer
    };
    let mut answer = write(4 * count + ROOM, count + ROOM);
    if answer.status == BUFFER_TOO_SMALL || answer.status == PARTS_TOO_SMALL {
        answer = write(answer.count, answer.parts);
    }
    match answer.status {
        OK => Ok((String::from_utf8(buffer).expect("a text of the library is UTF-8"), parts)),
        status => Err(Failure::new(status, answer.at)),
    }
}

/// Reads a number that `format` has written, or as people type it.
pub(crate) fn read(formatter: &FdFormatter, written: &str, lenient: bool) -> Result<String, Failure> {
    text(written.len() + ROOM, |buffer, capacity| {
        let (start, count, lenient) = (written.as_ptr(), written.len(), u32::from(lenient));
        // SAFETY: as in `format`.
        unsafe { fd_read(formatter, start, count, lenient, buffer, capacity) }
    })
}

pub(crate) fn compare(left: &str, right: &str) -> Result<i64, Failure> {
    // SAFETY: each pointer is that of a slice of the length beside it.
    number(unsafe { fd_compare(left.as_ptr(), left.len(), right.as_ptr(), right.len()) })
}

pub(crate) fn category(rules: &str, text: &str) -> Result<i64, Failure> {
    // SAFETY: as in `compare`.
    number(unsafe { fd_category(rules.as_ptr(), rules.len(), text.as_ptr(), text.len()) })
}

/// The category by the rules of a locale: of cardinal numbers, type 0, or of ordinal ones, type 1.
pub(crate) fn plural(locale: &str, rule_type: u32, text: &str) -> Result<i64, Failure> {
    // SAFETY: as in `compare`.
    let rules = unsafe { fd_plural_rules(locale.as_ptr(), locale.len(), rule_type) };
    match rules.status {
        // SAFETY: as in `compare`.
        OK => number(unsafe { fd_category_of(rules.value, text.as_ptr(), text.len()) }),
        status => Err(Failure::new(status, rules.at)),
    }
}

/// The category of a range in a locale, by those of its numbers.
pub(crate) fn plural_range(locale: &str, start: u32, end: u32) -> Result<i64, Failure> {
    // SAFETY: as in `compare`.
    number(unsafe { fd_category_range(locale.as_ptr(), locale.len(), start, end) })
}

fn number(answer: FdNumber) -> Result<i64, Failure> {
    match answer.status {
        OK => Ok(answer.value),
        status => Err(Failure::new(status, answer.at)),
    }
}

/// The text that a function writes.
fn text(room: usize, write: impl Fn(*mut u8, usize) -> FdResult) -> Result<String, Failure> {
    Ok(String::from_utf8(bytes(room, write)?).expect("a text of the library is UTF-8"))
}

/// The bytes that a function writes into a buffer, which is made again where it is too small.
fn bytes(room: usize, write: impl Fn(*mut u8, usize) -> FdResult) -> Result<Vec<u8>, Failure> {
    let mut buffer = Vec::with_capacity(room);
    let mut answer = write(buffer.as_mut_ptr(), buffer.capacity());
    if answer.status == BUFFER_TOO_SMALL {
        buffer.reserve(answer.count);
        answer = write(buffer.as_mut_ptr(), buffer.capacity());
    }
    if answer.status != OK {
        return Err(Failure::new(answer.status, answer.at));
    }
    // SAFETY: the function has written the first `count` bytes, and `count` is at most the capacity.
    unsafe { buffer.set_len(answer.count) };
    Ok(buffer)
}

#[cfg(test)]
mod tests {
    use super::{FdCall, FdForm, FdFormatter, FdForms, FdMade, FdPart, FdParted, FdResult, FdUnits};
    use crate::number_options::Options;
    use std::mem::size_of;

    #[test]
    fn structs_are_those_of_the_library() {
        // SAFETY: the function takes nothing.
        assert_eq!(unsafe { super::fd_version() }, super::VERSION);
        // The sizes that gcc gives the structs of this version.
        assert_eq!([size_of::<FdFormatter>(), size_of::<FdMade>(), size_of::<Options>()], [152, 168, 48]);
        assert_eq!([size_of::<FdForms>(), size_of::<FdForm>(), size_of::<FdCall>()], [96, 48, 24]);
        assert_eq!([size_of::<FdPart>(), size_of::<FdParted>()], [24, 32]);
        assert_eq!([size_of::<FdResult>(), size_of::<FdUnits>()], [24, 8]);
    }
}
