//! Random texts and lists of calls.

use crate::reference::{read_decimal, read_unsigned, Call, Display, Mode, Rules, Sign, Value, HIGHEST, LOWEST};
use crate::shared::Kind;

pub const MODES: [Mode; 9] = [
    Mode::Expand,
    Mode::Trunc,
    Mode::HalfExpand,
    Mode::HalfTrunc,
    Mode::HalfEven,
    Mode::Ceil,
    Mode::Floor,
    Mode::HalfCeil,
    Mode::HalfFloor,
];
pub const INCREMENTS: [u32; 4] = [1, 2, 5, 25];
pub const SIGNS: [Sign; 3] = [Sign::None, Sign::Minus, Sign::Plus];
pub const DISPLAYS: [Display; 5] =
    [Display::Auto, Display::Never, Display::Always, Display::ExceptZero, Display::Negative];

/// Random numbers: splitmix64.
pub struct Dice(pub u64);

impl Dice {
    pub fn next(&mut self) -> u64 {
        self.0 = self.0.wrapping_add(0x9e37_79b9_7f4a_7c15);
        let mixed = (self.0 ^ (self.0 >> 30)).wrapping_mul(0xbf58_476d_1ce4_e5b9);
        let mixed = (mixed ^ (mixed >> 27)).wrapping_mul(0x94d0_49bb_1331_11eb);
        mixed ^ (mixed >> 31)
    }

    pub fn below(&mut self, count: usize) -> usize {
        (((self.next() >> 32) * count as u64) >> 32) as usize
    }

    pub fn between(&mut self, least: i32, most: i32) -> i32 {
        least + self.below((most - least + 1) as usize) as i32
    }

    pub fn one_in(&mut self, count: usize) -> bool {
        self.below(count) == 0
    }

    pub fn of<T: Clone>(&mut self, items: &[T]) -> T {
        items[self.below(items.len())].clone()
    }
}

/// The length of the numbers, and their magnitudes.
#[derive(Clone, Copy, Debug, PartialEq)]
pub enum Region {
    /// Up to 40 digits around the decimal point.
    Short,
    /// Up to 40 digits near one of the two limits.
    Ends,
    /// Some hundred or thousand digits.
    Long,
    /// Up to 65,536 digits.
    Huge,
}

/// Appends digits of one of several kinds: mixed, all nines, mostly zeros and fives, edges of the increments.
fn push_digits(dice: &mut Dice, count: usize, text: &mut Vec<u8>) {
    const LOOKS: [&[u8]; 7] = [b"0123456789", b"0123456789", b"9", b"00005", b"09994", b"25701", b"000000000159"];
    const TAILS: [&[u8]; 10] = [b"125", b"375", b"625", b"875", b"500", b"250", b"750", b"999", b"050", b"001"];
    let look = dice.of(&LOOKS);
    for _ in 0..count {
        text.push(dice.of(look));
    }
    if count >= 3 && dice.one_in(4) {
        let end = text.len();
        text[end - 3..].copy_from_slice(dice.of(&TAILS));
    }
    if count > 0 && dice.one_in(6) {
        let zeros = dice.below(count.min(5) + 1);
        let at = text.len() - dice.of(&[count, zeros]);
        text[at..at + zeros].fill(b'0');
    }
}

fn digit_count(dice: &mut Dice, region: Region) -> usize {
    match region {
        Region::Short | Region::Ends => {
            let most = dice.of(&[6, 6, 6, 18, 21]);
            dice.below(most)
        }
        Region::Long => dice.of(&[0, 1, 5, 60, 200, 700, 1500]) + dice.below(60),
        Region::Huge => dice.of(&[0, 1, 10, 16384, 32700, 32767, 32768, 32768, 32768, 32769, 32769]),
    }
}

/// Appends an exponent that leaves the number in its region.
fn push_exponent(dice: &mut Dice, region: Region, high: i32, low: i32, text: &mut Vec<u8>) {
    let is_at_end = match region {
        Region::Short => dice.one_in(400),
        Region::Ends => true,
        Region::Long => dice.one_in(8),
        Region::Huge => dice.one_in(2),
    };
    let exponent = match (is_at_end, dice.below(10)) {
        (false, _) => dice.between(-30, 30),
        (true, 0..=4) => HIGHEST - high - dice.between(-1, 6),
        (true, 5..=8) => LOWEST - low + dice.between(-1, 6),
        (true, _) => dice.between(-70_000, 70_000),
    };
    text.push(dice.of(b"eeeE"));
    if exponent < 0 {
        text.push(b'-');
    } else if dice.one_in(12) {
        text.push(b'+');
    }
    if dice.one_in(12) {
        let zeros = dice.of(&[1, 5, 12, 3000]);
        text.resize(text.len() + zeros, b'0');
    }
    if dice.one_in(100) {
        // A number that is small modulo 2^16, 2^32, 2^64 or 2^128, or nearly.
        let wrapping = dice.of(&[1 << 16, 1 << 31, 1 << 32, 1 << 63, 1 << 64, u128::MAX - 20]);
        text.extend((wrapping - 8 + dice.below(20) as u128).to_string().bytes());
    } else {
        text.extend(exponent.unsigned_abs().to_string().bytes());
    }
}

/// Appends a text of the grammar, whose value may be beyond the limits.
pub fn push_unsigned(dice: &mut Dice, region: Region, text: &mut Vec<u8>) {
    let start = text.len();
    let (mut whole, decimals) = (digit_count(dice, region), digit_count(dice, region));
    let decimals = if dice.one_in(2) { decimals } else { 0 };
    if whole + decimals == 0 {
        whole = 1;
    }
    push_digits(dice, whole, text);
    if decimals > 0 {
        text.push(b'.');
        push_digits(dice, decimals, text);
    }
    if dice.one_in(40) {
        text[start..].iter_mut().filter(|byte| **byte != b'.').for_each(|digit| *digit = b'0');
    }
    if dice.one_in(3) || region == Region::Ends && !dice.one_in(10) {
        if decimals == 0 && dice.one_in(30) {
            text.push(b'.');
        }
        push_exponent(dice, region, (whole as i32 - 1).max(0), -(decimals as i32), text);
    }
    // The same number without an exponent.
    if dice.one_in(if region == Region::Ends { 10 } else { 60 }) {
        if let Ok(value) = read_unsigned(&text[start..], Rules::Library) {
            text.truncate(start);
            text.extend(value.text());
        }
    }
}

pub fn push_decimal(dice: &mut Dice, region: Region, text: &mut Vec<u8>) {
    text.extend_from_slice(dice.of(&[b"-".as_slice(), b"-", b"+", b"", b""]));
    push_unsigned(dice, region, text);
}

/// Makes edits that may leave the grammar.
pub fn spoil(dice: &mut Dice, text: &mut Vec<u8>) {
    const BYTES: &[u8] = b"0123456789..ee-+E c_,x/:\xff\xc3\0";
    const TAILS: [&[u8]; 12] = [b"e5", b"e-", b"e", b"e+-5", b".", b".0", b"x", b"c3", b"c256", b"c0", b"e5e5", b"00"];
    for _ in 0..=dice.below(3) {
        let size = text.len();
        let at = dice.below(size.max(1));
        match dice.below(6) {
            0 | 1 => text.insert(dice.of(&[at, at, 0, size]), dice.of(BYTES)),
            2 if size > 0 => drop(text.remove(at)),
            3 if size > 0 => text[at] = dice.of(BYTES),
            4 if at > 0 => text.swap(at - 1, at),
            _ => text.extend_from_slice(dice.of(&TAILS)),
        }
    }
}

/// Appends a text, mostly cut at its exponent.
fn push_without_exponent(dice: &mut Dice, region: Region, text: &mut Vec<u8>) {
    let start = text.len();
    push_decimal(dice, region, text);
    if !dice.one_in(6) {
        let exponent = text[start..].iter().position(|byte| matches!(byte, b'e' | b'E'));
        text.truncate(exponent.map_or(text.len(), |at| start + at));
    }
}

/// Returns a text for a kind of value, spoiled one time in three.
pub fn text_of_kind(dice: &mut Dice, kind: Kind, region: Region) -> Vec<u8> {
    let mut text = Vec::new();
    match kind {
        Kind::Unsigned | Kind::UnsignedBytes => push_unsigned(dice, region, &mut text),
        Kind::Decimal | Kind::DecimalBytes | Kind::Integer => {
            push_decimal(dice, region, &mut text);
        }
        Kind::Scientific => {
            push_without_exponent(dice, region, &mut text);
            text.push(b'e');
            push_without_exponent(dice, region_of_part(region), &mut text);
        }
        Kind::Compact => {
            push_without_exponent(dice, region, &mut text);
            if !dice.one_in(5) {
                let most = dice.of(&[2, 10, 101, 258, 1001, 1 << 17, 1 << 33, 1 << 62]);
                text.extend(format!("c{}", dice.next() % most).bytes());
            }
        }
    }
    if dice.one_in(3) {
        spoil(dice, &mut text);
    }
    text
}

/// Returns the region of a second part.
fn region_of_part(region: Region) -> Region {
    match region {
        Region::Ends => Region::Short,
        region => region,
    }
}

fn in_sixteen_bits(place: i32) -> i16 {
    place.clamp(LOWEST, HIGHEST) as i16
}

/// Returns a position that matters to the value: near one of its ends, near the decimal point, or anywhere.
fn position(dice: &mut Dice, region: Region, value: &Value) -> i16 {
    let around = match dice.below(40) {
        0..=11 => value.first(),
        12..=21 => value.last,
        22..=25 => value.high,
        26..=29 => value.low,
        30..=33 => dice.between(-9, 9),
        34..=36 => dice.between(value.last.min(value.first() - 40), value.first()),
        37 | 38 if region == Region::Short => dice.between(-60, 60),
        _ => dice.of(&[LOWEST, HIGHEST, 16384, -16384, 1000]),
    };
    in_sixteen_bits(around + dice.between(-3, 3))
}

/// Returns a distance of a shift: short, or to one of the limits, or back to the decimal point.
fn distance(dice: &mut Dice, region: Region, value: &Value) -> i16 {
    let is_far = match region {
        Region::Short => dice.one_in(200),
        Region::Long => dice.one_in(8),
        Region::Ends | Region::Huge => !dice.one_in(3),
    };
    let distance = match (is_far, dice.below(8)) {
        (false, _) => dice.between(-14, 14),
        (true, 0 | 1) => HIGHEST - value.high + dice.between(-2, 1),
        (true, 2 | 3) => LOWEST - value.low + dice.between(-1, 2),
        (true, 4..=6) => dice.between(-8, 8) - value.first(),
        (true, _) => dice.between(LOWEST, HIGHEST),
    };
    in_sixteen_bits(distance)
}

/// Returns a text to concatenate: mostly one that starts just below the last digit.
fn operand(dice: &mut Dice, region: Region, value: &Value) -> Vec<u8> {
    let mut text = Vec::new();
    match dice.below(10) {
        0..=6 => {
            let count = 1 + match region {
                Region::Huge => dice.of(&[0, 5, 30_000]),
                Region::Long => dice.of(&[0, 10, 500]),
                _ => dice.below(9),
            };
            push_digits(dice, count, &mut text);
            let first = value.last - 1 - dice.of(&[0, 0, 0, 0, 1, 5, -1, -2]);
            text.extend(format!("e{}", first + 1 - count as i32).bytes());
        }
        7 => text.extend_from_slice(dice.of(&[b"0".as_slice(), b"000", b"0.00", b"0e99999", b".0"])),
        case => {
            push_unsigned(dice, region_of_part(region), &mut text);
            if case == 9 {
                spoil(dice, &mut text);
            }
        }
    }
    text
}

fn call(dice: &mut Dice, region: Region, value: &Value) -> Call {
    match dice.below(28) {
        0..=4 => Call::Shift(distance(dice, region, value)),
        5 => Call::TrimStart,
        6 => Call::TrimEnd,
        7 => Call::TrimEndIfInteger,
        8 => Call::PadStart(position(dice, region, value)),
        9 => Call::PadEnd(position(dice, region, value)),
        10 | 11 => Call::Max(position(dice, region, value)),
        12..=20 => Call::Round(position(dice, region, value), dice.of(&MODES), dice.of(&INCREMENTS)),
        21 => Call::Sign(dice.of(&SIGNS)),
        22 | 23 => Call::Display(dice.of(&DISPLAYS)),
        _ => Call::Concatenate(operand(dice, region, value)),
    }
}

#[derive(Debug)]
pub struct Case {
    pub start: Vec<u8>,
    pub calls: Vec<Call>,
}

/// Returns a start and up to six calls, each chosen for the value after the calls before it.
pub fn case(dice: &mut Dice, region: Region) -> Case {
    let mut start = Vec::new();
    push_decimal(dice, region, &mut start);
    if dice.one_in(24) {
        spoil(dice, &mut start);
    }
    let mut value = read_decimal(&start, Rules::Library).unwrap_or_default();
    let calls = (0..dice.below(7)).map(|_| {
        let call = call(dice, region, &value);
        value.make(&call, Rules::Library);
        call
    });
    let calls = calls.collect();
    Case { start, calls }
}

/// Returns a number with as many digits as fit at its magnitudes, and a rounding by 25 that may make one more.
pub fn full_case(dice: &mut Dice) -> Case {
    let mut start = Vec::new();
    let count = dice.of(&[8, 16, 32]);
    push_digits(dice, count, &mut start);
    start[0] = dice.of(b"123456789");
    start[count - 1] = dice.of(b"123456789");
    Case { start, calls: vec![Call::Round(dice.of(&[-1, -1, 0, -2]), dice.of(&MODES), 25)] }
}

/// Returns a text of the same value, or of a similar one.
pub fn neighbour(dice: &mut Dice, text: &[u8]) -> Vec<u8> {
    let Ok(mut value) = read_decimal(text, Rules::Library) else {
        return text.to_vec();
    };
    match dice.below(6) {
        0 => return text.to_vec(),
        1 => value.sign = dice.of(&SIGNS),
        2 => value.low = (value.low - 1).max(LOWEST),
        3 => value.high = (value.high + 1).min(HIGHEST),
        4 if !value.is_zero() => {
            let index = dice.of(&[0, value.digits.len() - 1]);
            value.digits[index] = 1 + dice.below(9) as u8;
        }
        _ => {}
    }
    value.text()
}
