//! The rules, on a list of digits. A rounding divides the whole number, so it shares no shortcut with either library.

use crate::shared::{Answer, Kind};

/// Whose rules: the two differ where `docs/DIFFERENCES.md` says so.
#[derive(Clone, Copy, PartialEq)]
pub enum Rules {
    Library,
    Original,
}

#[derive(Clone, Copy, Debug, Default, PartialEq)]
pub enum Sign {
    #[default]
    None,
    Minus,
    Plus,
}

#[derive(Clone, Copy, Debug, PartialEq)]
pub enum Mode {
    Expand,
    Trunc,
    HalfExpand,
    HalfTrunc,
    HalfEven,
    Ceil,
    Floor,
    HalfCeil,
    HalfFloor,
}

#[derive(Clone, Copy, Debug, PartialEq)]
pub enum Display {
    Auto,
    Never,
    Always,
    ExceptZero,
    Negative,
}

#[derive(Clone, Debug, PartialEq)]
pub enum Call {
    Shift(i16),
    TrimStart,
    TrimEnd,
    TrimEndIfInteger,
    PadStart(i16),
    PadEnd(i16),
    Max(i16),
    Round(i16, Mode, u32),
    Sign(Sign),
    Display(Display),
    Concatenate(Vec<u8>),
}

pub const HIGHEST: i32 = 32767;
pub const LOWEST: i32 = -32768;
/// The numbers of digits that need no allocation, as packed BCD and with a byte for each digit.
pub const IN_PLACE: [usize; 2] = [16, 8];

/// A sign, the digits from the first to the last nonzero one, the magnitude of the last one, and the highest and the
/// lowest magnitude that is shown. 0 has no digits, and `last` 0.
#[derive(Clone, Debug, Default, PartialEq)]
pub struct Value {
    pub sign: Sign,
    pub digits: Vec<u8>,
    pub last: i32,
    pub high: i32,
    pub low: i32,
}

/// Divides a number, its first digit first: the quotient and the remainder.
fn divide(number: &[u8], by: u32) -> (Vec<u8>, u32) {
    let mut rest = 0;
    let quotient = number.iter().map(|digit| {
        let part = rest * 10 + u32::from(*digit);
        rest = part % by;
        (part / by) as u8
    });
    (quotient.collect(), rest)
}

/// The number and `more`, both times `by`.
fn multiply(number: &[u8], more: u32, by: u32) -> Vec<u8> {
    let mut carry = more * by;
    let mut product = Vec::new();
    for digit in number.iter().rev() {
        let part = u32::from(*digit) * by + carry;
        product.push((part % 10) as u8);
        carry = part / 10;
    }
    while carry > 0 {
        product.push((carry % 10) as u8);
        carry /= 10;
    }
    product.reverse();
    product
}

impl Value {
    pub fn is_zero(&self) -> bool {
        self.digits.is_empty()
    }

    /// Returns the magnitude of the first nonzero digit.
    pub fn first(&self) -> i32 {
        if self.is_zero() {
            0
        } else {
            self.last + self.digits.len() as i32 - 1
        }
    }

    pub fn digit_at(&self, magnitude: i32) -> u8 {
        let index = usize::try_from(self.first() - magnitude);
        index.ok().and_then(|index| self.digits.get(index)).copied().unwrap_or(0)
    }

    /// Sets the digits, the last of them at this magnitude. They may have leading and trailing zeros.
    fn set_digits(&mut self, digits: &[u8], last: i32) {
        let is_not_zero = |digit: &u8| *digit != 0;
        let first = digits.iter().position(is_not_zero).unwrap_or(0);
        let end = digits.iter().rposition(is_not_zero).map_or(0, |index| index + 1);
        self.digits = digits[first..end.max(first)].to_vec();
        self.last = if self.is_zero() { 0 } else { last + (digits.len() - end) as i32 };
    }

    /// Returns the number of digits at or above a position.
    fn count_above(&self, position: i32) -> usize {
        (self.first() - position + 1).clamp(0, self.digits.len() as i32) as usize
    }

    pub fn text(&self) -> Vec<u8> {
        let mut text = Vec::new();
        match self.sign {
            Sign::None => {}
            Sign::Minus => text.push(b'-'),
            Sign::Plus => text.push(b'+'),
        }
        let mut shown = vec![b'0'; (self.high - self.low + 1) as usize];
        for (magnitude, digit) in (self.last..=self.first()).rev().zip(&self.digits) {
            shown[(self.high - magnitude) as usize] += digit;
        }
        let (whole, decimals) = shown.split_at(self.high as usize + 1);
        text.extend_from_slice(whole);
        if !decimals.is_empty() {
            text.push(b'.');
            text.extend_from_slice(decimals);
        }
        text
    }

    fn shift(&mut self, delta: i32) -> Answer {
        if self.high + delta > HIGHEST || self.low + delta < LOWEST {
            return Answer::Overflow;
        }
        self.high = (self.high + delta).max(0);
        self.low = (self.low + delta).min(0);
        if !self.is_zero() {
            self.last += delta;
        }
        Answer::Ok
    }

    fn keep_below(&mut self, position: i32) {
        self.high = (position - 1).max(0);
        self.low = self.low.min(position);
        let digits = self.digits[self.count_above(position)..].to_vec();
        self.set_digits(&digits, self.last);
    }

    /// Returns the mode for the absolute value.
    fn mode_of_absolute(&self, mode: Mode) -> Mode {
        let up = |away, toward| if self.sign == Sign::Minus { toward } else { away };
        match mode {
            Mode::Ceil => up(Mode::Expand, Mode::Trunc),
            Mode::Floor => up(Mode::Trunc, Mode::Expand),
            Mode::HalfCeil => up(Mode::HalfExpand, Mode::HalfTrunc),
            Mode::HalfFloor => up(Mode::HalfTrunc, Mode::HalfExpand),
            mode => mode,
        }
    }

    /// The multiple of `increment` units of the position that the mode names, in these units.
    fn named_multiple(&self, position: i32, mode: Mode, increment: u32) -> Vec<u8> {
        let (above, below) = self.digits.split_at(self.count_above(position));
        let mut units = above.to_vec();
        if !units.is_empty() {
            units.resize((self.first() - position + 1) as usize, 0);
        }
        // In quarters of a unit: 0, less than a half, a half, or more.
        let quarters = match (below, self.digit_at(position - 1)) {
            ([], _) => 0,
            (_, 0..=4) => 1,
            ([5], 5) => 2,
            _ => 3,
        };
        let (quotient, rest) = divide(&units, increment);
        let is_exact = rest == 0 && quarters == 0;
        let is_odd = quotient.last().is_some_and(|digit| digit % 2 == 1);
        let against_half = (4 * rest + quarters).cmp(&(2 * increment));
        let goes_up = match self.mode_of_absolute(mode) {
            Mode::Expand => !is_exact,
            Mode::HalfExpand => against_half.is_ge(),
            Mode::HalfTrunc => against_half.is_gt(),
            Mode::HalfEven => against_half.is_gt() || against_half.is_eq() && is_odd,
            _ => false,
        };
        multiply(&quotient, u32::from(goes_up), increment)
    }

    fn round(&mut self, position: i32, mode: Mode, increment: u32) -> Answer {
        // 100 units are a multiple of each increment.
        if !self.is_zero() && self.last < position + 2 {
            let mut rounded = self.clone();
            rounded.set_digits(&self.named_multiple(position, mode, increment), position);
            if rounded.first() > HIGHEST {
                return Answer::Overflow;
            }
            *self = rounded;
        }
        self.high = self.high.max(position - 1).max(self.first());
        self.low = position.min(0);
        Answer::Ok
    }

    fn join(&mut self, other: &Value) -> Answer {
        if self.is_zero() {
            self.digits.clone_from(&other.digits);
            self.last = other.last;
        } else if !other.is_zero() {
            if self.last <= other.first() {
                return Answer::Overlap;
            }
            self.digits.resize((self.first() - other.first()) as usize, 0);
            self.digits.extend_from_slice(&other.digits);
            self.last = other.last;
        }
        self.high = self.high.max(other.high);
        self.low = self.low.min(other.low);
        Answer::Ok
    }

    fn displayed_sign(&self, display: Display) -> Sign {
        let is_minus = self.sign == Sign::Minus;
        let shown = |is_shown, sign| if is_shown { sign } else { Sign::None };
        match display {
            Display::Never => Sign::None,
            Display::Auto => shown(is_minus, Sign::Minus),
            Display::Negative => shown(is_minus && !self.is_zero(), Sign::Minus),
            Display::Always if is_minus => Sign::Minus,
            Display::Always => Sign::Plus,
            Display::ExceptZero if is_minus => shown(!self.is_zero(), Sign::Minus),
            Display::ExceptZero => shown(!self.is_zero(), Sign::Plus),
        }
    }

    /// Makes a call. If it fails the value is unchanged, but by the rules of the original an overflow makes 0.
    pub fn make(&mut self, call: &Call, rules: Rules) -> Answer {
        let old = (self.high, self.low);
        let answer = self.make_by_the_library(call, rules);
        if answer != Answer::Overflow || rules == Rules::Library {
            return answer;
        }
        let (high, low) = match call {
            Call::Round(position, ..) => {
                let position = i32::from(*position);
                (old.0.max(position - 1), position.min(0))
            }
            _ => (0, 0),
        };
        *self = Value { sign: self.sign, high, low, ..Value::default() };
        Answer::Ok
    }

    fn make_by_the_library(&mut self, call: &Call, rules: Rules) -> Answer {
        match *call {
            Call::Shift(delta) => return self.shift(delta.into()),
            Call::TrimStart => self.high = self.first().max(0),
            Call::TrimEnd => self.low = self.last.min(0),
            Call::TrimEndIfInteger if self.last >= 0 => self.low = 0,
            Call::PadStart(position) if position > 0 => {
                self.high = self.first().max(i32::from(position) - 1);
            }
            Call::PadEnd(position) if position <= 0 => self.low = self.last.min(position.into()),
            Call::Max(position) => self.keep_below(position.into()),
            Call::Round(position, mode, increment) => {
                return self.round(position.into(), mode, increment);
            }
            Call::Sign(sign) => self.sign = sign,
            Call::Display(display) => self.sign = self.displayed_sign(display),
            Call::Concatenate(ref text) => {
                return match read_unsigned(text, rules) {
                    Ok(other) => self.join(&other),
                    Err(fault) => fault,
                };
            }
            Call::TrimEndIfInteger | Call::PadStart(_) | Call::PadEnd(_) => {}
        }
        Answer::Ok
    }

    /// Whether a call may allocate, with `in_place` digits in place.
    pub fn may_want_memory(&self, call: &Call, in_place: usize) -> bool {
        let mut after = self.clone();
        let is_made = after.make(call, Rules::Library) == Answer::Ok;
        match call {
            Call::Concatenate(text) => {
                let other = read_unsigned(text, Rules::Library);
                other.is_ok_and(|other| other.digits.len() > in_place) || is_made && after.digits.len() > in_place
            }
            Call::Round(_, _, 25) => self.digits.len() >= in_place && after.digits.len() > self.digits.len(),
            _ => false,
        }
    }
}

/// Takes the leading digits of a text.
fn take_digits<'a>(text: &mut &'a [u8]) -> &'a [u8] {
    let count = text.iter().take_while(|byte| byte.is_ascii_digit()).count();
    let (digits, rest) = text.split_at(count);
    *text = rest;
    digits
}

/// Takes the first byte of a text, if it is one of these.
fn take(text: &mut &[u8], bytes: &[u8]) -> Option<u8> {
    let (first, rest) = text.split_first()?;
    bytes.contains(first).then(|| {
        *text = rest;
        *first
    })
}

/// Returns the exponent of digits, within what can matter.
fn exponent(is_minus: bool, digits: &[u8]) -> i32 {
    let size = digits.iter().fold(0, |size: i32, digit| (size * 10 + i32::from(digit - b'0')).min(1_000_000));
    if is_minus {
        -size
    } else {
        size
    }
}

pub fn read_unsigned(mut text: &[u8], rules: Rules) -> Result<Value, Answer> {
    let whole = take_digits(&mut text);
    let has_dot = take(&mut text, b".").is_some();
    let decimals = if has_dot { take_digits(&mut text) } else { &[] };
    let mut delta = None;
    if take(&mut text, b"eE").is_some() {
        let signs: &[u8] = if rules == Rules::Library { b"-+" } else { b"-" };
        let is_minus = take(&mut text, signs) == Some(b'-');
        let digits = take_digits(&mut text);
        // Before an exponent a decimal point may have no decimals.
        if digits.is_empty() || whole.is_empty() && !has_dot {
            return Err(Answer::Syntax);
        }
        delta = Some(exponent(is_minus, digits));
    } else if whole.is_empty() && decimals.is_empty() || has_dot && decimals.is_empty() {
        return Err(Answer::Syntax);
    }
    if !text.is_empty() {
        return Err(Answer::Syntax);
    }
    if whole.len() > 32768 || decimals.len() > 32768 {
        return Err(Answer::Limit);
    }
    let low = -(decimals.len() as i32);
    let mut value = Value { high: (whole.len() as i32 - 1).max(0), low, ..Value::default() };
    let digits: Vec<u8> = whole.iter().chain(decimals).map(|byte| byte - b'0').collect();
    value.set_digits(&digits, low);
    match delta {
        Some(delta) if !value.is_zero() => {
            if !(LOWEST..=HIGHEST).contains(&delta) || value.shift(delta) != Answer::Ok {
                return Err(Answer::Limit);
            }
            // An exponent removes trailing zeros of the fraction, and leading zeros if the first digit is above
            // magnitude 0.
            if value.first() > 0 {
                value.high = value.first();
            }
            if value.last < 0 {
                value.low = value.last;
            }
        }
        _ => {}
    }
    Ok(value)
}

pub fn read_decimal(text: &[u8], rules: Rules) -> Result<Value, Answer> {
    let (sign, text) = match text {
        [b'-', rest @ ..] => (Sign::Minus, rest),
        [b'+', rest @ ..] => (Sign::Plus, rest),
        _ => (Sign::None, text),
    };
    Ok(Value { sign, ..read_unsigned(text, rules)? })
}

pub fn read_integer(text: &[u8], rules: Rules) -> Result<Value, Answer> {
    let value = read_decimal(text, rules)?;
    if value.low < 0 {
        return Err(Answer::Limit);
    }
    Ok(value)
}

/// The parts of a compact text: its significand, and the digits of its exponent or none.
pub fn read_compact(text: &[u8], rules: Rules) -> Result<(Value, &[u8]), Answer> {
    if text.contains(&b'e') || text.contains(&b'E') {
        return Err(Answer::Syntax);
    }
    let Some(at) = text.iter().position(|byte| *byte == b'c') else {
        return Ok((read_decimal(text, rules)?, b""));
    };
    let significand = read_decimal(&text[..at], rules)?;
    let exponent = &text[at + 1..];
    if !exponent.iter().all(u8::is_ascii_digit) || matches!(exponent, [] | [b'0', ..]) {
        return Err(Answer::Syntax);
    }
    if exponent.len() > 3 || exponent.len() == 3 && exponent > b"255" {
        return Err(Answer::Limit);
    }
    Ok((significand, exponent))
}

/// The text of a significand and an exponent, with a letter between them.
pub fn join_text(significand: &Value, letter: u8, exponent: &[u8]) -> Vec<u8> {
    let mut text = significand.text();
    if !exponent.is_empty() {
        text.push(letter);
        text.extend_from_slice(exponent);
    }
    text
}

/// Returns the text of the value of a kind that is parsed from a text.
pub fn read(kind: Kind, text: &[u8], rules: Rules) -> Result<Vec<u8>, Answer> {
    match kind {
        Kind::Unsigned | Kind::UnsignedBytes => Ok(read_unsigned(text, rules)?.text()),
        Kind::Decimal | Kind::DecimalBytes => Ok(read_decimal(text, rules)?.text()),
        Kind::Integer => Ok(read_integer(text, rules)?.text()),
        Kind::Scientific => {
            let mut parts = text.split(|byte| *byte == b'e');
            let (Some(significand), Some(exponent), None) = (parts.next(), parts.next(), parts.next()) else {
                return Err(Answer::Syntax);
            };
            if text.contains(&b'E') {
                return Err(Answer::Syntax);
            }
            let significand = read_decimal(significand, rules)?;
            Ok(join_text(&significand, b'e', &read_integer(exponent, rules)?.text()))
        }
        Kind::Compact => {
            let (significand, exponent) = read_compact(text, rules)?;
            Ok(join_text(&significand, b'c', exponent))
        }
    }
}
