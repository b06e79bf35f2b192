//! The lines that desk prints, read back (ticket 1): a line has one meaning, or is refused with 14.

use crate::lines::BAD_LINE;
use crate::rules::{Refusal, TOP};

/// What a line says that the call was answered. The window of a rejection is not printed.
#[derive(Clone, Copy, Debug, PartialEq)]
pub enum Said {
    Allowed,
    Rejected { wait: u64, left: u64 },
    Suppressed { factor: f64, admitted: bool },
    Value { factor: f64 },
    Refused(Refusal),
}

/// A line's meaning.
#[derive(Clone, Copy, Debug, PartialEq)]
pub struct ReadBack {
    pub reading: u64,
    pub said: Said,
    pub total: u64,
    pub declined: u64,
}

/// The names of a line's fields, in their order.
const NAMES: [&[u8]; 8] =
    [b"t=", b"code=", b"answer=", b"factor=", b"wait=", b"left=", b"total=", b"declined="];

/// What stands behind the names. One space parts two fields: a second one begins another field.
fn fields(line: &[u8]) -> Option<[&[u8]; NAMES.len()]> {
    let mut parts = line.split(|byte| *byte == b' ');
    let mut texts = [line; NAMES.len()];
    for (text, name) in texts.iter_mut().zip(NAMES) {
        *text = parts.next()?.strip_prefix(name)?;
    }
    let is_over = parts.next().is_none();
    is_over.then_some(texts)
}

fn digit(byte: u8) -> Option<u64> {
    byte.is_ascii_digit().then(|| u64::from(byte - b'0'))
}

/// A u64 decimal without leading zeros.
fn number(text: &[u8]) -> Option<u64> {
    let has_leading_zero = text.len() > 1 && text[0] == b'0';
    if text.is_empty() || has_leading_zero {
        return None;
    }
    text.iter().try_fold(0u64, |value, byte| value.checked_mul(10)?.checked_add(digit(*byte)?))
}

fn hex_digit(byte: u8) -> Option<u64> {
    match byte {
        b'a'..=b'f' => Some(10 + u64::from(byte - b'a')),
        _ => digit(byte),
    }
}

/// The bits of a factor, in 16 small hexadecimal digits. It is 0 to 1, and its sign is clear.
fn factor_bits(text: &[u8]) -> Option<u64> {
    if text.len() != 16 {
        return None;
    }
    let bits = text.iter().try_fold(0, |bits, byte| Some(bits << 4 | hex_digit(*byte)?))?;
    let factor = f64::from_bits(bits);
    let is_factor = factor.is_sign_positive() && factor <= 1.0;
    is_factor.then_some(bits)
}

/// What the answer's word says with these numbers. Those that do not apply to it are 0.
fn said(word: &[u8], code: u64, factor: u64, wait: u64, left: u64) -> Option<Said> {
    let as_double = f64::from_bits(factor);
    Some(match (word, code, factor, wait, left) {
        (b"allowed", 0, 0, 0, 0) => Said::Allowed,
        (b"rejected", 0, 0, wait, left) => Said::Rejected { wait, left },
        (b"yes", 0, _, 0, 0) => Said::Suppressed { factor: as_double, admitted: true },
        (b"no", 0, _, 0, 0) => Said::Suppressed { factor: as_double, admitted: false },
        (b"value", 0, _, 0, 0) => Said::Value { factor: as_double },
        (b"refused", 1..=14, 0, 0, 0) => Said::Refused(Refusal(code)),
        _ => return None,
    })
}

impl ReadBack {
    /// Whether a line may say that at this reading and with these totals.
    fn is_printed(&self) -> bool {
        let ReadBack { reading, said, total, declined } = *self;
        let has_totals = total <= TOP && declined <= total;
        match said {
            // Bad settings, and bad lines, are refused without a reading.
            Said::Refused(Refusal(1..=4 | 14)) => (reading, total, declined) == (0, 0, 0),
            Said::Refused(_) => (total, declined) == (0, 0),
            _ => has_totals,
        }
    }
}

/// A line's meaning, if it has one.
fn meaning(line: &[u8]) -> Option<ReadBack> {
    let [reading, code, word, factor, wait, left, total, declined] = fields(line)?;
    let said = said(word, number(code)?, factor_bits(factor)?, number(wait)?, number(left)?)?;
    let (reading, total, declined) = (number(reading)?, number(total)?, number(declined)?);
    let read = ReadBack { reading, said, total, declined };
    read.is_printed().then_some(read)
}

/// Reads a line of desk's without its newline.
pub fn read_back(line: &[u8]) -> Result<ReadBack, Refusal> {
    meaning(line).ok_or(BAD_LINE)
}
