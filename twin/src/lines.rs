//! The lines of desk and of shots: how they are read, and the line that an answer prints.

use crate::parties::SOLE;
use crate::rules::{Decision, Refusal, Settings, TOP, refuse_if};
use crate::shared::stored;

pub const BAD_LINE: Refusal = Refusal(14);

/// What a byte of a line may be.
#[derive(Clone, Copy, PartialEq, Eq)]
enum Class {
    Digit,
    Letter,
    Separator,
    Bad,
}

fn class(byte: u8) -> Class {
    match byte {
        b'0'..=b'9' => Class::Digit,
        b'a'..=b'z' => Class::Letter,
        b' ' | b'=' => Class::Separator,
        _ => Class::Bad,
    }
}

/// What is left of a line.
pub struct Line<'a>(&'a [u8]);

impl<'a> Line<'a> {
    pub fn skip(&mut self, text: &[u8]) -> Result<(), Refusal> {
        self.0 = self.0.strip_prefix(text).ok_or(BAD_LINE)?;
        Ok(())
    }

    /// The bytes up to the next one that `fits` does not hold for.
    fn run(&mut self, fits: fn(Class) -> bool) -> &'a [u8] {
        let end = self.0.iter().position(|byte| !fits(class(*byte))).unwrap_or(self.0.len());
        let (run, rest) = self.0.split_at(end);
        self.0 = rest;
        run
    }

    /// A u64 decimal without leading zeros.
    fn number(&mut self) -> Result<u64, Refusal> {
        let digits = self.run(|class| class == Class::Digit);
        refuse_if(digits.is_empty() || (digits.len() > 1 && digits[0] == b'0'), 14)?;
        digits
            .iter()
            .try_fold(0u64, |value, digit| {
                let digit = u64::from(digit - b'0');
                value.checked_mul(10)?.checked_add(digit)
            })
            .ok_or(BAD_LINE)
    }

    pub fn word(&mut self) -> &'a [u8] {
        self.run(|class| class == Class::Digit || class == Class::Letter)
    }

    pub fn named(&mut self, name: &[u8]) -> Result<u64, Refusal> {
        self.skip(name)?;
        self.number()
    }

    /// 1 to 32 small letters or digits.
    pub fn key(&mut self, name: &[u8]) -> Result<&'a [u8], Refusal> {
        self.skip(name)?;
        let key = self.word();
        refuse_if(!(1..=32).contains(&key.len()), 14)?;
        Ok(key)
    }

    /// A rate per second, of a whole one per minute.
    pub fn rate(&mut self) -> Result<f64, Refusal> {
        let per_minute = up_to_top(self.named(b" rate=")?)?;
        Ok(per_minute / 60.0)
    }

    fn end(&self) -> Result<(), Refusal> {
        refuse_if(!self.0.is_empty(), 14)
    }
}

fn up_to_top(value: u64) -> Result<f64, Refusal> {
    refuse_if(value > TOP, 14)?;
    Ok(value as f64)
}

fn read_settings(line: &[u8]) -> Result<Settings, Refusal> {
    let mut line = Line(line);
    let window = line.named(b"window=")?;
    let bucket = line.named(b" bucket=")?;
    let factor = up_to_top(line.named(b" factor=")?)?;
    let cache = line.named(b" cache=")?;
    line.end()?;
    let settings = Settings { window, bucket, cache, factor, ..Settings::default() };
    settings.judge()?;
    Ok(settings)
}

/// What a line of output says.
#[derive(Clone, Copy, Default)]
pub struct Told {
    reading: u64,
    code: u64,
    answer: &'static str,
    factor: f64,
    wait: u64,
    left: u64,
    total: u64,
    declined: u64,
}

fn refused(reading: u64, refusal: Refusal) -> Told {
    Told { reading, code: refusal.0, answer: "refused", ..Told::default() }
}

fn print(told: Told, out: &mut Vec<u8>) {
    let Told { reading, code, answer, factor, wait, left, total, declined } = told;
    let factor = factor.to_bits();
    let line = format!(
        "t={reading} code={code} answer={answer} factor={factor:016x} wait={wait} left={left} total={total} declined={declined}\n"
    );
    out.extend_from_slice(line.as_bytes());
}

impl Told {
    /// The answer's word and factor; reading and totals are put in with the line.
    pub fn new(answer: &'static str, factor: f64) -> Self {
        Told { answer, factor, ..Told::default() }
    }
}

impl From<Decision> for Told {
    fn from(decision: Decision) -> Self {
        match decision {
            Decision::Allowed => Told::new("allowed", 0.0),
            Decision::Rejected { wait, left, .. } => {
                Told { wait, left, ..Told::new("rejected", 0.0) }
            }
            Decision::Suppressed { factor, admitted } => {
                Told::new(if admitted { "yes" } else { "no" }, factor)
            }
        }
    }
}

/// A program that holds a memory and answers a call a line.
pub trait Program {
    /// What a line asks for, besides its reading and its key.
    type Wish;

    /// The memory as it is before the first call.
    fn begin(settings: Settings) -> Self;

    /// What follows the reading: the key, and the wish.
    fn read<'a>(line: &mut Line<'a>) -> Result<(&'a [u8], Self::Wish), Refusal>;

    fn ask(&mut self, reading: u64, key: &[u8], wish: &Self::Wish) -> Result<Told, Refusal>;

    /// The room that tells the key's totals after the call.
    fn room(&self, wish: &Self::Wish) -> &[u64];
}

/// A call line's reading, its key and its wish.
fn read_call<P: Program>(line: &[u8]) -> Result<(u64, &[u8], P::Wish), Refusal> {
    let mut line = Line(line);
    let reading = line.named(b"t=")?;
    let (key, wish) = P::read(&mut line)?;
    line.end()?;
    Ok((reading, key, wish))
}

fn answer<P: Program>(program: &mut P, line: &[u8]) -> Told {
    let (reading, key, wish) = match read_call::<P>(line) {
        Ok(call) => call,
        Err(refusal) => return refused(0, refusal),
    };
    match program.ask(reading, key, &wish) {
        Err(refusal) => refused(reading, refusal),
        Ok(told) => {
            let (total, declined) = stored(program.room(&wish), SOLE, key);
            Told { reading, total, declined, ..told }
        }
    }
}

/// What a program prints for its input.
pub fn printed<P: Program>(input: &[u8]) -> Vec<u8> {
    let mut out = Vec::new();
    // The last newline may be missing; without any byte there is no line.
    let text = input.strip_suffix(b"\n").unwrap_or(input);
    let mut lines = text.split(|byte| *byte == b'\n');
    let mut program = match read_settings(lines.next().unwrap_or_default()) {
        Ok(settings) => P::begin(settings),
        Err(refusal) => {
            print(refused(0, refusal), &mut out);
            return out;
        }
    };
    for line in lines {
        print(answer(&mut program, line), &mut out);
    }
    out
}
