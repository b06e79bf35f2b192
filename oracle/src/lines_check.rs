//! A second reading of the programs' lines, and the lines that answers print.

use twin::calls::Answer;
use twin::parties::SOLE;
use twin::room::slot;
use twin::rules::Settings;

use crate::expected::{find, settings_fault};

const TOP: u64 = 1 << 53;

/// The values of a line's fields, if their names and order are these and single spaces part them.
pub fn fields<'a, const N: usize>(line: &'a str, names: [&str; N]) -> Option<[&'a str; N]> {
    let parts: Vec<&str> = line.split(' ').collect();
    let mut values = [""; N];
    if parts.len() != N {
        return None;
    }
    for (at, part) in parts.into_iter().enumerate() {
        values[at] = part.strip_prefix(names[at])?.strip_prefix('=')?;
    }
    Some(values)
}

/// A u64 that prints as its text.
pub fn number(text: &str) -> Option<u64> {
    text.parse::<u64>().ok().filter(|value| value.to_string() == text)
}

fn at_most_top(text: &str) -> Option<f64> {
    number(text).filter(|value| *value <= TOP).map(|value| value as f64)
}

/// 1 to 32 small letters or digits.
pub fn key(text: &str) -> Option<String> {
    let is_key_byte = |c: char| c.is_ascii_digit() || c.is_ascii_lowercase();
    let is_key = (1..=32).contains(&text.len()) && text.chars().all(is_key_byte);
    is_key.then(|| text.to_string())
}

/// A rate per second, of a whole one per minute.
pub fn rate(text: &str) -> Option<f64> {
    at_most_top(text).map(|rate| rate / 60.0)
}

fn settings(line: &str) -> Option<Settings> {
    let [window, bucket, factor, cache] = fields(line, ["window", "bucket", "factor", "cache"])?;
    Some(Settings {
        window: number(window)?,
        bucket: number(bucket)?,
        factor: at_most_top(factor)?,
        cache: number(cache)?,
        ..Settings::default()
    })
}

pub fn refused(t: u64, code: u64) -> String {
    format!(
        "t={t} code={code} answer=refused factor=0000000000000000 wait=0 left=0 total=0 declined=0\n"
    )
}

/// The line for an answer and the totals after it.
pub fn told(t: u64, answer: Answer, total: u64, declined: u64) -> String {
    let (word, factor, wait, left) = match answer {
        Answer::Refused(code) => return refused(t, code),
        Answer::Allowed => ("allowed", 0, 0, 0),
        Answer::Rejected { wait, left, .. } => ("rejected", 0, wait, left),
        Answer::Suppressed { factor, admitted: true } => ("yes", factor, 0, 0),
        Answer::Suppressed { factor, admitted: false } => ("no", factor, 0, 0),
        Answer::Total(_) => ("value", 0, 0, 0),
        Answer::Snapshot { factor, .. } => ("value", factor, 0, 0),
        Answer::Held => ("held", 0, 0, 0),
        other => unreachable!("no program has {other:?}"),
    };
    format!(
        "t={t} code=0 answer={word} factor={factor:016x} wait={wait} left={left} total={total} declined={declined}\n"
    )
}

/// The key's totals as its room has them.
pub fn stored(room: &[u64], key: &[u8]) -> (u64, u64) {
    let slot = find(room, SOLE, key).map(|at| slot(room, at)).filter(|slot| slot.has_series());
    slot.map_or((0, 0), |slot| (slot.total(), slot.declined()))
}

/// Bytes as a text with a character for each, so that bad ones stay bad.
pub fn lines(input: &[u8]) -> Vec<String> {
    let text: String = input.iter().map(|byte| char::from(*byte)).collect();
    text.strip_suffix('\n').unwrap_or(&text).split('\n').map(str::to_string).collect()
}

/// The settings of the first line, or the one line that is printed for a bad one.
pub fn begun(lines: &[String]) -> Result<Settings, String> {
    match settings(&lines[0]) {
        None => Err(refused(0, 14)),
        Some(settings) if settings_fault(&settings) != 0 => {
            Err(refused(0, settings_fault(&settings)))
        }
        Some(settings) => Ok(settings),
    }
}

/// In what the printed lines differ from those wanted, with the input.
pub fn differs(program: &str, input: &[u8], printed: &[u8], wanted: &str) -> Option<String> {
    if printed == wanted.as_bytes() {
        return None;
    }
    let printed = String::from_utf8_lossy(printed).into_owned();
    let at = printed.lines().zip(wanted.lines()).position(|(a, b)| a != b);
    let input = String::from_utf8_lossy(input);
    Some(format!("{program} differs at line {at:?} of the input\n{input}"))
}
