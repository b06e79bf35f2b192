//! A fixed list of calls with the original's answers, as lines of numbers that a small program can replay.
//! README.md says what each number is.

use twin::calls::{Answer, Call, Op};
use twin::parties::SOLE;
use twin::replay::answer_numbers;
use twin::rules::{ClockMode, Comparator, Kind, Mode, Settings};
use twin::set::Wanted;

use crate::compare::{Comparison, History};
use crate::original::Original;
use crate::random;

/// `h slots ring window bucket cache factor`: a history starts from empty rooms. Readings are in milliseconds.
pub fn history_line(history: &History) -> String {
    let Settings { window, bucket, cache, factor, .. } = history.settings;
    let (slots, ring) = (history.rooms.absolute[0], history.rooms.absolute[1]);
    format!("h {slots} {ring} {window} {bucket} {cache} {}\n", factor.to_bits())
}

/// The numbers a call gives besides its reading and key.
#[derive(Default)]
struct Numbers {
    op: u64,
    rate: f64,
    count: u64,
    draw: u64,
    comparator: u64,
    operand: u64,
    mode: u64,
    stale: u64,
}

/// An operation's number in the absolute room; 10 more in the suppressed one.
fn in_room(kind: Kind, op: u64) -> u64 {
    match kind {
        Kind::Absolute => op,
        Kind::Suppressed => 10 + op,
    }
}

fn set_numbers(kind: Kind, wanted: Wanted) -> Numbers {
    let (comparator, operand) = match wanted.comparator {
        Comparator::Always => (0, 0),
        Comparator::Eq(operand) => (1, operand),
        Comparator::Lt(operand) => (2, operand),
        Comparator::Gt(operand) => (3, operand),
        Comparator::Ne(operand) => (4, operand),
    };
    let mode = match wanted.mode {
        Mode::Replace => 0,
        Mode::PreserveNewest => 1,
        Mode::PreserveOldest => 2,
    };
    let op = in_room(kind, 7);
    Numbers {
        op,
        rate: wanted.rate,
        count: wanted.count,
        comparator,
        operand,
        mode,
        ..Numbers::default()
    }
}

fn numbers(op: Op) -> Option<Numbers> {
    let plain = |op| Numbers { op, ..Numbers::default() };
    Some(match op {
        Op::AbsoluteInc { rate, count } => Numbers { rate, count, ..plain(1) },
        Op::IsAllowed => plain(2),
        Op::AbsoluteGet => plain(3),
        Op::SuppressedInc { rate, count, draw } => Numbers { rate, count, draw, ..plain(11) },
        Op::GetSuppressionFactor => plain(12),
        Op::SuppressedGet => plain(13),
        Op::SetRateLimit { kind, rate } => Numbers { rate, ..plain(in_room(kind, 4)) },
        Op::Delete { kind } => plain(in_room(kind, 5)),
        Op::Clear { kind } => plain(in_room(kind, 6)),
        Op::Set { kind, wanted } => set_numbers(kind, wanted),
        Op::Cleanup { kind, stale } => Numbers { stale, ..plain(in_room(kind, 8)) },
        Op::CleanupBoth { stale, .. } => Numbers { stale, ..plain(9) },
        Op::ReadOut { .. } | Op::NamelessSet { .. } => return None,
    })
}

/// What the original holds for the key: use, total, declined, buckets, factor, factor time.
fn key_numbers(original: &Original, kind: Kind, key: &[u8]) -> [u64; 6] {
    let text = crate::original::text(SOLE, key);
    let series = original.series(kind, &text);
    let cached = if kind == Kind::Suppressed { original.cached(&text) } else { None };
    let uses = u64::from(series.is_some()) + 2 * u64::from(cached.is_some());
    let series = series.unwrap_or_default();
    let (factor, time) = cached.unwrap_or_default();
    [uses, series.total, series.declined, series.buckets.len() as u64, factor, time]
}

/// `c`, the call's 14 numbers, the answer's 4, and 6 on the key's state after it.
pub fn call_line(
    original: &Original,
    kind: Kind,
    reading: u64,
    call: Call,
    answer: Answer,
) -> String {
    let Some(n) = numbers(call.op) else {
        return String::new();
    };
    // A clear or cleanup ignores its key, which may be too long.
    let key = if call.key.len() > 32 { &[] } else { call.key };
    let mut bytes = [0; 32];
    bytes[..key.len()].copy_from_slice(key);
    let words = bytes.chunks(8).map(|word| u64::from_le_bytes(word.try_into().expect("8 bytes")));
    let mut line = vec![n.op, reading, key.len() as u64];
    line.extend(words);
    line.extend([n.rate.to_bits(), n.count, n.draw, n.comparator, n.operand, n.mode, n.stale]);
    line.extend(answer_numbers(answer));
    line.extend(key_numbers(original, kind, key));
    let line: Vec<String> = line.iter().map(u64::to_string).collect();
    format!("c {}\n", line.join(" "))
}

/// Prints the list: so many calls from this seed.
pub fn print(calls: u64, seed: u64) {
    let mut comparison = Comparison::new(ClockMode::Milliseconds, vec![]);
    comparison.record = Some(String::new());
    random::run(&mut comparison, calls, seed);
    assert_eq!(comparison.differed, 0);
    print!("{}", comparison.record.unwrap_or_default());
}
