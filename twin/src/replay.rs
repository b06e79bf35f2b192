//! Replays the list of the original's answers: every answer, and the key's words after every call.

use crate::calls::{Answer, Call, Limiters, Op, Rooms};
use crate::parties::{Caller, SOLE};
use crate::room::{find, is_room, slot, slots};
use crate::rules::{Comparator, Kind, Mode, Settings};
use crate::set::Wanted;

/// How many calls were replayed, and the lines that differed.
#[derive(Default)]
pub struct Replayed {
    pub calls: u64,
    pub differed: Vec<String>,
}

fn numbers<const N: usize>(line: &str) -> [u64; N] {
    let all: Vec<u64> =
        line.split(' ').skip(1).map(|text| text.parse().expect("a number")).collect();
    all.try_into().expect("as many numbers as the line's kind has")
}

fn comparator(number: u64, operand: u64) -> Comparator {
    match number {
        0 => Comparator::Always,
        1 => Comparator::Eq(operand),
        2 => Comparator::Lt(operand),
        3 => Comparator::Gt(operand),
        _ => Comparator::Ne(operand),
    }
}

fn mode(number: u64) -> Mode {
    match number {
        0 => Mode::Replace,
        1 => Mode::PreserveNewest,
        _ => Mode::PreserveOldest,
    }
}

/// The call of a line's op and its seven numbers: rate, count, draw, comparator, operand, mode, stale. The sole party is
/// promised every slot, of which the suppressed room has so many.
fn op(op: u64, given: &[u64], slots: u64) -> Op {
    let (rate, count, draw, stale) = (f64::from_bits(given[0]), given[1], given[2], given[6]);
    let kind = if op > 10 { Kind::Suppressed } else { Kind::Absolute };
    let wanted =
        Wanted { rate, comparator: comparator(given[3], given[4]), count, mode: mode(given[5]) };
    match op {
        1 => Op::AbsoluteInc { rate, count },
        2 => Op::IsAllowed,
        3 => Op::AbsoluteGet,
        9 => Op::CleanupBoth { stale, first: slots, second: 0 },
        11 => Op::SuppressedInc { rate, count, draw },
        12 => Op::GetSuppressionFactor,
        13 => Op::SuppressedGet,
        4 | 14 => Op::SetRateLimit { kind, rate },
        5 | 15 => Op::Delete { kind },
        6 | 16 => Op::Clear { kind },
        7 | 17 => Op::Set { kind, wanted },
        8 | 18 => Op::Cleanup { kind, stale },
        _ => panic!("no call has the number {op}"),
    }
}

/// An answer's kind and numbers, as the list has them.
pub fn answer_numbers(answer: Answer) -> [u64; 4] {
    let optional =
        |kind, value: Option<u64>| [kind, u64::from(value.is_some()), value.unwrap_or(0), 0];
    match answer {
        Answer::Refused(number) => [0, number, 0, 0],
        Answer::Done => [1, 0, 0, 0],
        Answer::Allowed => [2, 0, 0, 0],
        Answer::Rejected { window, wait, left } => [3, window, wait, left],
        Answer::Suppressed { factor, admitted } => [4, factor, u64::from(admitted), 0],
        Answer::Total(total) => [5, total, 0, 0],
        Answer::Snapshot { total, declined, factor } => [6, total, declined, factor],
        Answer::Factor(factor) => [7, factor, 0, 0],
        Answer::OldRate(rate) => optional(8, rate),
        Answer::Deleted(accepted) => optional(9, accepted),
        Answer::Set { matched, previous, current } => [10, u64::from(matched), previous, current],
        Answer::Buckets(buckets) => [11, buckets, 0, 0],
        Answer::Held => unreachable!("the list has no shots"),
    }
}

/// Use, total, declined, buckets, factor and factor time of the key's slot, 0 where it has none.
fn key_numbers(room: &[u64], key: &[u8]) -> [u64; 6] {
    let mut numbers = [0; 6];
    let Some(slot) = find(room, SOLE, key).map(|at| slot(room, at)) else {
        return numbers;
    };
    if slot.has_series() {
        numbers[0] += 1;
        numbers[1..4].copy_from_slice(&[slot.total(), slot.declined(), slot.buckets()]);
    }
    if slot.has_factor() {
        numbers[0] += 2;
        numbers[4..].copy_from_slice(&[slot.factor_bits(), slot.factor_time()]);
    }
    numbers
}

/// A call's answer and the key's state after it, as the list has them.
fn outcome(
    limiters: &dyn Limiters,
    settings: &Settings,
    rooms: &mut Rooms,
    given: &[u64],
) -> [u64; 10] {
    let mut bytes: Vec<u8> = given[3..7].iter().flat_map(|word| word.to_le_bytes()).collect();
    bytes.resize(64, b'x');
    let key = &bytes[..given[2] as usize];
    let kind = if given[0] > 10 { Kind::Suppressed } else { Kind::Absolute };
    let caller = Caller::alone(slots(rooms.of(kind)));
    let call = Call { caller, key, op: op(given[0], &given[7..14], rooms.suppressed[0]) };
    let answer = limiters.call(settings, rooms, given[1], call, &mut vec![]);
    let mut numbers = [0; 10];
    numbers[..4].copy_from_slice(&answer_numbers(answer));
    if is_room(rooms.of(kind)) {
        numbers[4..].copy_from_slice(&key_numbers(rooms.of(kind), key));
    }
    numbers
}

/// What a list's lines do before a call: `h` begins with empty rooms, `w` changes a word.
fn prepare(settings: &mut Settings, rooms: &mut Rooms, line: &str) {
    if line.starts_with('h') {
        let [slots, ring, window, bucket, cache, factor] = numbers(line);
        let factor = f64::from_bits(factor);
        *settings = Settings { window, bucket, cache, factor, ..Settings::default() };
        *rooms = Rooms::empty(slots as usize, ring as usize);
    }
    if line.starts_with('w') {
        let [which, at, value] = numbers(line);
        let kind = if which == 0 { Kind::Absolute } else { Kind::Suppressed };
        rooms.of_mut(kind)[at as usize] = value;
    }
}

/// The list with its answers: each `c` line has its first fourteen numbers, and gets the other ten.
pub fn filled(limiters: &dyn Limiters, list: &str) -> String {
    let mut settings = Settings::default();
    let mut rooms = Rooms::empty(1, 1);
    let mut out = String::new();
    for line in list.lines() {
        out.push_str(line);
        if line.starts_with('c') {
            let given: [u64; 14] = numbers(line);
            for number in outcome(limiters, &settings, &mut rooms, &given) {
                out.push_str(&format!(" {number}"));
            }
        }
        prepare(&mut settings, &mut rooms, line);
        out.push('\n');
    }
    out
}

/// Runs the whole list.
pub fn replay(limiters: &dyn Limiters, list: &str) -> Replayed {
    let mut settings = Settings::default();
    let mut rooms = Rooms::empty(1, 1);
    let mut replayed = Replayed::default();
    for line in list.lines() {
        if line.starts_with('c') {
            let given: [u64; 24] = numbers(line);
            replayed.calls += 1;
            if outcome(limiters, &settings, &mut rooms, &given) != given[14..] {
                replayed.differed.push(line.to_string());
            }
        }
        prepare(&mut settings, &mut rooms, line);
    }
    replayed
}
