//! Every history of up to three calls over a small alphabet, or a part of them: of one party, and of two.

use twin::calls::{Call, Op};
use twin::parties::Caller;
use twin::rules::{ClockMode, Comparator, Kind, Mode, Settings};
use twin::set::Wanted;

use crate::callers::Promise;
use crate::compare::{Comparison, History};
use crate::state::Key;

/// How far the reading rises, and the call.
#[derive(Clone, Copy)]
struct Letter<'a> {
    rise: u64,
    call: Call<'a>,
}

fn set(kind: Kind, rate: f64, comparator: Comparator, count: u64, mode: Mode) -> Op {
    Op::Set { kind, wanted: Wanted { rate, comparator, count, mode } }
}

fn shared_ops(kind: Kind, rate: f64) -> Vec<Op> {
    vec![
        Op::SetRateLimit { kind, rate },
        Op::SetRateLimit { kind, rate: rate * 3.0 },
        Op::Delete { kind },
        Op::Clear { kind },
        set(kind, rate, Comparator::Always, 0, Mode::Replace),
        set(kind, rate, Comparator::Always, 2, Mode::Replace),
        set(kind, rate, Comparator::Eq(0), 1, Mode::PreserveNewest),
        set(kind, rate, Comparator::Always, 2, Mode::PreserveNewest),
        set(kind, rate, Comparator::Always, 1, Mode::PreserveOldest),
        set(kind, rate, Comparator::Gt(0), 3, Mode::PreserveOldest),
        Op::Cleanup { kind, stale: 0 },
        Op::Cleanup { kind, stale: 101 },
    ]
}

fn absolute_ops(rate: f64) -> Vec<Op> {
    let mut ops = shared_ops(Kind::Absolute, rate);
    ops.extend((0..3).map(|count| Op::AbsoluteInc { rate, count }));
    ops.extend([Op::AbsoluteInc { rate, count: 1 << 53 }, Op::IsAllowed, Op::AbsoluteGet]);
    ops
}

fn suppressed_ops(rate: f64) -> Vec<Op> {
    let mut ops = shared_ops(Kind::Suppressed, rate);
    let least = (0..4).map(|count| Op::SuppressedInc { rate, count, draw: 0 });
    let most = [1, 2].map(|count| Op::SuppressedInc { rate, count, draw: (1 << 53) - 1 });
    ops.extend(least.chain(most));
    ops.extend([Op::SuppressedInc { rate, count: 1 << 53, draw: 0 }]);
    ops.extend([Op::GetSuppressionFactor, Op::SuppressedGet]);
    ops
}

fn letters<'a>(ops: &[Op], rises: &[u64], keys: &'a [Key]) -> Vec<Letter<'a>> {
    let caller: Caller = Promise::all(keys[0].party, 1).to(keys[0].party);
    let call = |key: &'a Key, op: &Op| Call { caller, key: &key.bytes, op: *op };
    let mut letters: Vec<Letter> = ops
        .iter()
        .flat_map(|op| rises.iter().map(|rise| Letter { rise: *rise, call: call(&keys[0], op) }))
        .collect();
    // A second key, for rooms with one slot.
    let other = ops.iter().filter(|op| {
        matches!(
            op,
            Op::AbsoluteInc { count: 1, .. }
                | Op::SuppressedInc { count: 1, .. }
                | Op::GetSuppressionFactor
        )
    });
    letters.extend(other.map(|op| Letter { rise: 0, call: call(&keys[1], op) }));
    letters
}

/// Where few words are wanted, one in so many is taken. Prime to the numbers of letters, so that each letter comes in each place.
pub const FEW: u64 = 17;

/// The room's slots where two parties share it: each is promised one, and one is left over.
const SHARED_SLOTS: usize = 3;
const SHARED: Promise = Promise { first: 1, second: 1 };

/// Fewer calls, of either party, with the same bytes; and with a second key, for which it has no slot.
fn shared_letters<'a>(kind: Kind, rate: f64, rises: &[u64; 3], keys: &'a [Key]) -> Vec<Letter<'a>> {
    let (inc, ask, get) = match kind {
        Kind::Absolute => (Op::AbsoluteInc { rate, count: 1 }, Op::IsAllowed, Op::AbsoluteGet),
        Kind::Suppressed => {
            let inc = Op::SuppressedInc { rate, count: 2, draw: 0 };
            (inc, Op::GetSuppressionFactor, Op::SuppressedGet)
        }
    };
    let ops = [
        inc,
        ask,
        get,
        Op::SetRateLimit { kind, rate: rate * 3.0 },
        Op::Delete { kind },
        Op::Clear { kind },
        set(kind, rate, Comparator::Always, 0, Mode::Replace),
        set(kind, rate, Comparator::Always, 2, Mode::Replace),
        Op::Cleanup { kind, stale: 101 },
    ];
    let mut letters = Vec::new();
    for party in [1, 2] {
        let caller = SHARED.to(party);
        for (op, rise) in ops.iter().flat_map(|op| [(*op, 0), (*op, rises[2])]) {
            letters.push(Letter { rise, call: Call { caller, key: &keys[0].bytes, op } });
        }
        letters.push(Letter { rise: 0, call: Call { caller, key: &keys[1].bytes, op: inc } });
    }
    letters
}

/// All words of three letters, or one in `comparison.short`; `next` counts them.
fn words(
    comparison: &mut Comparison,
    settings: Settings,
    slots: usize,
    letters: &[Letter],
    keys: &[Key],
    next: &mut u64,
) {
    for first in letters {
        for second in letters {
            if !comparison.goes_on() {
                return;
            }
            for third in letters {
                *next += 1;
                if !next.is_multiple_of(comparison.short) {
                    continue;
                }
                let mut history = History::new(settings, slots, 2, keys);
                comparison.begin(&history);
                let mut reading = 0;
                for letter in [first, second, third] {
                    reading += letter.rise;
                    if !comparison.step(&mut history, &settings, reading, letter.call) {
                        break;
                    }
                }
            }
        }
    }
}

/// Settings with a window of 1 s, a rate that makes limits of 0 to 4, and how far a reading may rise, in ticks: to or over an edge.
#[derive(Clone, Copy)]
struct Case {
    bucket: u64,
    cache: u64,
    factor: f64,
    rate: f64,
    rises: [u64; 3],
}

const IN_MILLISECONDS: [Case; 4] = [
    Case { bucket: 100, cache: 100, factor: 1.0, rate: 2.0, rises: [0, 100, 1001] },
    Case { bucket: 100, cache: 101, factor: 2.0, rate: 2.0, rises: [0, 101, 1000] },
    Case { bucket: 1000, cache: 101, factor: 4.0, rate: 0.5, rises: [0, 101, 1001] },
    Case { bucket: 2000, cache: 1002, factor: 1.5, rate: 1.4, rises: [0, 1000, 1001] },
];

/// Edges that are missed by a tick, by all but a tick of a millisecond, or not at all.
const IN_NANOSECONDS: [Case; 5] = [
    Case {
        bucket: 100,
        cache: 100,
        factor: 1.0,
        rate: 2.0,
        rises: [0, 100_999_999, 1_000_000_001],
    },
    Case {
        bucket: 100,
        cache: 102,
        factor: 2.0,
        rate: 2.0,
        rises: [0, 101_999_999, 1_000_400_000],
    },
    Case {
        bucket: 1000,
        cache: 101,
        factor: 4.0,
        rate: 0.5,
        rises: [0, 101_000_000, 1_000_999_999],
    },
    Case { bucket: 2000, cache: 1001, factor: 1.5, rate: 1.4, rises: [0, 999_999, 1_000_000_001] },
    Case { bucket: 999, cache: 1, factor: 2.0, rate: 1.5, rises: [0, 1, 1_000_000_000] },
];

fn cases(clock: ClockMode) -> &'static [Case] {
    match clock {
        ClockMode::Milliseconds => &IN_MILLISECONDS,
        ClockMode::Nanoseconds => &IN_NANOSECONDS,
    }
}

/// The short histories of one party; where some are left out, the seed says which.
pub fn run(comparison: &mut Comparison, seed: u64) {
    let mut next = seed % comparison.short;
    let clock = comparison.clock;
    for (at, Case { bucket, cache, factor, rate, rises }) in
        cases(clock).iter().copied().enumerate()
    {
        // The parties have the room by turns.
        let party = 1 + at as u64 % 2;
        let keys = [Key::new(party, b"a"), Key::new(party, b"b")];
        let settings = Settings { window: 1, bucket, cache, factor, clock };
        for ops in [absolute_ops(rate), suppressed_ops(rate)] {
            words(comparison, settings, 1, &letters(&ops, &rises, &keys), &keys, &mut next);
        }
    }
}

/// Those of two parties, for the first two settings.
pub fn run_shared(comparison: &mut Comparison, seed: u64) {
    let keys: Vec<Key> = [1, 2]
        .into_iter()
        .flat_map(|party| [b"a", b"b"].map(|name| Key::new(party, name)))
        .collect();
    let mut next = seed % comparison.short;
    let clock = comparison.clock;
    for Case { bucket, cache, factor, rate, rises } in cases(clock)[..2].iter().copied() {
        let settings = Settings { window: 1, bucket, cache, factor, clock };
        for kind in [Kind::Absolute, Kind::Suppressed] {
            let letters = shared_letters(kind, rate, &rises, &keys);
            words(comparison, settings, SHARED_SLOTS, &letters, &keys, &mut next);
        }
    }
}
