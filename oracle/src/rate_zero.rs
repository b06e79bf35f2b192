//! A factor worked out at perceived rate zero. The original has a NaN there; ticket 2 says what is answered, and so what the key holds.

use twin::calls::{Answer, Call, Op, Rooms};
use twin::rules::Settings;

use crate::expected::At;
use crate::state::of_key;

/// The factor that an answer tells, if it tells one.
pub fn factor(answer: Answer) -> Option<f64> {
    match answer {
        Answer::Suppressed { factor, .. }
        | Answer::Snapshot { factor, .. }
        | Answer::Factor(factor) => Some(f64::from_bits(factor)),
        _ => None,
    }
}

/// The answer with factor 0, which admits any draw. No live bucket has a count.
pub fn due(op: Op) -> Answer {
    match op {
        Op::SuppressedInc { .. } => Answer::Suppressed { factor: 0, admitted: true },
        Op::SuppressedGet => Answer::Snapshot { total: 0, declined: 0, factor: 0 },
        Op::GetSuppressionFactor => Answer::Factor(0),
        op => unreachable!("{op:?} works out no factor"),
    }
}

/// What is wrong with the answer, or with the key's state after it: the buckets that the call finds expired are out, an increment's count
/// is in, and factor 0 is cached with the reading.
pub fn fault(
    settings: &Settings,
    before: &Rooms,
    after: &Rooms,
    reading: u64,
    call: Call,
    answer: Answer,
) -> Option<String> {
    let due = due(call.op);
    if answer != due {
        return Some(format!("{due:?} is due at perceived rate zero"));
    }
    let party = call.caller.party;
    let series = of_key(&before.suppressed, party, call.key).0.expect("a key with a bucket");
    let at = At { settings, reading };
    let left = at.left(&call.op, &series.buckets);
    let count = if let Op::SuppressedInc { count, .. } = call.op { Some(count) } else { None };
    let due = (Some(at.counted(series.limit, left, count)), Some((0, reading)));
    let held = of_key(&after.suppressed, party, call.key);
    (held != due).then(|| format!("at perceived rate zero {due:?} is due, and {held:?} is held"))
}
