//! The suppressed limiter's calls over its room.

use crate::parties::Caller;
use crate::room::{Found, Gone, SlotMut, crowded, judge, own_slot, slot, slot_mut, store_reading};
use crate::rules::{
    Decision, Kind, Refusal, Settings, Standing, TOP, Worked, admits, cut, judge_rate, refuse_if,
};

const KIND: Kind = Kind::Suppressed;

/// Live total, live declined count and the factor.
#[derive(Clone, Copy, Debug, Default, PartialEq)]
pub struct Snapshot {
    pub total: u64,
    pub declined: u64,
    pub factor: f64,
}

/// Where the key stands once the expired buckets that the call found are out. A key without a series stands at `limit` with no bucket.
fn standing(
    settings: &Settings,
    room: &[u64],
    found: &Found,
    reading: u64,
    limit: f64,
) -> Standing {
    let expired = found.expired;
    let cached = found
        .slot
        .filter(|_| expired.buckets == 0)
        .and_then(|at| slot(room, at).cached(settings, reading));
    match found.series(room) {
        None => Standing { hard: limit, total: 0, declined: 0, buckets: 0, cached },
        Some(at) => {
            let slot = slot(room, at);
            Standing {
                hard: slot.limit(),
                total: slot.total() - expired.count,
                declined: slot.declined() - expired.declined,
                buckets: slot.buckets() - expired.buckets,
                cached,
            }
        }
    }
}

/// The counts of the key's last second, of the buckets that stay.
fn last_second(settings: &Settings, room: &[u64], found: &Found, reading: u64) -> u64 {
    let gone = found.expired.buckets;
    found.series(room).map_or(0, |at| slot(room, at).last_second(gone, settings, reading))
}

/// What an increment decides, whether it is admitted, and what it caches.
struct Outcome {
    decision: Decision,
    admitted: bool,
    to_cache: Option<f64>,
}

/// The decision by the forecast.
fn decide(
    settings: &Settings,
    standing: &Standing,
    last_second: impl FnOnce() -> u64,
    count: u64,
    draw: u64,
) -> Outcome {
    let hard = cut(standing.hard);
    let soft = settings.soft(standing.hard);
    let forecast = standing.accepted() + count;
    if forecast == hard {
        return Outcome { decision: Decision::Allowed, admitted: true, to_cache: Some(1.0) };
    }
    if forecast <= soft {
        return Outcome { decision: Decision::Allowed, admitted: true, to_cache: None };
    }
    let Worked { factor, to_cache } = if forecast > hard {
        Worked { factor: 1.0, to_cache: Some(1.0) }
    } else {
        standing.factor(settings, last_second)
    };
    let admitted = admits(factor, draw);
    Outcome { decision: Decision::Suppressed { factor, admitted }, admitted, to_cache }
}

/// Expired buckets go, and the cached factor with them.
fn evict(slot: &mut SlotMut, expired: Gone) {
    if expired.buckets > 0 {
        slot.cut(expired);
        slot.forget();
    }
}

/// Admission by forecast and draw; the count is kept in any case.
pub fn inc(
    settings: &Settings,
    room: &mut [u64],
    reading: u64,
    caller: Caller,
    key: &[u8],
    rate: f64,
    count: u64,
    draw: u64,
) -> Result<Decision, Refusal> {
    let found = judge(KIND, settings, room, reading, caller, key)?;
    judge_rate(rate)?;
    refuse_if(draw >= TOP, 9)?;
    let found = found.at_first_look(settings, room, reading);
    match found.series(room) {
        Some(at) => crowded(slot(room, at), found.expired, settings, reading, count)?,
        None => refuse_if(count > TOP, 10)?,
    }
    found.judge_share(caller)?;
    let limit = settings.limit(KIND, rate);
    let stands = standing(settings, room, &found, reading, limit);
    let last_second = || last_second(settings, room, &found, reading);
    let outcome = decide(settings, &stands, last_second, count, draw);
    let is_new = found.series(room).is_none();
    let mut slot = own_slot(room, found.slot, caller.party, key);
    if is_new {
        slot.open(limit);
    }
    evict(&mut slot, found.expired);
    if let Some(factor) = outcome.to_cache {
        slot.cache(factor, reading);
    }
    let declined = if outcome.admitted { 0 } else { count };
    slot.join_or_add(count, declined, settings, reading);
    store_reading(room, reading);
    Ok(outcome.decision)
}

/// The factor of a slot in use: cached below age C, else fresh and cached.
fn factor_of(settings: &Settings, room: &mut [u64], found: &Found, at: usize, reading: u64) -> f64 {
    let worked = standing(settings, room, found, reading, 0.0)
        .factor(settings, || last_second(settings, room, found, reading));
    let is_lone = found.series(room).is_none();
    let mut slot = slot_mut(room, at);
    evict(&mut slot, found.expired);
    if let Some(factor) = worked.to_cache {
        if is_lone {
            slot.blank();
        }
        slot.cache(factor, reading);
    }
    worked.factor
}

/// Live totals and the factor; zeros for an unknown key, which takes no slot.
pub fn get(
    settings: &Settings,
    room: &mut [u64],
    reading: u64,
    caller: Caller,
    key: &[u8],
) -> Result<Snapshot, Refusal> {
    let found = judge(KIND, settings, room, reading, caller, key)?;
    let snapshot = match found.series(room) {
        None => Snapshot::default(),
        Some(at) => {
            let factor = factor_of(settings, room, &found, at, reading);
            let slot = slot(room, at);
            Snapshot { total: slot.total(), declined: slot.declined(), factor }
        }
    };
    store_reading(room, reading);
    Ok(snapshot)
}

/// The factor; a key without a slot takes one and caches 0.
pub fn get_suppression_factor(
    settings: &Settings,
    room: &mut [u64],
    reading: u64,
    caller: Caller,
    key: &[u8],
) -> Result<f64, Refusal> {
    let judged = judge(KIND, settings, room, reading, caller, key)?;
    let found = judged.at_first_look(settings, room, reading);
    found.judge_share(caller)?;
    let factor = match found.slot {
        Some(at) => factor_of(settings, room, &found, at, reading),
        None => {
            own_slot(room, None, caller.party, key).cache(0.0, reading);
            0.0
        }
    };
    store_reading(room, reading);
    Ok(factor)
}
