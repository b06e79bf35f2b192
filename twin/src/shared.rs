//! The calls that both limiters have in common; the room's kind tells limits and soundness.

use crate::parties::{Caller, Held, judge_party};
use crate::room::{
    Bucket, Gone, Slot, find, free, holders, is_room, judge, judge_key, judge_room, judge_slot,
    keep, last_reading, release, scan_slot, slot, slot_mut, slots, store_reading, used,
};
use crate::rules::{ClockMode, Kind, Refusal, Settings, judge_rate, refuse_if};

/// Setting a rate touches only a known series and gives the old rate back.
pub fn set_rate_limit(
    kind: Kind,
    settings: &Settings,
    room: &mut [u64],
    reading: u64,
    caller: Caller,
    key: &[u8],
    rate: f64,
) -> Result<Option<f64>, Refusal> {
    let found = judge(kind, settings, room, reading, caller, key)?;
    judge_rate(rate)?;
    let old = found.series(room).map(|at| {
        let mut slot = slot_mut(room, at);
        let (before, after) = (slot.read().limit(), settings.limit(kind, rate));
        if before != after {
            slot.set_limit(after);
            slot.forget();
        }
        settings.rate_of(kind, before)
    });
    store_reading(room, reading);
    Ok(old)
}

/// Gives live total less declined, 0 for a lone cached factor, or none; frees the slot.
pub fn delete(
    kind: Kind,
    settings: &Settings,
    room: &mut [u64],
    reading: u64,
    caller: Caller,
    key: &[u8],
) -> Result<Option<u64>, Refusal> {
    let found = judge(kind, settings, room, reading, caller, key)?;
    let accepted = found.slot.map(|at| {
        let accepted = live_accepted(slot(room, at), found.expired);
        free(room, at);
        accepted
    });
    store_reading(room, reading);
    Ok(accepted)
}

fn live_accepted(slot: Slot, expired: Gone) -> u64 {
    if !slot.has_series() {
        return 0;
    }
    (slot.total() - expired.count) - (slot.declined() - expired.declined)
}

/// Every slot that the caller's party holds becomes free; lengths and holders only are judged.
pub fn clear(
    settings: &Settings,
    room: &mut [u64],
    reading: u64,
    caller: Caller,
) -> Result<(), Refusal> {
    let held = judge_room(settings, room)?;
    judge_caller(room, reading, caller, held)?;
    release(room, holders(room).of(caller.party));
    store_reading(room, reading);
    Ok(())
}

/// Refusals 6, 15 and 16 of a call without a key.
fn judge_caller(room: &[u64], reading: u64, caller: Caller, held: Held) -> Result<(), Refusal> {
    refuse_if(reading < last_reading(room), 6)?;
    caller.judge(slots(room), held)
}

/// The refusals of a cleanup, which judges every slot in use.
pub fn judge_cleanup(
    kind: Kind,
    settings: &Settings,
    room: &[u64],
    reading: u64,
    caller: Caller,
) -> Result<(), Refusal> {
    let shares = judge_room(settings, room)?;
    let last = last_reading(room);
    let sound = used(room)
        .map(|at| slot(room, at))
        .all(|slot| scan_slot(kind, settings, slot, last, reading).is_some());
    refuse_if(!sound, 5)?;
    judge_caller(room, reading, caller, shares)
}

/// Whether a series has a newest bucket whose cut age is not over the stale time.
fn is_fresh(slot: Slot, clock: ClockMode, reading: u64, stale: u64) -> bool {
    slot.newest(0).is_some_and(|newest| clock.whole(reading - newest.time) <= stale)
}

/// The cleanup of a room that is judged, whoever holds its slots. Any stale time may be asked for: ages are divided, since it may be too
/// great to be multiplied.
pub fn sweep(clock: ClockMode, room: &mut [u64], reading: u64, stale: u64) {
    for at in used(room) {
        let stands = slot(room, at);
        let keeps_series = stands.has_series() && is_fresh(stands, clock, reading, stale);
        let keeps_factor =
            stands.has_factor() && clock.whole(reading - stands.factor_time()) < stale;
        keep(room, at, keeps_series, keeps_factor);
    }
    store_reading(room, reading);
}

/// Drops stale series and stale cached factors, of both parties.
pub fn cleanup(
    kind: Kind,
    settings: &Settings,
    room: &mut [u64],
    reading: u64,
    caller: Caller,
    stale: u64,
) -> Result<(), Refusal> {
    judge_cleanup(kind, settings, room, reading, caller)?;
    sweep(settings.clock, room, reading, stale);
    Ok(())
}

/// Fills the row with buckets, oldest first, as many as fit; gives the ring's bucket count.
pub fn read_out(
    kind: Kind,
    settings: &Settings,
    room: &[u64],
    party: u64,
    key: &[u8],
    row: &mut [Bucket],
) -> Result<u64, Refusal> {
    let last = if is_room(room) { last_reading(room) } else { 0 };
    let found = judge_slot(kind, settings, room, last, party, key)?;
    judge_key(key)?;
    judge_party(party)?;
    let Some(at) = found.series(room) else {
        return Ok(0);
    };
    let slot = slot(room, at);
    for (place, index) in row.iter_mut().zip(0..slot.buckets()) {
        *place = slot.bucket(index);
    }
    Ok(slot.buckets())
}

/// The key's stored total and declined count, zeros for an unknown key.
pub fn stored(room: &[u64], party: u64, key: &[u8]) -> (u64, u64) {
    match find(room, party, key).map(|at| slot(room, at)) {
        Some(slot) if slot.has_series() => (slot.total(), slot.declined()),
        _ => (0, 0),
    }
}
