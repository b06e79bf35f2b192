//! The absolute limiter's calls over its room.

use crate::parties::Caller;
use crate::room::{
    Gone, Slot, SlotMut, crowded, cut_limit, judge, own_slot, slot, slot_mut, store_reading,
};
use crate::rules::{Decision, Kind, Refusal, Settings, TOP, judge_rate, refuse_if};

const KIND: Kind = Kind::Absolute;

/// Rejected by the oldest bucket that stays, or 0 and 0 with none.
fn rejected(slot: Slot, settings: &Settings, reading: u64) -> Decision {
    let (wait, left) = match slot.buckets() {
        0 => (0, 0),
        _ => {
            let oldest = slot.bucket(0);
            let age = settings.clock.whole(reading - oldest.time);
            (settings.window_ms() - age, oldest.count)
        }
    };
    Decision::Rejected { window: settings.window, wait, left }
}

/// What the test takes out: nothing while the stored total is below the limit, else the expired that go at a first look.
fn tried(slot: Slot, expired: Gone, settings: &Settings, reading: u64) -> Gone {
    if slot.total() < cut_limit(slot) {
        return Gone::default();
    }
    slot.first_look(expired, settings, reading)
}

/// Whether the total is below the limit once `gone` is out.
fn is_below(slot: Slot, gone: Gone) -> bool {
    slot.total() - gone.count < cut_limit(slot)
}

fn inc_known(
    slot: &mut SlotMut,
    expired: Gone,
    settings: &Settings,
    reading: u64,
    count: u64,
) -> Result<Decision, Refusal> {
    let stands = slot.read();
    let mut gone = tried(stands, expired, settings, reading);
    if !is_below(stands, gone) {
        slot.cut(gone);
        return Ok(rejected(slot.read(), settings, reading));
    }
    if crowded(stands, gone, settings, reading, count).is_err() {
        // All that are expired to the tick, whatever the first look said.
        gone = expired;
        crowded(stands, gone, settings, reading, count)?;
    }
    slot.cut(gone);
    slot.join_or_add(count, 0, settings, reading);
    Ok(Decision::Allowed)
}

/// Admission and, if allowed, the count.
pub fn inc(
    settings: &Settings,
    room: &mut [u64],
    reading: u64,
    caller: Caller,
    key: &[u8],
    rate: f64,
    count: u64,
) -> Result<Decision, Refusal> {
    let found = judge(KIND, settings, room, reading, caller, key)?;
    judge_rate(rate)?;
    let decision = match found.slot {
        Some(at) => inc_known(&mut slot_mut(room, at), found.expired, settings, reading, count)?,
        None => {
            refuse_if(count > TOP, 10)?;
            found.judge_share(caller)?;
            let mut slot = own_slot(room, None, caller.party, key);
            slot.open(settings.limit(KIND, rate));
            slot.add(count, 0, reading);
            Decision::Allowed
        }
    };
    store_reading(room, reading);
    Ok(decision)
}

/// Admission alone.
pub fn is_allowed(
    settings: &Settings,
    room: &mut [u64],
    reading: u64,
    caller: Caller,
    key: &[u8],
) -> Result<Decision, Refusal> {
    let found = judge(KIND, settings, room, reading, caller, key)?;
    let decision = match found.slot {
        None => Decision::Allowed,
        Some(at) => {
            let mut slot = slot_mut(room, at);
            let gone = tried(slot.read(), found.expired, settings, reading);
            slot.cut(gone);
            if is_below(slot.read(), Gone::default()) {
                Decision::Allowed
            } else {
                rejected(slot.read(), settings, reading)
            }
        }
    };
    store_reading(room, reading);
    Ok(decision)
}

/// The live total; expired buckets go.
pub fn get(
    settings: &Settings,
    room: &mut [u64],
    reading: u64,
    caller: Caller,
    key: &[u8],
) -> Result<u64, Refusal> {
    let found = judge(KIND, settings, room, reading, caller, key)?;
    if let Some(at) = found.slot {
        slot_mut(room, at).cut(found.expired);
    }
    store_reading(room, reading);
    Ok(found.slot.map_or(0, |at| slot(room, at).total()))
}
