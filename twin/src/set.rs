//! `set_if` and `set_if_preserve_history`, alike in both limiters.

use crate::parties::Caller;
use crate::room::{Found, Slot, SlotMut, free, judge, own_slot, slot, slot_mut, store_reading};
use crate::rules::{
    Comparator, Kind, Mode, Refusal, SetOutcome, Settings, TOP, judge_rate, refuse_if,
};

/// What a set is asked to do.
#[derive(Clone, Copy, Debug)]
pub struct Wanted {
    pub rate: f64,
    pub comparator: Comparator,
    pub count: u64,
    pub mode: Mode,
}

impl Wanted {
    /// Nothing changes: the comparator is not met, an unknown key is set to 0, or a known one is as wanted already.
    fn changes_nothing(&self, known: Option<Slot>, found: &Found, live: u64, limit: f64) -> bool {
        if !self.comparator.matches(live) {
            return true;
        }
        let Some(slot) = known else {
            return self.count == 0;
        };
        self.mode != Mode::Replace
            && self.count > 0
            && self.count == live
            && found.expired.buckets == 0
            && slot.limit() == limit
    }

    /// The history of a series without expired buckets is made to hold the count.
    fn update(&self, slot: &mut SlotMut, live: u64, reading: u64) {
        let keeps_oldest = self.mode == Mode::PreserveOldest;
        if self.mode == Mode::Replace {
            slot.cut_all();
            slot.add(self.count, 0, reading);
        } else if self.count > live {
            slot.give(self.count - live, keeps_oldest, reading);
        } else {
            slot.take_out(live - self.count, !keeps_oldest);
        }
    }
}

/// The key's slot, once all is judged that a set is refused for before its comparator is looked at: 1 to 7, 15, 16, 8 and 10.
fn judge_set(
    kind: Kind,
    settings: &Settings,
    room: &[u64],
    reading: u64,
    caller: Caller,
    key: &[u8],
    rate: f64,
    count: u64,
) -> Result<Found, Refusal> {
    let found = judge(kind, settings, room, reading, caller, key)?;
    judge_rate(rate)?;
    refuse_if(count > TOP, 10)?;
    Ok(found)
}

/// A set whose comparator or preservation names nothing meets 14, after all that is judged without them.
pub fn nameless(
    kind: Kind,
    settings: &Settings,
    room: &[u64],
    reading: u64,
    caller: Caller,
    key: &[u8],
    rate: f64,
    count: u64,
) -> Result<SetOutcome, Refusal> {
    judge_set(kind, settings, room, reading, caller, key, rate, count)?;
    Err(Refusal(14))
}

/// A set with mode Replace is `set_if`, with another `set_if_preserve_history`.
pub fn set(
    kind: Kind,
    settings: &Settings,
    room: &mut [u64],
    reading: u64,
    caller: Caller,
    key: &[u8],
    wanted: Wanted,
) -> Result<SetOutcome, Refusal> {
    let Wanted { rate, count, .. } = wanted;
    let found = judge_set(kind, settings, room, reading, caller, key, rate, count)?;
    let limit = settings.limit(kind, wanted.rate);
    let known = found.series(room).map(|at| slot(room, at));
    let live = known.map_or(0, |slot| slot.total() - found.expired.count);
    let mut current = live;
    if !wanted.changes_nothing(known, &found, live, limit) {
        change(room, &found, caller, key, limit, wanted, live, reading)?;
        current = wanted.count;
    }
    store_reading(room, reading);
    Ok(SetOutcome { matched: wanted.comparator.matches(live), previous: live, current })
}

/// The change of a set: count 0 ends a series; otherwise evict, store the limit, update. The cached factor goes.
fn change(
    room: &mut [u64],
    found: &Found,
    caller: Caller,
    key: &[u8],
    limit: f64,
    wanted: Wanted,
    live: u64,
    reading: u64,
) -> Result<(), Refusal> {
    match found.series(room) {
        Some(at) if wanted.count == 0 => free(room, at),
        Some(at) => {
            let mut slot = slot_mut(room, at);
            slot.cut(found.expired);
            slot.set_limit(limit);
            wanted.update(&mut slot, live, reading);
            slot.forget();
        }
        None => {
            found.judge_share(caller)?;
            let mut slot = own_slot(room, found.slot, caller.party, key);
            slot.open(limit);
            slot.add(wanted.count, 0, reading);
            slot.forget();
        }
    }
    Ok(())
}
