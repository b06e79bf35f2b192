//! A limiter's whole state as one list of numbers, from the original and from a room's words.

use twin::room::{Bucket, slot};
use twin::rules::Kind;

use crate::expected::{At, find, used};
use crate::original::{Original, Series, text};

/// A party's key as bytes, for rooms, and as a text, for the original.
#[derive(Clone, Debug)]
pub struct Key {
    pub party: u64,
    pub bytes: Vec<u8>,
    pub text: String,
}

impl Key {
    pub fn new(party: u64, bytes: &[u8]) -> Self {
        Key { party, bytes: bytes.to_vec(), text: text(party, bytes) }
    }
}

/// A series; `live` leaves out the buckets that are expired then.
fn put_series(series: Series, live: Option<At>, out: &mut Vec<u64>) {
    let Series { limit, total, declined, buckets } = series;
    let gone = |bucket: &&Bucket| live.is_some_and(|at| !at.is_live(bucket));
    let expired: u64 = buckets.iter().filter(gone).map(|bucket| bucket.count).sum();
    out.extend([limit, total - expired, declined]);
    for bucket in buckets.iter().filter(|bucket| !gone(bucket)) {
        out.extend([bucket.count, bucket.declined, bucket.time]);
    }
}

/// One key: a mark for series and factor, then what they hold.
fn put_key(
    series: Option<Series>,
    cached: Option<(u64, u64)>,
    live: Option<At>,
    out: &mut Vec<u64>,
) {
    out.push(u64::from(series.is_some()) + 2 * u64::from(cached.is_some()));
    if let Some((factor, time)) = cached {
        out.extend([factor, time]);
    }
    if let Some(series) = series {
        put_series(series, live, out);
    }
}

/// The original's state over the keys in play, and that it holds no others.
pub fn of_original(
    original: &Original,
    kind: Kind,
    keys: &[Key],
    live: Option<At>,
    out: &mut Vec<u64>,
) {
    out.clear();
    for key in keys {
        let cached = if kind == Kind::Suppressed { original.cached(&key.text) } else { None };
        put_key(original.series(kind, &key.text), cached, live, out);
    }
    let (series, factors) = original.sizes(kind);
    out.extend([series as u64, factors as u64]);
}

/// What a room holds for a party's key, as plain values.
pub fn of_key(room: &[u64], party: u64, key: &[u8]) -> (Option<Series>, Option<(u64, u64)>) {
    let Some(at) = find(room, party, key) else {
        return (None, None);
    };
    let slot = slot(room, at);
    let series = slot.has_series().then(|| Series {
        limit: slot.limit_bits(),
        total: slot.total(),
        declined: slot.declined(),
        buckets: (0..slot.buckets()).map(|index| slot.bucket(index)).collect(),
    });
    let cached = slot.has_factor().then(|| (slot.factor_bits(), slot.factor_time()));
    (series, cached)
}

/// A room's state over the keys in play, and that it holds no others.
pub fn of_room(room: &[u64], keys: &[Key], live: Option<At>, out: &mut Vec<u64>) {
    out.clear();
    for key in keys {
        let (series, cached) = of_key(room, key.party, &key.bytes);
        put_key(series, cached, live, out);
    }
    let all = || used(room).map(|at| slot(room, at));
    let series = all().filter(|slot| slot.has_series()).count();
    let factors = all().filter(|slot| slot.has_factor()).count();
    out.extend([series as u64, factors as u64]);
}
