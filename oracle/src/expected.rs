//! Which refusal a call must meet, and where a factor is worked out at perceived rate zero, read from document 01 and tickets 2, 6 and 8 on
//! lists of buckets and of holders.

use twin::calls::{Call, Op, Rooms};
use twin::parties::Caller;
use twin::room::{Bucket, last_reading};
use twin::rules::{ClockMode, Kind, Settings};

use crate::original::Series;
use crate::state::of_key;

const TOP: u64 = 1 << 53;

/// The number that no call is refused with: ticket 2 took its case away.
pub const UNUSED: u64 = 13;

/// What a call must meet.
#[derive(Clone, Copy, Debug, Default, PartialEq, Eq)]
pub struct Expected {
    /// 0 for none.
    pub refusal: u64,
    /// An absolute increment must take expired buckets out to avoid a refusal.
    pub takes_out: bool,
    /// A factor is worked out at perceived rate zero.
    pub at_rate_zero: bool,
    /// The key has a bucket that is expired to the tick and does not look so at a first look.
    pub between_looks: bool,
}

fn refused(refusal: u64) -> Expected {
    Expected { refusal, ..Expected::default() }
}

/// How many ticks a millisecond has.
pub fn ticks(clock: ClockMode) -> u64 {
    if clock == ClockMode::Nanoseconds { 1_000_000 } else { 1 }
}

/// A reading, and how ages are compared at it.
#[derive(Clone, Copy)]
pub struct At<'a> {
    pub settings: &'a Settings,
    pub reading: u64,
}

impl At<'_> {
    /// An age in whole milliseconds, and the ticks beyond.
    fn age(&self, time: u64) -> (u64, u64) {
        let (age, ticks) = (self.reading - time, ticks(self.settings.clock));
        (age / ticks, age % ticks)
    }

    /// Not expired, to the tick.
    pub fn is_live(&self, bucket: &Bucket) -> bool {
        self.age(bucket.time) <= (1000 * self.settings.window, 0)
    }

    /// Not expired at a first look, to which the ticks beyond are nothing.
    pub fn looks_live(&self, bucket: &Bucket) -> bool {
        self.age(bucket.time).0 <= 1000 * self.settings.window
    }

    pub fn live(&self, buckets: &[Bucket]) -> Vec<Bucket> {
        buckets.iter().filter(|bucket| self.is_live(bucket)).copied().collect()
    }

    /// What is left where an eviction hangs on a first look at the oldest.
    pub fn looked(&self, buckets: &[Bucket]) -> Vec<Bucket> {
        let evicts = buckets.first().is_some_and(|oldest| !self.looks_live(oldest));
        if evicts { self.live(buckets) } else { buckets.to_vec() }
    }

    /// What a suppressed call leaves that works a factor out. `get` alone takes no first look.
    pub fn left(&self, op: &Op, buckets: &[Bucket]) -> Vec<Bucket> {
        match op {
            Op::SuppressedGet => self.live(buckets),
            _ => self.looked(buckets),
        }
    }

    fn joins(&self, newest: &Bucket) -> bool {
        self.age(newest.time).0 <= self.settings.bucket
    }

    fn uses_cached(&self, time: u64) -> bool {
        self.age(time).0 < self.settings.cache
    }

    /// A series of these buckets, once a count that is admitted has come to them.
    pub fn counted(&self, limit: u64, mut buckets: Vec<Bucket>, count: Option<u64>) -> Series {
        if let Some(count) = count {
            match buckets.last_mut() {
                Some(newest) if self.joins(newest) => newest.count += count,
                _ => buckets.push(Bucket { count, declined: 0, time: self.reading }),
            }
        }
        let declined = buckets.iter().map(|bucket| bucket.declined).sum();
        Series { limit, total: sum(&buckets), declined, buckets }
    }
}

/// The call and what it meets.
struct Met<'a> {
    at: At<'a>,
    room: &'a [u64],
    caller: Caller,
    key: &'a [u8],
    series: Option<Series>,
    cached: Option<(u64, u64)>,
}

fn sum(buckets: &[Bucket]) -> u64 {
    buckets.iter().map(|bucket| bucket.count).sum()
}

impl Met<'_> {
    /// 10 or 12 for a count that goes to these buckets, or 0.
    fn full(&self, buckets: &[Bucket], count: u64) -> u64 {
        let ring = self.room[1] as usize;
        if u128::from(sum(buckets)) + u128::from(count) > u128::from(TOP) {
            return 10;
        }
        let joins = buckets.last().is_some_and(|newest| self.at.joins(newest));
        if !joins && buckets.len() == ring { 12 } else { 0 }
    }

    /// 11 where a slot is needed and the party holds as many as it is promised.
    fn no_slot(&self) -> u64 {
        let Caller { party, first, second } = self.caller;
        let (held, promised) = match (party, held(self.room)) {
            (1, (held, _)) => (held, first),
            (_, (_, held)) => (held, second),
        };
        if find(self.room, party, self.key).is_none() && held == promised { 11 } else { 0 }
    }

    fn new_series(&self, count: u64) -> u64 {
        if count > TOP { 10 } else { self.no_slot() }
    }

    fn absolute_inc(&self, count: u64) -> Expected {
        let Some(series) = &self.series else {
            return refused(self.new_series(count));
        };
        let limit = f64::from_bits(series.limit) as u64;
        let looked = self.at.looked(&series.buckets);
        let is_below = sum(&series.buckets) < limit;
        if !is_below && sum(&looked) >= limit {
            return Expected::default();
        }
        let held = if is_below { &series.buckets } else { &looked };
        let takes_out = self.full(held, count) != 0;
        let live = self.at.live(&series.buckets);
        let refusal = if takes_out { self.full(&live, count) } else { 0 };
        Expected { takes_out: takes_out && refusal == 0, ..refused(refusal) }
    }

    /// Whether a factor that is asked for is worked out, and at perceived rate zero: exactly at S = 0, H at least 1, some bucket, total 0.
    fn is_at_rate_zero(&self, op: &Op) -> bool {
        let Some(series) = &self.series else {
            return false;
        };
        let left = self.at.left(op, &series.buckets);
        let hard = f64::from_bits(series.limit);
        let evicts = left.len() < series.buckets.len();
        let uses_cached = !evicts && self.cached.is_some_and(|(_, time)| self.at.uses_cached(time));
        let soft = (hard / self.at.settings.factor) as u64;
        let is_zero = soft == 0 && hard as u64 >= 1 && !left.is_empty() && sum(&left) == 0;
        is_zero && !uses_cached
    }

    fn is_between_looks(&self) -> bool {
        let buckets = self.series.iter().flat_map(|series| &series.buckets);
        buckets.into_iter().any(|bucket| self.at.looks_live(bucket) && !self.at.is_live(bucket))
    }

    fn suppressed_inc(&self, op: &Op, count: u64) -> Expected {
        let Some(series) = &self.series else {
            return refused(self.new_series(count));
        };
        let left = self.at.left(op, &series.buckets);
        let full = self.full(&left, count);
        if full != 0 {
            return refused(full);
        }
        let hard = f64::from_bits(series.limit);
        let declined: u64 = left.iter().map(|bucket| bucket.declined).sum();
        let forecast = sum(&left) - declined + count;
        let asks = forecast > (hard / self.at.settings.factor) as u64 && forecast < hard as u64;
        Expected { at_rate_zero: asks && self.is_at_rate_zero(op), ..Expected::default() }
    }

    /// What a call meets that meets none of 1 to 8, 15 and 16.
    fn late(&self, op: &Op) -> Expected {
        match *op {
            Op::AbsoluteInc { count, .. } => self.absolute_inc(count),
            Op::SuppressedInc { draw, .. } if draw >= TOP => refused(9),
            Op::SuppressedInc { count, .. } => self.suppressed_inc(op, count),
            Op::SuppressedGet => {
                Expected { at_rate_zero: self.is_at_rate_zero(op), ..Expected::default() }
            }
            // A key that needs a slot has no bucket.
            Op::GetSuppressionFactor => {
                Expected { at_rate_zero: self.is_at_rate_zero(op), ..refused(self.no_slot()) }
            }
            Op::Set { wanted, .. } => {
                let is_new =
                    self.series.is_none() && wanted.comparator.matches(0) && wanted.count > 0;
                refused(match wanted.count {
                    count if count > TOP => 10,
                    _ if is_new => self.no_slot(),
                    _ => 0,
                })
            }
            // The lowest number goes first, and a set's count is judged before its comparator. Whether a slot is needed (11) hangs on it.
            Op::NamelessSet { count, .. } => refused(if count > TOP { 10 } else { 14 }),
            _ => Expected::default(),
        }
    }
}

/// The first of 1 to 4, or 0.
pub fn settings_fault(settings: &Settings) -> u64 {
    // Any clock mode is in range.
    let Settings { window, bucket, cache, factor, clock: _ } = *settings;
    match () {
        _ if window == 0 || window > 1 << 25 => 1,
        _ if bucket == 0 || bucket > 1 << 32 => 2,
        _ if cache == 0 || cache > 1 << 32 => 3,
        _ if factor.is_nan() || factor.is_infinite() || factor < 1.0 => 4,
        _ => 0,
    }
}

fn is_bad_rate(rate: f64) -> bool {
    rate.is_nan() || rate.is_infinite() || rate < 2f64.powi(-900)
}

/// Where the two words of holders' bits and the directory entries begin.
pub const HOLDERS: usize = 3;
pub const HEADER: usize = HOLDERS + 2;
pub const ENTRY: usize = 6;

/// Whether the lengths are right.
pub fn is_sized(room: &[u64]) -> bool {
    let [slots, ring, _, ..] = room else {
        return false;
    };
    let is_small = (1..=64).contains(slots) && (1..=512).contains(ring);
    is_small && room.len() as u64 == 5 + slots * (6 + 7 + 3 * ring)
}

/// Who holds a slot of a room or an entry of a table, by its two bits: 0 nobody, 1 and 2 a party, 3 neither.
pub fn holder(words: &[u64], at: usize) -> u64 {
    let bit = |word: u64| word / 2u64.pow(at as u32) % 2;
    bit(words[HOLDERS]) + 2 * bit(words[HOLDERS + 1])
}

/// The slot, or the entry, gets this holder; the other bits stay.
pub fn set_holder(words: &mut [u64], at: usize, holder: u64) {
    for (word, bit) in [(HOLDERS, holder % 2), (HOLDERS + 1, holder / 2)] {
        let others = words[word] & !(1 << at);
        words[word] = others + (bit << at);
    }
}

/// Who holds each slot of a room.
pub fn holders(room: &[u64]) -> impl Iterator<Item = u64> {
    (0..room[0] as usize).map(|at| holder(room, at))
}

/// The slots of a room that are in use.
pub fn used(room: &[u64]) -> impl Iterator<Item = usize> {
    (0..room[0] as usize).filter(|at| holder(room, *at) != 0)
}

/// How many slots the first party holds, and the second.
pub fn held(room: &[u64]) -> (u64, u64) {
    let of = |party| holders(room).filter(|holder| *holder == party).count() as u64;
    (of(1), of(2))
}

/// The lowest slot that a party holds with this key; a party other than 1 and 2 holds none.
pub fn find(room: &[u64], party: u64, key: &[u8]) -> Option<usize> {
    if ![1, 2].contains(&party) {
        return None;
    }
    let has_key = |at: &usize| {
        let entry = entry(room, *at);
        let bytes = key_bytes(entry);
        let (own, rest) = bytes.split_at(key.len().min(32));
        entry[1] == key.len() as u64 && own == key && rest.iter().all(|byte| *byte == 0)
    };
    let slots = 0..room[0] as usize;
    slots.filter(|at| holder(room, *at) == party).find(has_key)
}

/// Whether promises together pass the room's slots, or a party holds more than its own.
fn is_broken(first: u64, second: u64, room: &[u64]) -> bool {
    let held = held(room);
    u128::from(first) + u128::from(second) > u128::from(room[0])
        || held.0 > first
        || held.1 > second
}

/// A directory entry's 32 bytes.
fn key_bytes(entry: &[u64]) -> Vec<u8> {
    entry[2..6].iter().flat_map(|word| word.to_le_bytes()).collect()
}

fn entry(room: &[u64], at: usize) -> &[u64] {
    &room[HEADER + ENTRY * at..][..ENTRY]
}

/// Whether a series' words are sound.
fn is_sound_series(kind: Kind, settings: &Settings, body: &[u64], ring: u64, last: u64) -> bool {
    let [limit, total, declined, head, buckets] = body[..5] else {
        return false;
    };
    if head >= ring || buckets > ring {
        return false;
    }
    // All counts of the ring, then all declined, then all times.
    let cell = |at: u64| [0, 1, 2].map(|part| body[(7 + part * ring + at) as usize]);
    let cells: Vec<[u64; 3]> = (head..head + buckets).map(|at| cell(at % ring)).collect();
    let sum = |part: usize| cells.iter().map(|cell| u128::from(cell[part])).sum::<u128>();
    let factor = if kind == Kind::Absolute { 1.0 } else { settings.factor };
    let per_second = f64::from_bits(limit) / settings.window as f64 / factor;
    let declines = |cell: &[u64; 3]| match kind {
        Kind::Absolute => cell[1] == 0,
        Kind::Suppressed => cell[1] <= cell[0],
    };
    cells.windows(2).all(|pair| pair[0][2] <= pair[1][2])
        && cells.iter().all(|cell| cell[2] <= last)
        && cells.iter().all(declines)
        && sum(0) == u128::from(total)
        && sum(1) == u128::from(declined)
        && total <= TOP
        && per_second.partial_cmp(&0.0) == Some(std::cmp::Ordering::Greater)
}

/// Whether a slot in use is sound.
pub fn is_sound(kind: Kind, settings: &Settings, room: &[u64], at: usize) -> bool {
    let (slots, ring, last) = (room[0] as usize, room[1], room[2]);
    let size = 7 + 3 * ring as usize;
    let entry = entry(room, at);
    let body = &room[HEADER + ENTRY * slots + at * size..][..size];
    let (uses, length) = (entry[0], entry[1]);
    let is_known_use = if kind == Kind::Absolute { uses == 1 } else { (1..=3).contains(&uses) };
    let is_key = length <= 32 && key_bytes(entry)[length as usize..].iter().all(|byte| *byte == 0);
    if !is_known_use || !is_key {
        return false;
    }
    let factor = f64::from_bits(body[5]);
    let is_factor = factor.is_sign_positive() && (0.0..=1.0).contains(&factor) && body[6] <= last;
    (uses & 1 == 0 || is_sound_series(kind, settings, body, ring, last))
        && (uses & 2 == 0 || is_factor)
}

/// Whether a call meets 5 in this room.
fn is_unsound(settings: &Settings, kind: Kind, room: &[u64], call: Call) -> bool {
    if !is_sized(room) {
        return true;
    }
    // A slot in use that is neither party's.
    if holders(room).any(|holder| holder == 3) {
        return true;
    }
    let sound = |at: usize| is_sound(kind, settings, room, at);
    match call.op {
        Op::Clear { .. } => false,
        op if has_key(&op) => find(room, call.caller.party, call.key).is_some_and(|at| !sound(at)),
        _ => !used(room).all(sound),
    }
}

/// The rate a call gives, if it gives one.
fn rate(op: &Op) -> Option<f64> {
    match op {
        Op::AbsoluteInc { rate, .. }
        | Op::SuppressedInc { rate, .. }
        | Op::SetRateLimit { rate, .. }
        | Op::NamelessSet { rate, .. } => Some(*rate),
        Op::Set { wanted, .. } => Some(wanted.rate),
        _ => None,
    }
}

/// The room a call with a key concerns.
pub fn kind(op: &Op) -> Kind {
    match op {
        Op::AbsoluteInc { .. } | Op::IsAllowed | Op::AbsoluteGet | Op::CleanupBoth { .. } => {
            Kind::Absolute
        }
        Op::SuppressedInc { .. } | Op::SuppressedGet | Op::GetSuppressionFactor => Kind::Suppressed,
        Op::SetRateLimit { kind, .. }
        | Op::Delete { kind }
        | Op::Clear { kind }
        | Op::Set { kind, .. }
        | Op::NamelessSet { kind, .. }
        | Op::Cleanup { kind, .. }
        | Op::ReadOut { kind } => *kind,
    }
}

/// Whether a call names a key.
pub fn has_key(op: &Op) -> bool {
    !matches!(op, Op::Clear { .. } | Op::Cleanup { .. } | Op::CleanupBoth { .. })
}

/// The first of 1 to 7, 15, 16 and 8, or 0.
fn early(settings: &Settings, rooms: &Rooms, reading: u64, call: Call) -> u64 {
    let fault = settings_fault(settings);
    if fault != 0 {
        return fault;
    }
    let room = rooms.of(kind(&call.op));
    let is_both = matches!(call.op, Op::CleanupBoth { .. });
    if is_unsound(settings, kind(&call.op), room, call)
        || (is_both && is_unsound(settings, Kind::Suppressed, &rooms.suppressed, call))
    {
        return 5;
    }
    let is_read_out = matches!(call.op, Op::ReadOut { .. });
    let Caller { party, first, second } = call.caller;
    let mut last = last_reading(room);
    let mut is_broken_promise = is_broken(first, second, room);
    if let Op::CleanupBoth { first, second, .. } = call.op {
        last = last.max(last_reading(&rooms.suppressed));
        is_broken_promise |= is_broken(first, second, &rooms.suppressed);
    }
    match () {
        _ if reading < last && !is_read_out => 6,
        _ if has_key(&call.op) && call.key.len() > 32 => 7,
        _ if ![1, 2].contains(&party) => 15,
        _ if is_broken_promise && !is_read_out => 16,
        _ if rate(&call.op).is_some_and(is_bad_rate) => 8,
        _ => 0,
    }
}

pub fn expected(settings: &Settings, rooms: &Rooms, reading: u64, call: Call) -> Expected {
    let number = early(settings, rooms, reading, call);
    if number != 0 || !has_key(&call.op) {
        return refused(number);
    }
    let room = rooms.of(kind(&call.op));
    let Call { caller, key, .. } = call;
    let (series, cached) = of_key(room, caller.party, key);
    let met = Met { at: At { settings, reading }, room, caller, key, series, cached };
    let is_read_out = matches!(call.op, Op::ReadOut { .. });
    Expected { between_looks: !is_read_out && met.is_between_looks(), ..met.late(&call.op) }
}
