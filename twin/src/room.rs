//! The lent room: where its words lie, how a slot is found and judged, and the changes of docs/WORDS.md.

use crate::parties::{Caller, Held, Holders, Slots, held};
use crate::rules::{Kind, Refusal, Settings, TOP, cut, refuse_if};
#[cfg(trusting)]
pub use crate::trusting::scan_slot;

const LAST: usize = 2;
const FIRSTS: usize = 3;
const SECONDS: usize = 4;
/// How many words stand before the entries.
pub const HEADER: usize = 5;
/// A slot has a bit in each party's word.
pub const MOST_SLOTS: usize = 64;
pub const ENTRY: usize = 6;
const FIXED: usize = 7;
const CELL: usize = 3;

const USE: usize = 0;
pub const LENGTH: usize = 1;
const KEY: usize = 2;

const LIMIT: usize = 0;
const TOTAL: usize = 1;
const DECLINED: usize = 2;
const HEAD: usize = 3;
const BUCKETS: usize = 4;
const FACTOR: usize = 5;
const FACTOR_TIME: usize = 6;

const SERIES_BIT: u64 = 1;
const FACTOR_BIT: u64 = 2;

/// How many words a room of these lengths has.
pub fn words_of(slots: usize, ring: usize) -> usize {
    HEADER + slots * ENTRY + slots * (FIXED + CELL * ring)
}

/// An empty room, last reading 0.
pub fn empty_room(slots: usize, ring: usize) -> Vec<u64> {
    let mut room = vec![0; words_of(slots, ring)];
    room[0] = slots as u64;
    room[1] = ring as u64;
    room
}

/// Whether the lengths are right.
pub fn is_room(room: &[u64]) -> bool {
    room.len() >= HEADER
        && (1..=MOST_SLOTS as u64).contains(&room[0])
        && (1..=512).contains(&room[1])
        && room.len() == words_of(room[0] as usize, room[1] as usize)
}

pub fn slots(room: &[u64]) -> usize {
    room[0] as usize
}

/// Who holds the room's slots; bits of slots that it does not have are not looked at.
pub fn holders(room: &[u64]) -> Holders {
    let all = u64::MAX >> (MOST_SLOTS - slots(room));
    Holders { all, first: room[FIRSTS] & all, second: room[SECONDS] & all }
}

/// The slots that are in use.
pub fn used(room: &[u64]) -> Slots {
    Slots(holders(room).used())
}

/// Whether nobody holds the slot.
pub fn is_free(room: &[u64], at: usize) -> bool {
    (room[FIRSTS] | room[SECONDS]) >> at & 1 == 0
}

/// Nobody holds the slots of these bits any more.
pub fn release(room: &mut [u64], slots: u64) {
    room[FIRSTS] &= !slots;
    room[SECONDS] &= !slots;
}

/// Nobody holds the slot any more; its other words stay.
pub fn free(room: &mut [u64], at: usize) {
    release(room, 1 << at);
}

/// The party holds the slot, and the other one does not.
fn hold(room: &mut [u64], at: usize, party: u64) {
    free(room, at);
    let own = if party == 1 { FIRSTS } else { SECONDS };
    room[own] |= 1 << at;
}

fn ring(room: &[u64]) -> usize {
    room[1] as usize
}

pub fn last_reading(room: &[u64]) -> u64 {
    room[LAST]
}

/// The last change of every call that is not refused.
pub fn store_reading(room: &mut [u64], reading: u64) {
    room[LAST] = reading;
}

pub fn entry_start(slot: usize) -> usize {
    HEADER + ENTRY * slot
}

fn body_start(room: &[u64], slot: usize) -> usize {
    HEADER + ENTRY * slots(room) + slot * (FIXED + CELL * ring(room))
}

/// A key as the directory has it: length, then the bytes in four words.
pub fn packed(key: &[u8]) -> [u64; 5] {
    let mut words = [key.len() as u64, 0, 0, 0, 0];
    for (at, byte) in key.iter().enumerate() {
        words[1 + at / 8] |= u64::from(*byte) << (8 * (at % 8));
    }
    words
}

/// Whether a directory entry's length fits and its unused bytes are 0.
fn is_packed(entry: &[u64]) -> bool {
    let length = entry[LENGTH];
    length <= 32
        && (0..4).all(|word| {
            let used = length.saturating_sub(8 * word).min(8);
            used == 8 || entry[KEY + word as usize] >> (8 * used) == 0
        })
}

/// The lowest slot that the party holds with this key.
pub fn find(room: &[u64], party: u64, key: &[u8]) -> Option<usize> {
    if key.len() > 32 {
        return None;
    }
    let wanted = packed(key);
    let (entries, _) = room[HEADER..].as_chunks::<ENTRY>();
    Slots(holders(room).of(party)).find(|at| entries[*at][LENGTH..] == wanted)
}

/// The lowest free slot. There is one wherever a party holds less than it is promised.
fn vacant(room: &[u64]) -> usize {
    Slots(holders(room).free()).next().expect("a slot that is promised")
}

/// One bucket of a ring.
#[repr(C)]
#[derive(Clone, Copy, Debug, Default, PartialEq, Eq)]
pub struct Bucket {
    pub count: u64,
    pub declined: u64,
    pub time: u64,
}

/// A slot's words, to read: its directory entry, the fixed words of its body, and of the ring's cells all counts, then all declined
/// counts, then all times.
#[derive(Clone, Copy)]
pub struct Slot<'a> {
    entry: &'a [u64],
    fixed: &'a [u64],
    counts: &'a [u64],
    declines: &'a [u64],
    times: &'a [u64],
}

pub fn slot(room: &[u64], at: usize) -> Slot<'_> {
    let entry = &room[entry_start(at)..][..ENTRY];
    let (fixed, cells) = room[body_start(room, at)..].split_at(FIXED);
    let (counts, cells) = cells.split_at(ring(room));
    let (declines, cells) = cells.split_at(ring(room));
    Slot { entry, fixed, counts, declines, times: &cells[..ring(room)] }
}

fn wrap(index: u64, ring: u64) -> u64 {
    if index < ring { index } else { index - ring }
}

impl<'a> Slot<'a> {
    pub fn has_series(&self) -> bool {
        self.entry[USE] & SERIES_BIT != 0
    }

    pub fn has_factor(&self) -> bool {
        self.entry[USE] & FACTOR_BIT != 0
    }

    /// The key's length and packed bytes.
    pub fn key_words(&self) -> &'a [u64] {
        &self.entry[LENGTH..]
    }

    pub fn limit_bits(&self) -> u64 {
        self.fixed[LIMIT]
    }

    pub fn limit(&self) -> f64 {
        f64::from_bits(self.limit_bits())
    }

    pub fn total(&self) -> u64 {
        self.fixed[TOTAL]
    }

    pub fn declined(&self) -> u64 {
        self.fixed[DECLINED]
    }

    pub fn buckets(&self) -> u64 {
        self.fixed[BUCKETS]
    }

    pub fn factor_bits(&self) -> u64 {
        self.fixed[FACTOR]
    }

    pub fn factor_time(&self) -> u64 {
        self.fixed[FACTOR_TIME]
    }

    pub fn ring(&self) -> u64 {
        self.counts.len() as u64
    }

    /// The cell of bucket `index`, oldest first.
    fn cell(&self, index: u64) -> usize {
        wrap(self.fixed[HEAD] + index, self.ring()) as usize
    }

    #[inline]
    pub fn bucket(&self, index: u64) -> Bucket {
        let cell = self.cell(index);
        Bucket { count: self.counts[cell], declined: self.declines[cell], time: self.times[cell] }
    }

    /// The newest bucket once the oldest `gone` are out.
    pub fn newest(&self, gone: u64) -> Option<Bucket> {
        (self.buckets() > gone).then(|| self.bucket(self.buckets() - 1))
    }

    /// Whether an increment joins the newest bucket once the oldest `gone` are out.
    pub fn joins(&self, gone: u64, settings: &Settings, reading: u64) -> bool {
        self.newest(gone).is_some_and(|newest| settings.joins(reading - newest.time))
    }

    /// The counts at a cut age of at most 1000 ms, from the newest on, once the oldest `gone` are out: of a window of 1 s a bucket that is
    /// expired by less than a millisecond would be among them.
    pub fn last_second(&self, gone: u64, settings: &Settings, reading: u64) -> u64 {
        let longest = settings.longest_in_last_second();
        (gone..self.buckets())
            .rev()
            .map(|index| self.bucket(index))
            .take_while(|bucket| reading - bucket.time <= longest)
            .map(|bucket| bucket.count)
            .sum()
    }

    /// All buckets, by the totals.
    fn all(&self) -> Gone {
        Gone { buckets: self.buckets(), count: self.total(), declined: self.declined() }
    }

    /// The expired buckets of a sound series. Times do not fall, so the expired are the oldest, and where the newest is
    /// one of them, all are; with no bucket the totals are 0.
    #[inline]
    pub fn expired(&self, settings: &Settings, reading: u64) -> Gone {
        let longest = settings.longest_live();
        let is_expired = |index: u64| {
            let time = self.times[self.cell(index)];
            reading.saturating_sub(time) > longest
        };
        if self.buckets() == 0 || is_expired(self.buckets() - 1) {
            return self.all();
        }
        let mut gone = Gone::default();
        // Ends at the newest.
        while is_expired(gone.buckets) {
            gone.add(self.bucket(gone.buckets));
        }
        gone
    }

    /// Of the expired buckets those that go at a first look: all, or none where the oldest bucket does not look expired.
    pub fn first_look(&self, expired: Gone, settings: &Settings, reading: u64) -> Gone {
        let evicts = expired.buckets > 0 && settings.looks_expired(reading - self.bucket(0).time);
        if evicts { expired } else { Gone::default() }
    }

    /// The cached factor, if there is one that may be used.
    pub fn cached(&self, settings: &Settings, reading: u64) -> Option<f64> {
        (self.has_factor() && settings.uses_cached(reading - self.factor_time()))
            .then(|| f64::from_bits(self.factor_bits()))
    }
}

/// The oldest buckets that go: how many, with their counts and declined counts.
#[derive(Clone, Copy, Debug, Default)]
pub struct Gone {
    pub buckets: u64,
    pub count: u64,
    pub declined: u64,
}

impl Gone {
    fn add(&mut self, next: Bucket) {
        self.buckets += 1;
        self.count += next.count;
        self.declined += next.declined;
    }
}

/// The expired buckets, or none where the series is unsound, which one pass over all buckets tells.
fn scan_series(
    kind: Kind,
    settings: &Settings,
    slot: Slot,
    last: u64,
    reading: u64,
) -> Option<Gone> {
    if slot.fixed[HEAD] >= slot.ring() || slot.buckets() > slot.ring() {
        return None;
    }
    if slot.total() > TOP || !settings.is_limit(kind, slot.limit()) {
        return None;
    }
    let (mut count, mut declined, mut time) = (0u64, 0u64, 0u64);
    for index in 0..slot.buckets() {
        let bucket = slot.bucket(index);
        let most_declined = if kind == Kind::Absolute { 0 } else { bucket.count };
        if bucket.time < time || bucket.time > last || bucket.declined > most_declined {
            return None;
        }
        time = bucket.time;
        count = count.checked_add(bucket.count)?;
        declined += bucket.declined;
    }
    (count == slot.total() && declined == slot.declined()).then(|| slot.expired(settings, reading))
}

/// The expired buckets of a slot in use, or none where it is unsound.
#[cfg(not(trusting))]
pub fn scan_slot(
    kind: Kind,
    settings: &Settings,
    slot: Slot,
    last: u64,
    reading: u64,
) -> Option<Gone> {
    let most_use = if kind == Kind::Absolute { 1 } else { 3 };
    if !(1..=most_use).contains(&slot.entry[USE]) || !is_packed(slot.entry) {
        return None;
    }
    if slot.has_factor() && (slot.factor_bits() > 1f64.to_bits() || slot.factor_time() > last) {
        return None;
    }
    if slot.has_series() {
        scan_series(kind, settings, slot, last, reading)
    } else {
        Some(Gone::default())
    }
}

/// The slot a call addresses, its expired buckets, and what the parties hold.
#[derive(Clone, Copy, Debug)]
pub struct Found {
    pub slot: Option<usize>,
    pub expired: Gone,
    held: Held,
}

impl Found {
    /// Refusal 11: the call needs a slot, and its party holds as many as it is promised.
    pub fn judge_share(&self, caller: Caller) -> Result<(), Refusal> {
        refuse_if(self.slot.is_none() && !caller.has_share_left(self.held), 11)
    }

    /// The slot, if its key has a series.
    pub fn series(&self, room: &[u64]) -> Option<usize> {
        self.slot.filter(|at| slot(room, *at).has_series())
    }

    /// The same for a call that takes a first look: what does not go then is not expired to it.
    pub fn at_first_look(self, settings: &Settings, room: &[u64], reading: u64) -> Self {
        match self.slot {
            Some(at) if self.expired.buckets > 0 => {
                let expired = slot(room, at).first_look(self.expired, settings, reading);
                Found { expired, ..self }
            }
            _ => self,
        }
    }
}

/// What the parties hold, once 1 to 4 are judged, and 5 but for the slots' words.
pub fn judge_room(settings: &Settings, room: &[u64]) -> Result<Held, Refusal> {
    settings.judge()?;
    refuse_if(!is_room(room), 5)?;
    held(holders(room)).ok_or(Refusal(5))
}

/// Refusals 1 to 5 of a call with a key.
pub fn judge_slot(
    kind: Kind,
    settings: &Settings,
    room: &[u64],
    reading: u64,
    party: u64,
    key: &[u8],
) -> Result<Found, Refusal> {
    let held = judge_room(settings, room)?;
    let at = find(room, party, key);
    let expired = match at {
        Some(at) => scan_slot(kind, settings, slot(room, at), last_reading(room), reading)
            .ok_or(Refusal(5))?,
        None => Gone::default(),
    };
    Ok(Found { slot: at, expired, held })
}

/// Refusals 1 to 7, 15 and 16 of a call with a key and a reading.
pub fn judge(
    kind: Kind,
    settings: &Settings,
    room: &[u64],
    reading: u64,
    caller: Caller,
    key: &[u8],
) -> Result<Found, Refusal> {
    let found = judge_slot(kind, settings, room, reading, caller.party, key)?;
    refuse_if(reading < last_reading(room), 6)?;
    judge_key(key)?;
    caller.judge(slots(room), found.held)?;
    Ok(found)
}

/// Refusal 7.
pub fn judge_key(key: &[u8]) -> Result<(), Refusal> {
    refuse_if(key.len() > 32, 7)
}

/// A slot's words, to change.
pub struct SlotMut<'a> {
    entry: &'a mut [u64],
    fixed: &'a mut [u64],
    counts: &'a mut [u64],
    declines: &'a mut [u64],
    times: &'a mut [u64],
}

pub fn slot_mut(room: &mut [u64], at: usize) -> SlotMut<'_> {
    let (ring, start) = (ring(room), body_start(room, at));
    let (front, bodies) = room.split_at_mut(start);
    let entry = &mut front[entry_start(at)..][..ENTRY];
    let (fixed, cells) = bodies.split_at_mut(FIXED);
    let (counts, cells) = cells.split_at_mut(ring);
    let (declines, cells) = cells.split_at_mut(ring);
    SlotMut { entry, fixed, counts, declines, times: &mut cells[..ring] }
}

/// The slot of a call whose share is judged: the key's own, or the lowest free one, taken.
pub fn own_slot<'a>(
    room: &'a mut [u64],
    own: Option<usize>,
    party: u64,
    key: &[u8],
) -> SlotMut<'a> {
    match own {
        Some(at) => slot_mut(room, at),
        None => {
            let at = vacant(room);
            hold(room, at, party);
            let mut slot = slot_mut(room, at);
            slot.take(key);
            slot
        }
    }
}

impl SlotMut<'_> {
    pub fn read(&self) -> Slot<'_> {
        let SlotMut { entry, fixed, counts, declines, times } = self;
        Slot { entry, fixed, counts, declines, times }
    }

    /// A slot that was free gets its directory entry and fixed words; its cells stay. It has nothing yet.
    fn take(&mut self, key: &[u8]) {
        self.entry[USE] = 0;
        self.entry[LENGTH..].copy_from_slice(&packed(key));
        self.fixed.fill(0);
    }

    /// A series with no bucket starts; a lone cached factor stays.
    pub fn open(&mut self, limit: f64) {
        self.entry[USE] |= SERIES_BIT;
        self.blank();
        self.set_limit(limit);
    }

    /// The words of a series that is not there.
    pub fn blank(&mut self) {
        self.fixed[LIMIT..=BUCKETS].fill(0);
    }

    pub fn set_limit(&mut self, limit: f64) {
        self.fixed[LIMIT] = limit.to_bits();
    }

    /// The oldest go: head moves, cells stay.
    pub fn cut(&mut self, gone: Gone) {
        self.fixed[HEAD] = wrap(self.fixed[HEAD] + gone.buckets, self.read().ring());
        self.fixed[BUCKETS] -= gone.buckets;
        self.lower(gone.count, gone.declined);
    }

    /// All buckets go, by moving head.
    pub fn cut_all(&mut self) {
        self.cut(self.read().all());
    }

    /// The oldest or the newest bucket goes whole.
    fn drop_one(&mut self, oldest: bool) {
        let slot = self.read();
        let index = if oldest { 0 } else { slot.buckets() - 1 };
        let bucket = slot.bucket(index);
        if oldest {
            self.cut(Gone { buckets: 1, count: bucket.count, declined: bucket.declined });
        } else {
            self.fixed[BUCKETS] -= 1;
            self.lower(bucket.count, bucket.declined);
        }
    }

    fn lower(&mut self, count: u64, declined: u64) {
        self.fixed[TOTAL] -= count;
        self.fixed[DECLINED] -= declined;
    }

    /// Counts go to the totals and to bucket `index`.
    fn raise(&mut self, index: u64, count: u64, declined: u64) {
        let cell = self.read().cell(index);
        self.counts[cell] += count;
        self.declines[cell] += declined;
        self.fixed[TOTAL] += count;
        self.fixed[DECLINED] += declined;
    }

    /// A bucket is added behind the newest.
    pub fn add(&mut self, count: u64, declined: u64, reading: u64) {
        let index = self.fixed[BUCKETS];
        let cell = self.read().cell(index);
        self.counts[cell] = 0;
        self.declines[cell] = 0;
        self.times[cell] = reading;
        self.fixed[BUCKETS] += 1;
        self.raise(index, count, declined);
    }

    /// An increment joins the newest bucket at age at most b; else it adds one.
    pub fn join_or_add(&mut self, count: u64, declined: u64, settings: &Settings, reading: u64) {
        if self.read().joins(0, settings, reading) {
            self.raise(self.fixed[BUCKETS] - 1, count, declined);
        } else {
            self.add(count, declined, reading);
        }
    }

    /// A surplus goes to the newest or oldest bucket, or to a new one if there is none.
    pub fn give(&mut self, surplus: u64, oldest: bool, reading: u64) {
        match self.fixed[BUCKETS] {
            0 => self.add(surplus, 0, reading),
            _ if oldest => self.raise(0, surplus, 0),
            buckets => self.raise(buckets - 1, surplus, 0),
        }
    }

    /// A shortage takes whole buckets from the oldest or newest end; the last, partial one keeps its share.
    pub fn take_out(&mut self, mut shortage: u64, oldest: bool) {
        while shortage > 0 {
            let slot = self.read();
            let index = if oldest { 0 } else { slot.buckets() - 1 };
            let bucket = slot.bucket(index);
            if bucket.count > shortage {
                self.lessen(index, bucket, bucket.count - shortage);
                return;
            }
            shortage -= bucket.count;
            self.drop_one(oldest);
        }
    }

    fn lessen(&mut self, index: u64, bucket: Bucket, retained: u64) {
        let declined = crate::rules::declined_share(bucket.declined, retained, bucket.count);
        let cell = self.read().cell(index);
        self.counts[cell] = retained;
        self.declines[cell] = declined;
        self.lower(bucket.count - retained, bucket.declined - declined);
    }

    pub fn cache(&mut self, factor: f64, reading: u64) {
        self.entry[USE] |= FACTOR_BIT;
        self.fixed[FACTOR] = factor.to_bits();
        self.fixed[FACTOR_TIME] = reading;
    }

    /// The cached factor goes: the use word only.
    pub fn forget(&mut self) {
        self.entry[USE] &= !FACTOR_BIT;
    }
}

/// What stays of a slot in use. Where nothing does, nobody holds it any more, and its use stays.
pub fn keep(room: &mut [u64], at: usize, series: bool, factor: bool) {
    if !series && !factor {
        return free(room, at);
    }
    room[entry_start(at) + USE] = SERIES_BIT * u64::from(series) + FACTOR_BIT * u64::from(factor);
}

/// 10 or 12, if an increment meets one once `gone` is out.
pub fn crowded(
    slot: Slot,
    gone: Gone,
    settings: &Settings,
    reading: u64,
    count: u64,
) -> Result<(), Refusal> {
    refuse_if(count > TOP - (slot.total() - gone.count), 10)?;
    let adds = !slot.joins(gone.buckets, settings, reading);
    refuse_if(adds && slot.buckets() - gone.buckets == slot.ring(), 12)
}

/// The cut limit of a series.
pub fn cut_limit(slot: Slot) -> u64 {
    cut(slot.limit())
}
