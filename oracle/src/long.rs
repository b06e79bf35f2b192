//! Long rings, sound ones and ones damaged where a pass that sums and compares modulo 2^64 could be misled.
//! The damage is done to plain values, which are then laid out as words.

use twin::room::{Bucket, words_of};
use twin::rules::{Kind, Settings};

use crate::expected::{ENTRY, HEADER, HOLDERS, set_holder, ticks};
use crate::loaded::limit;
use crate::random::Dice;

const FIXED: usize = 7;

/// The rings' lengths, and how often each comes.
const RINGS: [usize; 12] = [23, 24, 25, 25, 25, 26, 26, 26, 100, 100, 298, 512];

/// What is done to a sound series; gives the place that it is about.
type Damage = fn(&mut Long, &mut Dice) -> usize;

const DAMAGES: [(&str, Damage); 9] = [
    ("sound", Long::nothing),
    ("wide gaps", Long::wide),
    ("late", Long::late),
    ("great", Long::great),
    ("wrapping", Long::wrapping),
    ("over-declined", Long::over),
    ("past the last reading", Long::past),
    ("declined unlike", Long::unlike),
    ("other totals", Long::other_totals),
];

/// A series as plain values.
struct Long {
    ring: usize,
    head: usize,
    buckets: Vec<Bucket>,
    total: u64,
    declined: u64,
    last: u64,
}

/// 2^exponent modulo 2^64, or a neighbour.
fn near(dice: &mut Dice, exponents: &[u32]) -> u64 {
    let power = 1u64.checked_shl(dice.pick(exponents)).unwrap_or(0);
    power.wrapping_add(dice.pick(&[0, 1, u64::MAX]))
}

/// So many numbers that come to 2^64: even ones, or any.
fn shares(dice: &mut Dice, many: usize) -> Vec<u64> {
    let even = ((1u128 << 64) / many as u128) as u64;
    let is_even = dice.once_in(2);
    let mut shares: Vec<u64> = (1..many).map(|_| if is_even { even } else { dice.any() }).collect();
    let others = shares.iter().fold(0u64, |all, share| all.wrapping_add(*share));
    shares.push(others.wrapping_neg());
    shares
}

impl Long {
    /// Buckets in order, over a part of the window or more than it; the totals are their sums.
    fn sound(dice: &mut Dice, kind: Kind, settings: &Settings, ring: usize, held: usize) -> Self {
        let (window, n) = (1000 * settings.window, ticks(settings.clock));
        let widest = dice.pick(&[0, 1, settings.bucket + 1, 2 * window / held as u64, window]);
        // All gaps together leave room for the damage.
        let widest = (widest * n).min((1 << 62) / held as u64);
        let most = dice.pick(&[1, 2, 20]);
        let declines = kind == Kind::Suppressed && dice.once_in(2);
        let mut time = dice.pick(&[1, 1000, 1 << 40]);
        let mut buckets = Vec::with_capacity(held);
        for _ in 0..held {
            time += dice.below(widest + 1);
            let count = dice.below(most + 1);
            let declined = if declines { dice.below(count + 1) } else { 0 };
            buckets.push(Bucket { count, declined, time });
        }
        let later = dice.pick(&[0, 0, 1, settings.bucket, window]);
        let last = time + dice.ticks(settings.clock, later);
        let mut long = Long { ring, head: 0, buckets, total: 0, declined: 0, last };
        long.sum_up();
        long
    }

    /// The totals become the sums, modulo 2^64.
    fn sum_up(&mut self) {
        (self.total, self.declined) =
            self.buckets.iter().fold((0, 0), |sums: (u64, u64), bucket| {
                (sums.0.wrapping_add(bucket.count), sums.1.wrapping_add(bucket.declined))
            });
    }

    /// Some place from `least` on.
    fn place(&self, dice: &mut Dice, least: usize) -> usize {
        least + dice.below((self.buckets.len() - least) as u64) as usize
    }

    /// So many places, each once.
    fn places(&self, dice: &mut Dice, many: usize) -> Vec<usize> {
        let mut places: Vec<usize> = (0..self.buckets.len()).collect();
        for at in 0..many {
            places.swap(at, self.place(dice, at));
        }
        places.truncate(many);
        places
    }

    /// The series stays sound.
    fn nothing(&mut self, dice: &mut Dice) -> usize {
        self.place(dice, 0)
    }

    /// The gap before each bucket; before the oldest, its time.
    fn gaps(&self) -> Vec<u64> {
        let before = [0].into_iter().chain(self.buckets.iter().map(|bucket| bucket.time));
        self.buckets.iter().zip(before).map(|(bucket, before)| bucket.time - before).collect()
    }

    /// Times by their gaps, modulo 2^64; the last reading is the newest time, or as late as can be.
    fn set_gaps(&mut self, dice: &mut Dice, gaps: &[u64]) {
        let mut time = 0u64;
        for (bucket, gap) in self.buckets.iter_mut().zip(gaps) {
            time = time.wrapping_add(*gap);
            bucket.time = time;
        }
        self.last = dice.pick(&[time, time, u64::MAX]);
    }

    /// Gaps of about 2^54, 2^63 or 2^64 at a place or two, of 2^54 or 2^55 everywhere, or so that the newest time is about 2^64.
    fn wide(&mut self, dice: &mut Dice) -> usize {
        let mut gaps = self.gaps();
        let (place, second) = (self.place(dice, 1), self.place(dice, 1));
        gaps[0] = dice.pick(&[0, 0, gaps[0], 1 << 62, (1 << 63) - 1]);
        match dice.below(4) {
            0 => gaps[place] = near(dice, &[54, 63, 64]),
            1 => {
                gaps[place] = near(dice, &[54, 63]);
                gaps[second] = gaps[place];
            }
            2 => {
                let gap = near(dice, &[54, 54, 55]);
                gaps.fill(gap);
                gaps[0] = dice.pick(&[0, (1 << 63) - 1, 1 << 63, (1 << 63) + gap + 511]);
            }
            _ => reach_the_top(dice, &mut gaps, place),
        }
        self.set_gaps(dice, &gaps);
        place
    }

    /// The oldest time about 2^63 or later; times that reach 2^64, from some place on, begin anew at 0.
    fn late(&mut self, dice: &mut Dice) -> usize {
        let mut gaps = self.gaps();
        let place = self.place(dice, 1);
        let to_place: u64 = gaps[1..=place].iter().sum();
        let to_newest: u64 = gaps[1..].iter().sum();
        gaps[0] = match dice.below(3) {
            0 => near(dice, &[63]),
            1 => u64::MAX - to_newest,
            _ => to_place.wrapping_neg(),
        };
        self.set_gaps(dice, &gaps);
        place
    }

    /// A count, a declined or both about 2^53, 2^54, 2^63 or 2^64, or a total about 2^53. The totals are the sums, mostly.
    fn great(&mut self, dice: &mut Dice) -> usize {
        let place = self.place(dice, 0);
        if dice.once_in(2) {
            self.buckets.iter_mut().for_each(|bucket| (bucket.count, bucket.declined) = (0, 0));
            self.sum_up();
        }
        let others = self.total - self.buckets[place].count;
        let great = match dice.below(3) {
            0 => near(dice, &[53]) - others,
            _ => near(dice, &[53, 54, 63, 64]),
        };
        let bucket = &mut self.buckets[place];
        match dice.below(4) {
            0 | 1 => bucket.count = great,
            2 => bucket.declined = great,
            _ => (bucket.count, bucket.declined) = (great, great),
        }
        if !dice.once_in(4) {
            self.sum_up();
        }
        place
    }

    /// Counts, declined or both raised by numbers that come to 2^64, so that the totals are the sums modulo 2^64.
    fn wrapping(&mut self, dice: &mut Dice) -> usize {
        let held = self.buckets.len();
        let many = dice.pick(&[2, 2, 3, 4, 4, 8, 16, held]).min(held);
        let places = self.places(dice, many);
        let part = dice.below(3);
        for (place, share) in places.iter().zip(shares(dice, many)) {
            let bucket = &mut self.buckets[*place];
            if part != 1 {
                bucket.count = bucket.count.wrapping_add(share);
            }
            if part != 0 {
                bucket.declined = bucket.declined.wrapping_add(share);
            }
        }
        places[0]
    }

    /// A declined one over its count; another bucket's count or declined evens the sums out, or the totals do.
    fn over(&mut self, dice: &mut Dice) -> usize {
        let places = self.places(dice, 2);
        let (place, other) = (places[0], places[1]);
        let Bucket { count, declined, .. } = self.buckets[place];
        let more = count + 1 - declined;
        if declined > 0 && dice.once_in(2) {
            self.buckets[place].count -= more;
            self.buckets[other].count += more;
        } else if self.buckets[other].declined >= more {
            self.buckets[place].declined += more;
            self.buckets[other].declined -= more;
        } else {
            self.buckets[place].declined += more;
            self.buckets[other].count += more;
            self.sum_up();
        }
        place
    }

    /// The newest time one past the last reading, or at it; now and then another time, or all.
    fn past(&mut self, dice: &mut Dice) -> usize {
        let (place, newest) = (self.place(dice, 0), self.buckets.len() - 1);
        match dice.below(8) {
            0 => self.buckets[place].time = self.last + 1,
            1 => self.last = 0,
            2 | 3 => self.last = self.buckets[newest].time,
            _ => self.last = self.buckets[newest].time - 1,
        }
        newest
    }

    /// No bucket declines but one, and the stored declined is 0; or none does, and it is not 0.
    fn unlike(&mut self, dice: &mut Dice) -> usize {
        let place = self.place(dice, 0);
        self.buckets.iter_mut().for_each(|bucket| bucket.declined = 0);
        self.buckets[place].count += 1;
        self.sum_up();
        let count = self.buckets[place].count;
        match dice.below(4) {
            0 => self.declined = dice.pick(&[1, self.total, 1 << 53, 1 << 63, u64::MAX]),
            1 => self.buckets[place].declined = dice.pick(&[1 << 53, 1 << 63, u64::MAX]),
            _ => self.buckets[place].declined = dice.pick(&[1, count]),
        }
        place
    }

    /// A stored total one off, or another sum of the buckets.
    fn other_totals(&mut self, dice: &mut Dice) -> usize {
        let (total, declined) = (self.total, self.declined);
        let accepted = total - declined;
        if dice.once_in(2) {
            let less = total.wrapping_sub(1);
            self.total = dice.pick(&[total + 1, less, accepted, accepted, total + declined]);
        } else {
            let less = declined.wrapping_sub(1);
            self.declined = dice.pick(&[declined + 1, less, accepted, total]);
        }
        self.place(dice, 0)
    }

    /// The ring's end before the place, behind it, or anywhere.
    fn turn(&mut self, dice: &mut Dice, place: usize) {
        let any = dice.below(self.ring as u64) as usize;
        self.head = dice.pick(&[self.ring - place, self.ring - place - 1, any]) % self.ring;
    }

    /// The words, with anything in those that hold nothing, and the ring's slot. The key of another slot has no bucket.
    fn room(&self, dice: &mut Dice, kind: Kind, settings: &Settings) -> (Vec<u64>, usize) {
        let slots = if dice.once_in(4) { 2 } else { 1 };
        let own = dice.below(slots as u64) as usize;
        let size = FIXED + 3 * self.ring;
        let mut words: Vec<u64> = (0..words_of(slots, self.ring)).map(|_| dice.any()).collect();
        words[..HOLDERS].copy_from_slice(&[slots as u64, self.ring as u64, self.last]);
        for slot in 0..slots {
            set_holder(&mut words, slot, 1 + dice.below(2));
            let key = if slot == own { KEY[0] } else { b'b' };
            let uses = if kind == Kind::Suppressed && dice.once_in(3) { 3 } else { 1 };
            words[HEADER + ENTRY * slot..][..ENTRY].copy_from_slice(&[
                uses,
                1,
                u64::from(key),
                0,
                0,
                0,
            ]);
            let body = &mut words[HEADER + ENTRY * slots + slot * size..][..size];
            body[0] = limit(dice, kind, settings, self.total).to_bits();
            body[1..5].fill(0);
            body[5] = dice.pick(&[0.0, 0.5, 1.0f64]).to_bits();
            let age = dice.pick(&[0, settings.cache]);
            body[6] = self.last.saturating_sub(dice.ticks(settings.clock, age));
            if slot == own {
                self.fill(body);
            }
        }
        (words, own)
    }

    /// The series' words but its limit.
    fn fill(&self, body: &mut [u64]) {
        let held = self.buckets.len() as u64;
        body[1..5].copy_from_slice(&[self.total, self.declined, self.head as u64, held]);
        for (index, bucket) in self.buckets.iter().enumerate() {
            let cell = FIXED + (self.head + index) % self.ring;
            body[cell] = bucket.count;
            body[cell + self.ring] = bucket.declined;
            body[cell + 2 * self.ring] = bucket.time;
        }
    }
}

/// Some gaps from `place` on are widened, so that the newest time is 2^64 - 2 to 2^64 + 1.
fn reach_the_top(dice: &mut Dice, gaps: &mut [u64], place: usize) {
    let after = gaps.len() - place;
    let many = dice.pick(&[1, 2, 4, after]).min(after);
    gaps[place..place + many].fill(0);
    let others: u128 = gaps.iter().map(|gap| u128::from(*gap)).sum();
    let left = (1u128 << 64) - 2 + u128::from(dice.below(4)) - others;
    gaps[place..place + many].fill((left / many as u128) as u64);
    gaps[place] = gaps[place].wrapping_add((left % many as u128) as u64);
}

/// A time that falls by 1, from bucket `place - 1` to bucket `place`.
#[derive(Clone, Copy)]
struct Fall {
    ring: usize,
    held: usize,
    head: usize,
    place: usize,
}

/// Every place. In the short rings at every head; in the others where the ring's end falls, and in full ones also with all
/// buckets before the end and with all but one behind it. In mixed order.
fn falls(dice: &mut Dice) -> Vec<Fall> {
    let mut falls = Vec::new();
    for ring in [23, 24, 25, 26, 100, 298, 512] {
        for held in [ring, ring - 1 - ring / 30] {
            for place in 1..held {
                let heads: Vec<usize> = match ring {
                    23..=26 => (0..ring).collect(),
                    _ if held == ring => vec![ring - place, 0, ring - 1],
                    _ => vec![ring - place],
                };
                falls.extend(heads.into_iter().map(|head| Fall { ring, held, head, place }));
            }
        }
    }
    for at in (1..falls.len()).rev() {
        falls.swap(at, dice.below(at as u64 + 1) as usize);
    }
    falls
}

/// The key of the ring.
pub const KEY: &[u8] = b"a";

/// A room with one long ring, its slot, and what was done to it.
pub struct Room {
    pub damage: &'static str,
    pub words: Vec<u64>,
    pub slot: usize,
}

/// The falling times, put one after another to each kind of room.
pub struct Falls {
    all: Vec<Fall>,
    absolute: usize,
    suppressed: usize,
}

impl Falls {
    pub fn new(dice: &mut Dice) -> Self {
        Falls { all: falls(dice), absolute: 0, suppressed: 0 }
    }

    /// A room whose ring has the next falling time.
    pub fn room(&mut self, dice: &mut Dice, kind: Kind, settings: &Settings) -> Room {
        let next = match kind {
            Kind::Absolute => &mut self.absolute,
            Kind::Suppressed => &mut self.suppressed,
        };
        let Fall { ring, held, head, place } = self.all[*next % self.all.len()];
        *next += 1;
        let mut long = Long::sound(dice, kind, settings, ring, held);
        long.head = head;
        long.buckets[place].time = long.buckets[place - 1].time - 1;
        let (words, slot) = long.room(dice, kind, settings);
        Room { damage: "falling", words, slot }
    }
}

/// A room with a long ring of any damage but a falling time.
pub fn any(dice: &mut Dice, kind: Kind, settings: &Settings) -> Room {
    let ring = dice.pick(&RINGS);
    let some = 2 + dice.below(ring as u64 - 1) as usize;
    let held = dice.pick(&[ring, ring, ring, ring - 1, some, 25]).min(ring);
    let mut long = Long::sound(dice, kind, settings, ring, held);
    let (damage, damaging) = dice.pick(&DAMAGES);
    let place = damaging(&mut long, dice);
    long.turn(dice, place);
    let (words, slot) = long.room(dice, kind, settings);
    Room { damage, words, slot }
}
