//! What is put to the contestants: keys, settings, and increments whose readings keep every key's ring full.

/// Which of the two limiters is timed.
#[derive(Clone, Copy, Debug, PartialEq, Eq)]
pub enum Limiter {
    Absolute,
    Suppressed,
}

impl Limiter {
    pub const BOTH: [Limiter; 2] = [Limiter::Absolute, Limiter::Suppressed];

    pub fn name(self) -> &'static str {
        match self {
            Limiter::Absolute => "absolute",
            Limiter::Suppressed => "suppressed",
        }
    }
}

/// What a tick of the readings is; its place is its number on the C faces.
#[derive(Clone, Copy, Debug, PartialEq, Eq)]
pub enum Clock {
    Milliseconds,
    Nanoseconds,
}

impl Clock {
    pub const BOTH: [Clock; 2] = [Clock::Milliseconds, Clock::Nanoseconds];

    /// How many ticks a millisecond has.
    pub fn ticks(self) -> u64 {
        match self {
            Clock::Milliseconds => 1,
            Clock::Nanoseconds => 1_000_000,
        }
    }
}

/// The default window, in seconds, and the default before ticket 5, which most loads keep: their figures stay comparable.
const DEFAULT_WINDOW: u64 = 30;
const SHORT_WINDOW: u64 = 10;

/// The default bucket, in milliseconds, and a smaller one.
const DEFAULT_BUCKET: u64 = 100;
const SMALL_BUCKET: u64 = 10;

/// The most default buckets that the default window holds, and the shorter one: they are 101 ms apart.
const MOST_BUCKETS: u64 = 298;
const MOST_BUCKETS_OF_SHORT: u64 = 100;

/// What is asked of a key.
#[derive(Clone, Copy, Debug, PartialEq, Eq)]
pub enum Call {
    Inc,
    Get,
    /// The one that the other limiter does not have: `is_allowed` or `get_suppression_factor`.
    Own,
}

impl Call {
    pub const ALL: [Call; 3] = [Call::Inc, Call::Get, Call::Own];

    pub fn name(self, limiter: Limiter) -> &'static str {
        match (self, limiter) {
            (Call::Inc, _) => "inc",
            (Call::Get, _) => "get",
            (Call::Own, Limiter::Absolute) => "is_allowed",
            (Call::Own, Limiter::Suppressed) => "get_suppression_factor",
        }
    }
}

/// What is timed.
#[derive(Clone, Copy, Debug, PartialEq, Eq)]
pub enum Deed {
    /// Increments of 1 to 4.
    Increments,
    /// Shots whose numbers rise, and increments of 1.
    Shots,
    /// Shots under the number that each controller was admitted with.
    Held,
    /// The same, all of the controller in the table's last entry.
    HeldLast,
    /// Calls that meet a ring which has wholly expired.
    Expired(Call),
}

impl Deed {
    /// The call that is put to a limiter.
    pub fn call(self) -> Call {
        match self {
            Deed::Expired(call) => call,
            _ => Call::Inc,
        }
    }

    /// The greatest count of an increment; shots count 1.
    fn most_count(self) -> u64 {
        match self {
            Deed::Increments | Deed::Expired(_) => 4,
            Deed::Shots | Deed::Held | Deed::HeldLast => 1,
        }
    }
}

/// Whose the keys are: one party's, which is promised every slot, or of two that are promised a slot for each of their keys.
#[derive(Clone, Copy, Debug, PartialEq, Eq)]
pub enum Parties {
    One,
    Two,
}

impl Parties {
    pub const BOTH: [Parties; 2] = [Parties::One, Parties::Two];

    /// The party of a key. Of either there are keys below their limit and others.
    fn of(self, key: usize) -> u64 {
        match self {
            Parties::One => 1,
            Parties::Two => 1 + key as u64 / 2 % 2,
        }
    }
}

/// Who calls, and how many slots each party is promised.
#[derive(Clone, Copy, Debug, PartialEq, Eq)]
pub struct Caller {
    pub party: u64,
    pub first: u64,
    pub second: u64,
}

/// How many keys, whose they are, how many live buckets each is to have, the ring, the window, the bucket size and the clock; the rest of
/// the settings are the defaults.
#[derive(Clone, Copy, Debug)]
pub struct Shape {
    pub deed: Deed,
    pub keys: usize,
    pub parties: Parties,
    pub live: u64,
    pub ring: usize,
    pub window: u64,
    pub bucket: u64,
    pub clock: Clock,
}

impl Shape {
    /// Full rings: of default buckets where they just fill a window, else of small ones in the shorter window. Readings are milliseconds.
    pub fn full(keys: usize, live: u64) -> Self {
        let (window, bucket) = match live {
            ..=MOST_BUCKETS_OF_SHORT => (SHORT_WINDOW, DEFAULT_BUCKET),
            MOST_BUCKETS => (DEFAULT_WINDOW, DEFAULT_BUCKET),
            _ => (SHORT_WINDOW, SMALL_BUCKET),
        };
        let (deed, parties, clock) = (Deed::Increments, Parties::One, Clock::Milliseconds);
        Shape { deed, keys, parties, live, ring: live as usize, window, bucket, clock }
    }

    /// What a full ring holds on average. Two increments go to a bucket.
    fn mean_total(&self) -> f64 {
        ((1 + self.deed.most_count()) * self.live) as f64
    }
}

#[derive(Clone, Copy, Debug)]
pub struct Settings {
    pub window: u64,
    pub bucket: u64,
    pub cache: u64,
    pub factor: f64,
    pub clock: Clock,
}

pub struct Key {
    pub text: String,
    pub caller: Caller,
    pub rate: f64,
}

#[derive(Clone, Copy, Debug)]
pub struct Increment {
    pub reading: u64,
    pub draw: u64,
    pub count: u32,
    pub key: u32,
    /// Of a shot.
    pub number: u32,
}

pub struct Load {
    pub shape: Shape,
    pub settings: Settings,
    pub keys: Vec<Key>,
}

impl Load {
    pub fn new(shape: Shape) -> Self {
        let Shape { window, bucket, clock, .. } = shape;
        let settings = Settings { window, bucket, cache: 100, factor: 1.0, clock };
        // Keys of even number stay below their limit, the others are held back now and then.
        let limit = |key: usize| match shape.deed {
            // None is held back, so that every ring is filled.
            Deed::Expired(_) => 2.0 * shape.mean_total(),
            _ if key % 2 == 0 => 1.25 * shape.mean_total(),
            _ => 0.95 * shape.mean_total(),
        };
        let second = (0..shape.keys).filter(|key| shape.parties.of(*key) == 2).count() as u64;
        let first = shape.keys as u64 - second;
        let keys = (0..shape.keys)
            .map(|key| Key {
                text: format!("station-{key:02}{}", "-west"[..key % 6].to_owned()),
                caller: Caller { party: shape.parties.of(key), first, second },
                rate: limit(key) / settings.window as f64,
            })
            .collect();
        Load { shape, settings, keys }
    }

    /// The parties that have keys, each as it calls.
    pub fn callers(&self) -> Vec<Caller> {
        let mut callers: Vec<Caller> = self.keys.iter().map(|key| key.caller).collect();
        callers.sort_by_key(|caller| caller.party);
        callers.dedup();
        callers
    }

    /// The reading of a round. Two rounds go to a bucket, and the window holds `live` buckets. Where a millisecond has parts, each of the
    /// two has its own; buckets that the first ones begin are as far apart as in milliseconds, so that rings are as full.
    fn reading(&self, round: u64) -> u64 {
        let (window, n) = (1000 * self.settings.window, self.settings.clock.ticks());
        let steps = self.shape.live - 1;
        let begun = round / 2 * window / steps;
        let apart = self.settings.bucket.min(window / steps) / 2;
        let later = if round % 2 == 1 { apart * n + n / 3 } else { 0 };
        begun * n + 2 * n / 5 + later
    }

    /// As many rounds as fill the rings, then the increments that are timed. In a round each key has one increment, and the
    /// keys come in an order of their own. Where shots are held, each controller has one number, and the first is admitted.
    pub fn increments(&self, timed: usize) -> (Vec<Increment>, Vec<Increment>) {
        let deed = self.shape.deed;
        let mut random = Random::new();
        let mut order: Vec<u32> = (0..self.keys.len() as u32).collect();
        let filling = 4 * self.shape.live;
        let rounds = filling + timed.div_ceil(order.len()) as u64;
        let mut all = Vec::with_capacity(rounds as usize * order.len());
        for round in 0..rounds {
            for at in (1..order.len()).rev() {
                order.swap(at, random.below(at as u64 + 1) as usize);
            }
            let reading = self.reading(round);
            let is_held = matches!(deed, Deed::Held | Deed::HeldLast);
            all.extend(order.iter().map(|key| Increment {
                reading,
                draw: random.below(1 << 53),
                count: 1 + random.below(deed.most_count()) as u32,
                key: *key,
                number: if is_held { 1 } else { round as u32 + 1 },
            }));
        }
        let mut timed_ones = all.split_off(filling as usize * order.len());
        timed_ones.truncate(timed);
        if deed == Deed::HeldLast {
            let last = all[order.len() - 1].key;
            timed_ones.iter_mut().for_each(|shot| shot.key = last);
        }
        (all, timed_ones)
    }
}

/// The same calls to the same limiters, that much later.
pub fn later(increments: &mut [Increment], by: u64) {
    for increment in increments {
        increment.reading += by;
    }
}

/// Xorshift.
pub struct Random(u64);

impl Random {
    pub fn new() -> Self {
        Random(0x1234_5678_9abc_def1)
    }

    pub fn below(&mut self, top: u64) -> u64 {
        self.0 ^= self.0 << 13;
        self.0 ^= self.0 >> 7;
        self.0 ^= self.0 << 17;
        ((u128::from(self.0) * u128::from(top)) >> 64) as u64
    }
}
