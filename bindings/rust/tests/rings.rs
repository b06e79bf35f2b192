//! Rings that are as long as the settings need, and rings that are one bucket shorter, through the archive.
use frostaxle::{
    Absolute, ClockMode, Comparator, Gateway, Party, Preservation, Promises, Refusal, Room, Settings, Suppressed, Table,
};

const KEY: &[u8] = b"ctl7";
const MODES: [ClockMode; 2] = [ClockMode::Milliseconds, ClockMode::Nanoseconds];
const BOTH: [Party; 2] = [Party::First, Party::Second];

/// Of six slots each party is promised three.
const SLOTS: u64 = 6;
const PROMISES: Promises = Promises { first: 3, second: 3 };

/// Window, bucket, and how many buckets a ring must have. In some b + 1 milliseconds divide the window.
const NEEDED: [(u64, u64, u64); 12] = [
    (10, 100, 100),
    (10, 99, 101),
    (10, 98, 102),
    (30, 100, 298),
    (1, 1, 501),
    (1, 498, 3),
    (1, 499, 3),
    (1, 500, 2),
    (1, 999, 2),
    (1, 1_000, 1),
    (1, 1_001, 1),
    (511, 999, 512),
];

fn settings(window_seconds: u64, bucket_millis: u64, clock_mode: ClockMode) -> Settings {
    Settings { window_seconds, bucket_millis, clock_mode, ..Settings::default() }
}

/// So many milliseconds in ticks.
fn ticks(settings: Settings, millis: u64) -> u64 {
    match settings.clock_mode {
        ClockMode::Milliseconds => millis,
        ClockMode::Nanoseconds => millis * 1_000_000,
    }
}

/// The ith of the readings at which each increment needs a bucket of its own: b + 1 milliseconds apart.
fn apart(settings: Settings, i: u64) -> u64 {
    ticks(settings, i * (settings.bucket_millis + 1))
}

/// The first reading at which a bucket of reading 0 is out of the window for every call.
fn past_the_window(settings: Settings) -> u64 {
    ticks(settings, 1_000 * settings.window_seconds + 1)
}

// ---- both limiters

#[derive(Clone, Copy, Debug)]
enum Call {
    Inc(u64),
    Look,
    Get,
    Rate,
    Set(u64, Option<Preservation>),
    Delete,
    Clear,
    Cleanup(u64),
}

/// What the tests ask of either limiter.
trait Limiter: Clone {
    fn over(settings: Settings, room: Room) -> Self;
    fn call(&mut self, party: Party, reading: u64, key: &[u8], rate: f64, call: Call) -> Result<(), Refusal>;
    fn words(&self) -> &[u64];
    /// How many buckets the key of the party has.
    fn stored(&mut self, party: Party, key: &[u8]) -> usize;
}

macro_rules! limiter {
    ($limiter:ident, $look:ident $(, $draw:expr)?) => {
        impl Limiter for $limiter {
            fn over(settings: Settings, room: Room) -> Self {
                $limiter::new(settings, room).promises(PROMISES)
            }

            fn call(&mut self, party: Party, reading: u64, key: &[u8], rate: f64, call: Call) -> Result<(), Refusal> {
                let (mut limiter, always) = (self.party(party), Comparator::Always);
                match call {
                    Call::Inc(count) => limiter.inc(reading, key, rate, count $(, $draw)?).map(drop),
                    Call::Look => limiter.$look(reading, key).map(drop),
                    Call::Get => limiter.get(reading, key).map(drop),
                    Call::Rate => limiter.set_rate_limit(reading, key, rate).map(drop),
                    Call::Set(count, None) => limiter.set_if(reading, key, rate, count, always).map(drop),
                    Call::Set(count, Some(end)) => {
                        limiter.set_if_preserve_history(reading, key, rate, count, always, end).map(drop)
                    }
                    Call::Delete => limiter.delete(reading, key).map(drop),
                    Call::Clear => limiter.clear(reading),
                    Call::Cleanup(stale) => limiter.cleanup(reading, stale),
                }
            }

            fn words(&self) -> &[u64] {
                self.room().words()
            }

            fn stored(&mut self, party: Party, key: &[u8]) -> usize {
                self.party(party).buckets(key).unwrap().len()
            }
        }
    };
}

limiter!(Absolute, is_allowed);
limiter!(Suppressed, get_suppression_factor, 1 << 52);

// ---- the number

#[test]
fn numbers() {
    assert_eq!(Settings::default().sufficient_ring(), Ok(298));
    let most = (33_554_432, 4_294_967_296);
    // over 512, and at the ends of the ranges
    let others = [
        (512, 999, 513),
        (30, 50, 589),
        (30, 57, 518),
        (most.0, 1, 16_777_216_001),
        (most.0, most.1, 8),
        (1, most.1, 1),
        (1, 2, 334),
    ];
    for (window, bucket, needed) in NEEDED.into_iter().chain(others) {
        for mode in MODES {
            let settings = settings(window, bucket, mode);
            assert_eq!(settings.sufficient_ring(), Ok(needed), "{settings:?}");
            // of the other settings it is the same
            let other = Settings { cache_millis: most.1, hard_limit_factor: 1e300, ..settings };
            assert_eq!(other.sufficient_ring(), Ok(needed));
        }
    }
}

/// So many times b + 1 milliseconds are over the window, and once less is not.
#[test]
fn the_least_number() {
    for window in [1, 2, 7, 10, 30, 60, 3_600] {
        for bucket in (1..=1_100).chain([9_999, 10_000, 10_001, 1 << 32]) {
            let needed = settings(window, bucket, ClockMode::Milliseconds).sufficient_ring().unwrap();
            assert!((needed - 1) * (bucket + 1) <= 1_000 * window && 1_000 * window < needed * (bucket + 1));
        }
    }
}

/// With each of 1 to 4, given where those before it are not met; a room for such settings is refused alike.
#[test]
fn settings_out_of_range() {
    let refused = |settings: Settings, refusal: Refusal| {
        for settings in MODES.map(|mode| settings.clock_mode(mode)) {
            assert_eq!(settings.sufficient_ring(), Err(refusal));
            // before what the slots are refused with
            for slots in [0, 1, 64, 65] {
                assert_eq!(Room::for_settings(slots, settings), Err(refusal));
            }
        }
    };
    let well = Settings::default();
    for millis in [0, 4_294_967_297, u64::MAX] {
        for hard_limit_factor in [0.5, -1.0, f64::NAN, f64::INFINITY] {
            let factor = Settings { hard_limit_factor, ..well };
            refused(factor, Refusal::BadFactor);
            let cache = Settings { cache_millis: millis, ..factor };
            refused(cache, Refusal::BadCache);
            let bucket = Settings { bucket_millis: millis, ..cache };
            refused(bucket, Refusal::BadBucket);
            for window_seconds in [0, 33_554_433, u64::MAX] {
                refused(Settings { window_seconds, ..bucket }, Refusal::BadWindow);
            }
        }
        refused(Settings { cache_millis: millis, ..well }, Refusal::BadCache);
        refused(Settings { bucket_millis: millis, ..well }, Refusal::BadBucket);
    }
}

// ---- rooms for settings

#[test]
fn rooms() {
    assert_eq!(Room::for_settings(4, Settings::default()), Room::new(4, 298));
    for mode in MODES {
        for (window, bucket, needed) in NEEDED {
            for slots in [1, 8, 64] {
                assert_eq!(Room::for_settings(slots, settings(window, bucket, mode)), Room::new(slots, needed));
            }
            for slots in [0, 65, u64::MAX] {
                assert_eq!(Room::for_settings(slots, settings(window, bucket, mode)), Err(Refusal::BadRoom));
            }
        }
        for (window, bucket) in [(512, 999), (30, 50), (30, 57), (33_554_432, 1)] {
            for slots in [0, 1, 64, 65] {
                assert_eq!(Room::for_settings(slots, settings(window, bucket, mode)), Err(Refusal::RingTooLong));
            }
        }
    }
}

// ---- long enough

/// Counts of 0 leave both limiters nothing to turn away, so each has a bucket: over three windows, of both parties.
fn fills<L: Limiter>(settings: Settings, needed: u64) {
    let mut limiter = L::over(settings, Room::for_settings(SLOTS, settings).unwrap());
    for i in 0..3 * needed + 3 {
        for party in BOTH {
            assert_eq!(limiter.call(party, apart(settings, i), KEY, 1.0, Call::Inc(0)), Ok(()), "{i} {settings:?}");
        }
        if i == needed - 1 {
            assert_eq!(limiter.stored(Party::Second, KEY) as u64, needed);
        }
    }
}

#[test]
fn filled() {
    for mode in MODES {
        for (window, bucket, needed) in NEEDED {
            fills::<Absolute>(settings(window, bucket, mode), needed);
            fills::<Suppressed>(settings(window, bucket, mode), needed);
        }
    }
}

/// The same with all other calls among the increments. What takes buckets out is for other keys.
fn fills_among_others<L: Limiter>(settings: Settings, needed: u64) {
    let mut limiter = L::over(settings, Room::for_settings(SLOTS, settings).unwrap());
    let (newest, oldest) = (Some(Preservation::Newest), Some(Preservation::Oldest));
    let long = 3_000 * settings.window_seconds;
    for i in 0..3 * needed + 16 {
        let reading = apart(settings, i);
        let mut all_done = |party: Party, key: &[u8], calls: &[Call]| {
            for &call in calls {
                // far from any limit
                assert_eq!(limiter.call(party, reading, key, 1e9, call), Ok(()), "{i} {call:?} {settings:?}");
            }
        };
        // a surplus goes to a bucket that is there
        let surplus = Call::Set(i + 1, if i % 2 == 0 { newest } else { oldest });
        all_done(Party::First, KEY, &[Call::Inc(0), surplus, Call::Look, Call::Get, Call::Rate, Call::Cleanup(long)]);
        all_done(Party::First, b"boat", &[Call::Inc(2)]);
        all_done(Party::Second, KEY, &[Call::Inc(1)]);
        match i % 16 {
            3 => all_done(Party::First, b"boat", &[Call::Set(3, oldest)]),
            6 => all_done(Party::First, b"boat", &[Call::Set(3, newest)]),
            9 => all_done(Party::First, b"boat", &[Call::Set(3, None), Call::Inc(1)]),
            12 => all_done(Party::First, b"boat", &[Call::Delete, Call::Set(0, newest), Call::Set(5, oldest)]),
            15 => all_done(Party::Second, KEY, &[Call::Clear, Call::Cleanup(long)]),
            _ => (),
        }
        if i == needed - 1 {
            assert_eq!(limiter.stored(Party::First, KEY) as u64, needed);
        }
    }
}

#[test]
fn filled_among_other_calls() {
    for mode in MODES {
        for (window, bucket, needed) in NEEDED {
            fills_among_others::<Absolute>(settings(window, bucket, mode), needed);
            fills_among_others::<Suppressed>(settings(window, bucket, mode), needed);
        }
    }
}

/// A source of numbers for the histories (xorshift).
struct Drawn(u64);

impl Drawn {
    fn below(&mut self, n: u64) -> u64 {
        self.0 ^= self.0 << 13;
        self.0 ^= self.0 >> 7;
        self.0 ^= self.0 << 17;
        (self.0 >> 11) % n
    }

    fn one_of<T: Copy>(&mut self, all: &[T]) -> T {
        all[self.below(all.len() as u64) as usize]
    }

    fn call(&mut self, window: u64) -> Call {
        let end = self.one_of(&[None, Some(Preservation::Newest), Some(Preservation::Oldest)]);
        match self.below(16) {
            0..=2 => Call::Inc(self.below(20)),
            3 => Call::Inc(1 << self.below(55)),
            4..=6 => Call::Look,
            7..=8 => Call::Get,
            9 => Call::Rate,
            10..=12 => Call::Set(self.below(30), end),
            13 => Call::Delete,
            14 => Call::Cleanup(self.below(2 * window)),
            _ => Call::Clear,
        }
    }
}

/// How many calls of a history are refused with 12. Most of them fill the ring of a key that is changed at times.
/// Among these are calls of all kinds, on all keys and at all distances, and such as are refused with other numbers.
fn refused_as_full<L: Limiter>(settings: Settings, room: Room, seed: u64) -> usize {
    let mut limiter = L::over(settings, room);
    let mut drawn = Drawn(seed);
    let (bucket, window) = (settings.bucket_millis, 1_000 * settings.window_seconds);
    let steps = [0, 0, 0, 0, 1, bucket, bucket + 1, bucket + 2, window, window + 1];
    let (mut party, mut key) = (Party::First, KEY);
    let (mut reading, mut full) = (0, 0);
    for _ in 0..2_000 {
        if drawn.below(40) == 0 {
            (party, key) = (drawn.one_of(&BOTH), drawn.one_of(&[KEY, b"boat", b"gate1"]));
        }
        let call = drawn.call(window);
        let told = match drawn.below(20) {
            0 => limiter.call(party, reading, &[0; 33], 1.0, call),
            1 => limiter.call(party, reading, key, 0.0, call),
            // it falls, where there were calls that were not refused
            2 => {
                let fallen = reading.saturating_sub(ticks(settings, 1 + drawn.below(window)));
                limiter.call(party, fallen, key, 1.0, call)
            }
            3..=6 => {
                // of the next millisecond any nanosecond
                reading += ticks(settings, drawn.one_of(&steps)) + drawn.below(ticks(settings, 1));
                let (party, key) = (drawn.one_of(&BOTH), drawn.one_of(&[KEY, b"boat", b"gate1", b"gate2"]));
                limiter.call(party, reading, key, 1.0, call)
            }
            _ => {
                reading += ticks(settings, bucket + 1);
                limiter.call(party, reading, key, 1.0, Call::Inc(0))
            }
        };
        full += usize::from(told == Err(Refusal::RingFull));
    }
    full
}

#[test]
fn drawn_histories() {
    for mode in MODES {
        for (window, bucket) in [(1, 1_000), (1, 999), (1, 500), (1, 499), (1, 300), (1, 199), (2, 270)] {
            let settings = settings(window, bucket, mode);
            let needed = settings.sufficient_ring().unwrap();
            let (mut full, mut full_of_one_less) = ([0; 2], [0; 2]);
            for seed in 1..=20 {
                let long = Room::for_settings(SLOTS, settings).unwrap();
                full[0] += refused_as_full::<Absolute>(settings, long.clone(), seed);
                full[1] += refused_as_full::<Suppressed>(settings, long, seed);
                let Ok(short) = Room::new(SLOTS, needed - 1) else { continue };
                full_of_one_less[0] += refused_as_full::<Absolute>(settings, short.clone(), seed);
                full_of_one_less[1] += refused_as_full::<Suppressed>(settings, short, seed);
            }
            assert_eq!(full, [0, 0], "{settings:?}");
            assert!(needed == 1 || full_of_one_less.iter().all(|&full| full > 0), "{settings:?} {full_of_one_less:?}");
        }
    }
}

// ---- one less

/// The first increment for which the ring has no place is refused, and so are others until the oldest bucket is out.
fn meets<L: Limiter>(settings: Settings, needed: u64) {
    let mut limiter = L::over(settings, Room::new(SLOTS, needed - 1).unwrap());
    let count = Call::Inc(0);
    for i in 0..needed - 1 {
        assert_eq!(limiter.call(Party::First, apart(settings, i), KEY, 1.0, count), Ok(()), "{i} {settings:?}");
    }
    let (full, at_the_window) = (apart(settings, needed - 1), past_the_window(settings) - ticks(settings, 1));
    assert!(full <= at_the_window);
    // a tick earlier it joins
    assert_eq!(limiter.clone().call(Party::First, full - 1, KEY, 1.0, count), Ok(()));
    let words = limiter.words().to_vec();
    for reading in [full, at_the_window] {
        assert_eq!(limiter.call(Party::First, reading, KEY, 1.0, count), Err(Refusal::RingFull), "{settings:?}");
    }
    assert_eq!(limiter.words(), words);
    // neither the other party nor another key hears of it
    for (party, key) in [(Party::Second, KEY), (Party::First, b"boat")] {
        assert_eq!(limiter.call(party, at_the_window, key, 1.0, count), Ok(()));
    }
    assert_eq!(limiter.call(Party::First, past_the_window(settings), KEY, 1.0, count), Ok(()));
}

#[test]
fn one_less() {
    for mode in MODES {
        // of 513 that is the longest ring there is
        for (window, bucket, needed) in NEEDED.into_iter().chain([(512, 999, 513)]) {
            if needed > 1 {
                meets::<Absolute>(settings(window, bucket, mode), needed);
                meets::<Suppressed>(settings(window, bucket, mode), needed);
            }
        }
    }
}

/// What the increment at a reading is told after 100 that had a bucket each, and how many buckets there are then.
fn after_100<L: Limiter>(settings: Settings, ring: u64, reading: u64) -> (Result<(), Refusal>, usize) {
    let mut limiter = L::over(settings, Room::new(SLOTS, ring).unwrap());
    for i in 0..100 {
        assert_eq!(limiter.call(Party::First, apart(settings, i), KEY, 1.0, Call::Inc(0)), Ok(()));
    }
    let told = limiter.call(Party::First, reading, KEY, 1.0, Call::Inc(0));
    (told, limiter.stored(Party::First, KEY))
}

/// In nanoseconds a suppressed increment leaves a bucket that is past the window by less than a millisecond; an
/// absolute one takes it out where it needs the place. Here b + 1 milliseconds divide the window, and 101 are needed.
#[test]
fn within_the_millisecond() {
    let settings = settings(10, 99, ClockMode::Nanoseconds);
    let (window, full) = (ticks(settings, 10_000), (Err(Refusal::RingFull), 100));
    for (reading, of_absolute) in [(window, full), (window + 1, (Ok(()), 100)), (window + 999_999, (Ok(()), 100))] {
        assert_eq!(after_100::<Absolute>(settings, 100, reading), of_absolute);
        assert_eq!(after_100::<Suppressed>(settings, 100, reading), full);
        assert_eq!(after_100::<Absolute>(settings, 101, reading), (Ok(()), 101));
        assert_eq!(after_100::<Suppressed>(settings, 101, reading), (Ok(()), 101));
    }
    assert_eq!(after_100::<Suppressed>(settings, 101, window + 1_000_000), (Ok(()), 100));
}

// ---- shots

/// A shot is an increment of the room behind the table; one that a full ring refuses is not remembered.
#[test]
fn shots() {
    for mode in MODES {
        for (window, bucket, needed) in NEEDED {
            let settings = settings(window, bucket, mode);
            let mut gateway = Gateway::new(settings, Table::new(), Room::for_settings(1, settings).unwrap());
            for i in 0..3 * needed + 3 {
                assert!(gateway.shot(apart(settings, i), KEY, i + 1, 1e9, 0).unwrap().is_admitted());
            }
            let Ok(short) = Room::new(1, needed - 1) else { continue };
            let mut gateway = Gateway::new(settings, Table::new(), short);
            for i in 0..needed - 1 {
                assert!(gateway.shot(apart(settings, i), KEY, i + 1, 1e9, 0).unwrap().is_admitted());
            }
            let (table, refused) = (gateway.table().clone(), Err(Refusal::RingFull));
            assert_eq!(gateway.shot(apart(settings, needed - 1), KEY, needed, 1e9, 0), refused);
            assert_eq!(gateway.table(), &table);
            assert!(gateway.shot(past_the_window(settings), KEY, needed, 1e9, 0).unwrap().is_admitted());
        }
    }
}
