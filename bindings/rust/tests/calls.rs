//! Every call through the archive, and every refusal that the safe types can meet.
use frostaxle::{
    Absolute, Bucket, ClockMode, Comparator, Decision, Preservation, Provider, Refusal, Room, SetOutcome, Settings,
    Snapshot, Suppressed,
};
use std::time::Duration;

const KEY: &[u8] = b"ctl7";
const HALF: u64 = 1 << 52;
const MOST: u64 = 1 << 53;

fn room() -> Room {
    Room::new(2, 4).unwrap()
}

/// The readings and limits here are for a window of 10 s, which is not the default.
fn ten_seconds() -> Settings {
    Settings { window_seconds: 10, ..Settings::default() }
}

fn absolute() -> Absolute {
    Absolute::new(ten_seconds(), room())
}

fn suppressed() -> Suppressed {
    Suppressed::new(double(), room())
}

/// The hard limit is twice the soft one.
fn double() -> Settings {
    Settings { hard_limit_factor: 2.0, ..ten_seconds() }
}

fn rejected(wait: u64, left: u64) -> Decision {
    Decision::Rejected {
        window_size: Duration::from_secs(10),
        retry_after: Duration::from_millis(wait),
        remaining_after_waiting: left,
    }
}

fn outcome(matched: bool, previous_total: u64, current_total: u64) -> SetOutcome {
    SetOutcome { matched, previous_total, current_total }
}

// ---- settings

#[test]
fn the_defaults() {
    let defaults = Settings {
        window_seconds: 30,
        bucket_millis: 100,
        cache_millis: 100,
        hard_limit_factor: 1.0,
        clock_mode: ClockMode::Milliseconds,
    };
    assert_eq!(Settings::default(), defaults);
}

/// 1 a second is 30 in the window, and what was counted is in it for 30 s.
#[test]
fn the_default_window() {
    let mut limiter = Absolute::new(Settings::default(), room());
    assert_eq!(limiter.inc(0, KEY, 1.0, 29), Ok(Decision::Allowed));
    assert_eq!(limiter.inc(50, KEY, 1.0, 1), Ok(Decision::Allowed));
    let rejected = |wait| Decision::Rejected {
        window_size: Duration::from_secs(30),
        retry_after: Duration::from_millis(wait),
        remaining_after_waiting: 30,
    };
    assert_eq!(limiter.inc(10_001, KEY, 1.0, 1), Ok(rejected(19_999)));
    assert_eq!(limiter.inc(30_000, KEY, 1.0, 1), Ok(rejected(0)));
    assert_eq!(limiter.inc(30_001, KEY, 1.0, 1), Ok(Decision::Allowed));
}

// ---- rooms

#[test]
fn lengths() {
    for (slots, ring) in [(1, 1), (8, 128), (64, 512)] {
        let words = 5 + slots * (6 + 7 + 3 * ring);
        assert_eq!(Room::words_for(slots, ring), Some(words as usize));
        let room = Room::new(slots, ring).unwrap();
        assert_eq!(room.words().len() as u64, words);
        assert_eq!(&room.words()[..3], &[slots, ring, 0]);
        assert!(room.words()[3..].iter().all(|&word| word == 0));
    }
    for (slots, ring) in [(0, 1), (65, 1), (1, 0), (1, 513), (u64::MAX, 1), (1, u64::MAX)] {
        assert_eq!(Room::words_for(slots, ring), None);
        assert_eq!(Room::new(slots, ring), Err(Refusal::BadRoom));
    }
}

#[test]
fn rooms_of_wrong_length() {
    let whole = room().into_words().into_vec();
    let mut long = whole.clone();
    long.push(0);
    let short = whole[..whole.len() - 1].to_vec();
    let mut slots = whole.clone();
    slots[0] = 3;
    for words in [vec![], vec![1], vec![1, 1], vec![u64::MAX; 3], long, short, slots] {
        let mut limiter = Absolute::new(ten_seconds(), Room::from_words(words.clone()));
        assert_eq!(limiter.inc(0, KEY, 1.0, 1), Err(Refusal::BadRoom));
        assert_eq!(limiter.clear(0), Err(Refusal::BadRoom));
        assert_eq!(limiter.cleanup(0, 0), Err(Refusal::BadRoom));
        assert_eq!(limiter.into_room().words(), words);
    }
}

#[test]
fn words_are_read_back() {
    let mut limiter = absolute();
    limiter.inc(0, KEY, 1.0, 4).unwrap();
    let words = limiter.into_room().into_words();
    let mut again = Absolute::new(ten_seconds(), Room::from_words(words));
    assert_eq!(again.get(50, KEY), Ok(4));
}

// ---- the absolute limiter

#[test]
fn waiting_and_asking_again() {
    let mut limiter = absolute();
    assert_eq!(limiter.inc(0, KEY, 1.0, 10), Ok(Decision::Allowed));
    assert_eq!(limiter.inc(50, KEY, 1.0, 1), Ok(rejected(9950, 10)));
    assert_eq!(limiter.is_allowed(10_000, KEY), Ok(rejected(0, 10)));
    let decision = limiter.inc(10_000, KEY, 1.0, 1).unwrap();
    assert!(!decision.is_admitted());
    assert_eq!(decision.ask_again_after(), Some(Duration::from_millis(1)));
    let decision = limiter.inc(10_001, KEY, 1.0, 1).unwrap();
    assert_eq!((decision, decision.ask_again_after()), (Decision::Allowed, None));
    assert_eq!(limiter.get(10_001, KEY), Ok(1));
}

#[test]
fn a_count_may_pass_the_limit() {
    let mut limiter = absolute();
    assert_eq!(limiter.inc(0, KEY, 1.0, 9), Ok(Decision::Allowed));
    assert_eq!(limiter.inc(0, KEY, 1.0, 100), Ok(Decision::Allowed));
    assert_eq!(limiter.get(0, KEY), Ok(109));
}

#[test]
fn rates_deletes_and_clear() {
    let mut limiter = absolute();
    assert_eq!(limiter.set_rate_limit(0, KEY, 2.0), Ok(None));
    assert_eq!(limiter.delete(0, KEY), Ok(None));
    limiter.inc(0, KEY, 1.5, 3).unwrap();
    assert_eq!(limiter.set_rate_limit(1, KEY, 2.5), Ok(Some(1.5)));
    assert_eq!(limiter.set_rate_limit(2, KEY, 1.0), Ok(Some(2.5)));
    assert_eq!(limiter.delete(3, KEY), Ok(Some(3)));
    assert_eq!(limiter.get(3, KEY), Ok(0));
    limiter.inc(4, b"", 1.0, 1).unwrap();
    limiter.inc(4, &[0; 32], 1.0, 1).unwrap();
    assert_eq!(limiter.clear(5), Ok(()));
    assert_eq!((limiter.get(5, b""), limiter.get(5, &[0; 32])), (Ok(0), Ok(0)));
}

#[test]
fn sets() {
    let mut limiter = absolute();
    assert_eq!(limiter.set_if(0, KEY, 1.0, 5, Comparator::Always), Ok(outcome(true, 0, 5)));
    assert_eq!(limiter.set_if(0, KEY, 1.0, 6, Comparator::Eq(4)), Ok(outcome(false, 5, 5)));
    assert_eq!(limiter.set_if(0, KEY, 1.0, 6, Comparator::Eq(5)), Ok(outcome(true, 5, 6)));
    assert_eq!(limiter.set_if(0, KEY, 1.0, 7, Comparator::Lt(6)), Ok(outcome(false, 6, 6)));
    assert_eq!(limiter.set_if(0, KEY, 1.0, 7, Comparator::Lt(7)), Ok(outcome(true, 6, 7)));
    assert_eq!(limiter.set_if(0, KEY, 1.0, 8, Comparator::Gt(7)), Ok(outcome(false, 7, 7)));
    assert_eq!(limiter.set_if(0, KEY, 1.0, 8, Comparator::Gt(6)), Ok(outcome(true, 7, 8)));
    assert_eq!(limiter.set_if(0, KEY, 1.0, 9, Comparator::Ne(8)), Ok(outcome(false, 8, 8)));
    assert_eq!(limiter.set_if(0, KEY, 1.0, 9, Comparator::Ne(7)), Ok(outcome(true, 8, 9)));
    assert_eq!(limiter.set_if(0, KEY, 1.0, 0, Comparator::Always), Ok(outcome(true, 9, 0)));
    assert_eq!(limiter.delete(0, KEY), Ok(None));
}

/// Two buckets of 6 and 4; a shortage of 5 is taken from the other end than the one that stays.
#[test]
fn preserved_ends() {
    for (preservation, oldest) in [(Preservation::Newest, 1), (Preservation::Oldest, 5)] {
        let mut limiter = absolute();
        limiter.inc(0, KEY, 1.0, 6).unwrap();
        limiter.inc(2_000, KEY, 1.0, 4).unwrap();
        let set = limiter.set_if_preserve_history(2_000, KEY, 0.1, 5, Comparator::Gt(9), preservation);
        assert_eq!(set, Ok(outcome(true, 10, 5)));
        assert_eq!(limiter.is_allowed(2_000, KEY), Ok(rejected(8_000, oldest)));
    }
}

#[test]
fn stale_keys_go() {
    let mut limiter = absolute();
    limiter.inc(0, KEY, 1.0, 1).unwrap();
    assert_eq!(limiter.cleanup(500, 500), Ok(()));
    assert_eq!(limiter.get(500, KEY), Ok(1));
    assert_eq!(limiter.cleanup(501, 500), Ok(()));
    assert_eq!(limiter.get(501, KEY), Ok(0));
}

// ---- the suppressed limiter

/// The worked example of the desk program.
#[test]
fn the_worked_example() {
    let mut limiter = suppressed();
    assert_eq!(limiter.inc(0, KEY, 1.0, 8, 0), Ok(Decision::Allowed));
    assert_eq!(limiter.inc(1_500, KEY, 1.0, 2, 0), Ok(Decision::Allowed));
    let declined = Decision::Suppressed { suppression_factor: 0.5, is_allowed: false };
    assert_eq!(limiter.inc(1_700, KEY, 1.0, 5, HALF), Ok(declined));
    assert_eq!(limiter.inc(1_760, KEY, 1.0, 10, 0), Ok(Decision::Allowed));
    let snapshot = Snapshot { total: 15, total_declined: 5, suppression_factor: f64::from_bits(0x3fd5_5555_5555_5556) };
    assert_eq!(limiter.get(11_700, KEY), Ok(snapshot));
    assert_eq!(limiter.get_suppression_factor(11_700, KEY), Ok(snapshot.suppression_factor));
    assert_eq!(limiter.delete(11_700, KEY), Ok(Some(10)));
}

#[test]
fn the_draw_decides() {
    for (draw, is_allowed) in [(0, true), (HALF - 1, true), (HALF, false), (MOST - 1, false)] {
        let mut limiter = suppressed();
        limiter.inc(0, KEY, 1.0, 8, 0).unwrap();
        limiter.inc(1_500, KEY, 1.0, 2, 0).unwrap();
        let decision = limiter.inc(1_700, KEY, 1.0, 5, draw).unwrap();
        assert_eq!(decision, Decision::Suppressed { suppression_factor: 0.5, is_allowed });
        assert_eq!(decision.is_admitted(), is_allowed);
        assert_eq!(decision.ask_again_after(), None);
    }
}

/// A count of 0 leaves no rate to hold back: what follows is admitted, whatever is drawn.
#[test]
fn a_slow_key_after_an_empty_call() {
    let four = Settings { hard_limit_factor: 4.0, ..ten_seconds() };
    let admitted = Decision::Suppressed { suppression_factor: 0.0, is_allowed: true };
    for draw in [0, MOST - 1] {
        let mut limiter = Suppressed::new(four, room());
        assert_eq!(limiter.inc(0, KEY, 0.05, 0, draw), Ok(Decision::Allowed));
        assert_eq!(limiter.inc(1, KEY, 0.05, 1, draw), Ok(admitted));
        let snapshot = Snapshot { total: 1, total_declined: 0, suppression_factor: 0.0 };
        assert_eq!(limiter.get(1, KEY), Ok(snapshot));
    }
    let mut limiter = Suppressed::new(four, room());
    limiter.inc(0, KEY, 0.05, 0, 0).unwrap();
    assert_eq!(limiter.get(1, KEY), Ok(Snapshot { total: 0, total_declined: 0, suppression_factor: 0.0 }));
    assert_eq!(limiter.get_suppression_factor(101, KEY), Ok(0.0));
    assert_eq!(limiter.inc(102, KEY, 0.05, 1, 0), Ok(admitted));
    // what was counted is a rate, also once the last second has passed
    assert_eq!(limiter.get_suppression_factor(1_103, KEY), Ok(1.0));
}

#[test]
fn shared_calls_in_a_suppressed_room() {
    let mut limiter = suppressed();
    assert_eq!(limiter.get_suppression_factor(0, KEY), Ok(0.0));
    assert_eq!(limiter.delete(0, KEY), Ok(Some(0)));
    assert_eq!(limiter.set_if(0, KEY, 1.0, 5, Comparator::Always), Ok(outcome(true, 0, 5)));
    assert_eq!(limiter.set_rate_limit(1, KEY, 3.0), Ok(Some(1.0)));
    let set = limiter.set_if_preserve_history(2, KEY, 1.0, 7, Comparator::Eq(5), Preservation::Oldest);
    assert_eq!(set, Ok(outcome(true, 5, 7)));
    assert_eq!(limiter.get(3, KEY).unwrap().total, 7);
    assert_eq!(limiter.cleanup(1_000, 500), Ok(()));
    assert_eq!(limiter.get(1_000, KEY).unwrap().total, 0);
    limiter.inc(1_000, KEY, 1.0, 1, 0).unwrap();
    assert_eq!(limiter.clear(1_001), Ok(()));
    assert_eq!(limiter.delete(1_001, KEY), Ok(None));
}

// ---- the read-out

#[test]
fn buckets_oldest_first() {
    let mut limiter = absolute();
    assert_eq!(limiter.buckets(KEY), Ok(vec![]));
    limiter.inc(0, KEY, 1.0, 6).unwrap();
    limiter.inc(100, KEY, 1.0, 1).unwrap();
    limiter.inc(2_000, KEY, 1.0, 2).unwrap();
    let first = Bucket { count: 7, declined: 0, time: 0 };
    let second = Bucket { count: 2, declined: 0, time: 2_000 };
    assert_eq!(limiter.buckets(KEY), Ok(vec![first, second]));
    // expired ones stay until a call takes them out
    limiter.is_allowed(50_000, b"other").unwrap();
    assert_eq!(limiter.buckets(KEY), Ok(vec![first, second]));
    assert_eq!(limiter.get(50_000, KEY), Ok(0));
    assert_eq!(limiter.buckets(KEY), Ok(vec![]));
    assert_eq!(limiter.buckets(&[0; 33]), Err(Refusal::LongKey));
    let mut limiter = suppressed();
    limiter.inc(0, KEY, 1.0, 8, 0).unwrap();
    limiter.inc(1_500, KEY, 1.0, 2, 0).unwrap();
    limiter.inc(1_700, KEY, 1.0, 5, HALF).unwrap();
    let buckets = limiter.buckets(KEY).unwrap();
    assert_eq!(buckets.len(), 3);
    assert_eq!(buckets[2], Bucket { count: 5, declined: 5, time: 1_700 });
    let short = Suppressed::new(double(), Room::from_words(vec![1, 1]));
    assert_eq!(short.buckets(KEY), Err(Refusal::BadRoom));
}

// ---- both

#[test]
fn both_rooms_or_neither() {
    let mut provider = Provider::new(double(), room(), room());
    provider.absolute().inc(0, KEY, 1.0, 1).unwrap();
    provider.suppressed().inc(700, KEY, 1.0, 1, 0).unwrap();
    // the suppressed room's last reading is 700
    assert_eq!(provider.cleanup(699, 0), Err(Refusal::ClockWentBack));
    assert_eq!(provider.absolute().get(0, KEY), Ok(1));
    assert_eq!(provider.cleanup(1_000, 500), Ok(()));
    assert_eq!(provider.absolute().get(1_000, KEY), Ok(0));
    assert_eq!(provider.suppressed().get(1_000, KEY).unwrap().total, 1);
}

// ---- refusals

/// Refused with this, and every word stays.
fn refuses<T: std::fmt::Debug>(
    settings: Settings,
    before: impl Fn(&mut Suppressed),
    call: impl Fn(&mut Suppressed) -> Result<T, Refusal>,
    refusal: Refusal,
) {
    let mut limiter = Suppressed::new(double(), room());
    before(&mut limiter);
    let words = limiter.into_room();
    let mut limiter = Suppressed::new(settings, words.clone());
    assert_eq!(call(&mut limiter).unwrap_err(), refusal);
    assert_eq!(limiter.into_room(), words);
}

#[test]
fn settings_out_of_range() {
    let call = |limiter: &mut Suppressed| limiter.inc(0, KEY, 1.0, 1, 0);
    for window_seconds in [0, 33_554_433, u64::MAX] {
        refuses(Settings { window_seconds, ..double() }, |_| (), call, Refusal::BadWindow);
    }
    for millis in [0, 4_294_967_297, u64::MAX] {
        refuses(Settings { bucket_millis: millis, ..double() }, |_| (), call, Refusal::BadBucket);
        refuses(Settings { cache_millis: millis, ..double() }, |_| (), call, Refusal::BadCache);
    }
    for hard_limit_factor in [0.5, -1.0, f64::NAN, f64::INFINITY] {
        refuses(Settings { hard_limit_factor, ..double() }, |_| (), call, Refusal::BadFactor);
    }
    // the lowest number is given
    let all = Settings { window_seconds: 0, bucket_millis: 0, cache_millis: 0, hard_limit_factor: 0.0, ..double() };
    refuses(all, |_| (), call, Refusal::BadWindow);
}

#[test]
fn calls_that_cannot_be_done() {
    let nothing = |_: &mut Suppressed| ();
    let counted = |limiter: &mut Suppressed| {
        limiter.inc(9, KEY, 1.0, 1, 0).unwrap();
    };
    refuses(double(), counted, |l| l.inc(8, KEY, 1.0, 1, 0), Refusal::ClockWentBack);
    refuses(double(), counted, |l| l.clear(8), Refusal::ClockWentBack);
    refuses(double(), nothing, |l| l.inc(0, &[b'a'; 33], 1.0, 1, 0), Refusal::LongKey);
    refuses(double(), nothing, |l| l.get(0, &[b'a'; 1000]), Refusal::LongKey);
    for rate in [0.0, -1.0, 1e-300, f64::NAN, f64::INFINITY] {
        refuses(double(), nothing, |l| l.inc(9, KEY, rate, 1, 0), Refusal::BadRate);
        refuses(double(), counted, |l| l.inc(9, KEY, rate, 1, 0), Refusal::BadRate);
        refuses(double(), counted, |l| l.set_rate_limit(9, KEY, rate), Refusal::BadRate);
    }
    refuses(double(), nothing, |l| l.inc(0, KEY, 1.0, 1, MOST), Refusal::BadDraw);
    refuses(double(), nothing, |l| l.inc(0, KEY, 1.0, MOST + 1, 0), Refusal::TotalTooLarge);
    refuses(double(), counted, |l| l.inc(9, KEY, 1.0, MOST, 0), Refusal::TotalTooLarge);
    refuses(double(), nothing, |l| l.set_if(0, KEY, 1.0, MOST + 1, Comparator::Eq(7)), Refusal::TotalTooLarge);
    let crowded = |limiter: &mut Suppressed| {
        for key in [b"a", b"b"] {
            limiter.inc(9, key, 1.0, 1, 0).unwrap();
        }
    };
    refuses(double(), crowded, |l| l.inc(9, KEY, 1.0, 1, 0), Refusal::NoFreeSlot);
    refuses(double(), crowded, |l| l.get_suppression_factor(9, KEY), Refusal::NoFreeSlot);
    let full = |limiter: &mut Suppressed| {
        for reading in [0, 101, 202, 303] {
            limiter.inc(reading, KEY, 1.0, 1, 0).unwrap();
        }
    };
    refuses(double(), full, |l| l.inc(404, KEY, 1.0, 1, 0), Refusal::RingFull);
}

#[test]
fn damaged_words() {
    let mut limiter = absolute();
    limiter.inc(0, KEY, 1.0, 3).unwrap();
    let words = limiter.into_room().into_words();
    // the total of slot 0 stands behind the header, two directory entries and the limit
    let mut damaged = words.clone();
    damaged[5 + 2 * 6 + 1] += 1;
    let mut limiter = Absolute::new(ten_seconds(), Room::from_words(damaged.clone()));
    assert_eq!(limiter.inc(0, KEY, 1.0, 1), Err(Refusal::BadRoom));
    assert_eq!(limiter.room().words(), &*damaged);
    // another key's slot is sound, and clear judges no slot but by who holds it
    assert_eq!(limiter.inc(0, b"other", 1.0, 1), Ok(Decision::Allowed));
    assert_eq!(limiter.cleanup(0, 0), Err(Refusal::BadRoom));
    assert_eq!(limiter.clear(0), Ok(()));
}
