//! The clock modes and readings, through the archive. Window 10 s, bucket and cache period 100 ms.
use frostaxle::{
    Absolute, Bucket, ClockMode, Comparator, Decision, Gateway, Preservation, Provider, Reading, Refusal, Room,
    Settings, Shot, Suppressed, Table,
};
use std::time::Duration;

const KEY: &[u8] = b"ctl7";

/// A millisecond and the window, in nanoseconds.
const MS: u64 = 1_000_000;
const WINDOW: u64 = 10_000 * MS;

/// The longest draw: it admits nothing between the limits.
const NO: u64 = (1 << 53) - 1;

fn room() -> Room {
    Room::new(2, 4).unwrap()
}

/// The readings and limits here are for a window of 10 s, which is not the default.
fn ten_seconds() -> Settings {
    Settings { window_seconds: 10, ..Settings::default() }
}

/// Nanoseconds; the hard limit is twice the soft one.
fn nanos() -> Settings {
    Settings { hard_limit_factor: 2.0, ..ten_seconds() }.clock_mode(ClockMode::Nanoseconds)
}

/// At its limit of 10 since reading 0.
fn absolute() -> Absolute {
    let mut limiter = Absolute::new(nanos(), room());
    assert_eq!(limiter.inc(0, KEY, 1.0, 10), Ok(Decision::Allowed));
    limiter
}

/// At its soft limit of 10 since reading 0.
fn suppressed() -> Suppressed {
    let mut limiter = Suppressed::new(nanos(), room());
    assert_eq!(limiter.inc(0, KEY, 1.0, 10, 0), Ok(Decision::Allowed));
    limiter
}

fn rejected(wait: u64, left: u64) -> Decision {
    Decision::Rejected {
        window_size: Duration::from_secs(10),
        retry_after: Duration::from_millis(wait),
        remaining_after_waiting: left,
    }
}

fn added(count: u64, time: u64) -> Bucket {
    Bucket { count, declined: 0, time }
}

fn times(buckets: Result<Vec<Bucket>, Refusal>) -> Vec<u64> {
    buckets.unwrap().into_iter().map(|bucket| bucket.time).collect()
}

// ---- the modes

#[test]
fn milliseconds_unless_said() {
    assert_eq!(ClockMode::default(), ClockMode::Milliseconds);
    assert_eq!(Settings::default().clock_mode, ClockMode::Milliseconds);
    let set = Settings::default().clock_mode(ClockMode::Nanoseconds);
    assert_eq!(set, Settings { clock_mode: ClockMode::Nanoseconds, ..Settings::default() });
    for (reading, millis, nanos) in [(10_000, 10, 10), (10_001, 0, 10), (WINDOW, 0, 10), (WINDOW + 1, 0, 0)] {
        for (mode, live) in [(ClockMode::Milliseconds, millis), (ClockMode::Nanoseconds, nanos)] {
            let mut limiter = Absolute::new(ten_seconds().clock_mode(mode), room());
            limiter.inc(0, KEY, 1.0, 10).unwrap();
            assert_eq!(limiter.get(reading, KEY), Ok(live));
        }
    }
}

#[test]
fn ticks_and_durations() {
    let (millis, nanos) = (ClockMode::Milliseconds, ClockMode::Nanoseconds);
    let time = Duration::new(3, 4_999_999);
    assert_eq!((millis.ticks(time), nanos.ticks(time)), (Some(3_004), Some(3_004_999_999)));
    assert_eq!((millis.duration(3_004), nanos.duration(3_004_999_999)), (Duration::from_millis(3_004), time));
    for mode in [millis, nanos] {
        assert_eq!(mode.ticks(mode.duration(u64::MAX)), Some(u64::MAX));
        assert_eq!(mode.ticks(mode.duration(u64::MAX) + mode.duration(1)), None);
        assert_eq!(mode.ticks(Duration::MAX), None);
    }
    // the fraction of the last millisecond that fits is cut
    assert_eq!(millis.ticks(millis.duration(u64::MAX) + Duration::from_nanos(999_999)), Some(u64::MAX));
}

// ---- the window

/// Live for every call at an age of just the window.
#[test]
fn at_the_window() {
    let stays = |limiter: &Absolute| assert_eq!(limiter.buckets(KEY), Ok(vec![added(10, 0)]));
    let mut limiter = absolute();
    assert_eq!(limiter.is_allowed(WINDOW, KEY), Ok(rejected(0, 10)));
    stays(&limiter);
    assert_eq!(limiter.inc(WINDOW, KEY, 1.0, 1), Ok(rejected(0, 10)));
    stays(&limiter);
    assert_eq!(limiter.get(WINDOW, KEY), Ok(10));
    stays(&limiter);
    assert_eq!(limiter.set_if(WINDOW, KEY, 1.0, 5, Comparator::Lt(10)).unwrap().previous_total, 10);
    stays(&limiter);
    assert_eq!(limiter.delete(WINDOW, KEY), Ok(Some(10)));
    let mut limiter = suppressed();
    limiter.get_suppression_factor(WINDOW, KEY).unwrap();
    assert_eq!(limiter.get(WINDOW, KEY).unwrap().total, 10);
    limiter.inc(WINDOW, KEY, 1.0, 1, 0).unwrap();
    assert_eq!(times(limiter.buckets(KEY)), [0, WINDOW]);
    assert_eq!(limiter.delete(WINDOW, KEY), Ok(Some(11)));
}

/// Gone for live totals from a nanosecond later on.
#[test]
fn past_the_window_for_totals() {
    for reading in [WINDOW + 1, WINDOW + MS - 1, WINDOW + MS] {
        let mut limiter = absolute();
        assert_eq!(limiter.get(reading, KEY), Ok(0));
        assert_eq!(limiter.buckets(KEY), Ok(vec![]));
        assert_eq!(absolute().delete(reading, KEY), Ok(Some(0)));
        let mut limiter = absolute();
        assert_eq!(limiter.set_if(reading, KEY, 1.0, 5, Comparator::Eq(0)).unwrap().previous_total, 0);
        assert_eq!(limiter.buckets(KEY), Ok(vec![added(5, reading)]));
        let mut limiter = absolute();
        let set = limiter.set_if_preserve_history(reading, KEY, 1.0, 5, Comparator::Eq(0), Preservation::Oldest);
        assert_eq!(set.unwrap().previous_total, 0);
        assert_eq!(limiter.buckets(KEY), Ok(vec![added(5, reading)]));
        let mut limiter = suppressed();
        assert_eq!(limiter.get(reading, KEY).unwrap().total, 0);
        assert_eq!(limiter.buckets(KEY), Ok(vec![]));
        assert_eq!(suppressed().delete(reading, KEY), Ok(Some(0)));
        let set = suppressed().set_if_preserve_history(reading, KEY, 1.0, 5, Comparator::Always, Preservation::Newest);
        assert_eq!(set.unwrap().previous_total, 0);
        assert_eq!(suppressed().set_if(reading, KEY, 1.0, 5, Comparator::Ne(0)).unwrap().previous_total, 0);
    }
}

/// Left by the calls that look at the oldest bucket first, to the last nanosecond of the millisecond.
#[test]
fn left_within_the_millisecond() {
    for reading in [WINDOW + 1, WINDOW + 400_000, WINDOW + MS - 1] {
        let mut limiter = absolute();
        assert_eq!(limiter.is_allowed(reading, KEY), Ok(rejected(0, 10)));
        assert_eq!(limiter.inc(reading, KEY, 1.0, 1), Ok(rejected(0, 10)));
        assert_eq!(limiter.buckets(KEY), Ok(vec![added(10, 0)]));
        assert_eq!(limiter.get(reading, KEY), Ok(0));
        assert_eq!(limiter.inc(reading, KEY, 1.0, 1), Ok(Decision::Allowed));
        let mut limiter = suppressed();
        limiter.get_suppression_factor(reading, KEY).unwrap();
        assert_eq!(times(limiter.buckets(KEY)), [0]);
        // over the soft limit with the bucket that is left
        let decision = limiter.inc(reading, KEY, 1.0, 1, 0).unwrap();
        assert!(matches!(decision, Decision::Suppressed { .. }), "{decision:?}");
        assert_eq!(times(limiter.buckets(KEY)), [0, reading]);
        assert_eq!(limiter.get(reading, KEY).unwrap().total, 1);
        assert_eq!(times(limiter.buckets(KEY)), [reading]);
    }
}

/// A millisecond past the window it is gone for all calls that evict; the absolute limiter does where it is at its limit.
#[test]
fn gone_a_millisecond_later() {
    let reading = WINDOW + MS;
    let mut limiter = absolute();
    assert_eq!(limiter.is_allowed(reading, KEY), Ok(Decision::Allowed));
    assert_eq!(limiter.buckets(KEY), Ok(vec![]));
    let mut limiter = absolute();
    assert_eq!(limiter.inc(reading, KEY, 1.0, 1), Ok(Decision::Allowed));
    assert_eq!(limiter.buckets(KEY), Ok(vec![added(1, reading)]));
    let mut limiter = Absolute::new(nanos(), room());
    limiter.inc(0, KEY, 1.0, 9).unwrap();
    assert_eq!(limiter.inc(reading, KEY, 1.0, 1), Ok(Decision::Allowed));
    assert_eq!(limiter.buckets(KEY), Ok(vec![added(9, 0), added(1, reading)]));
    let mut limiter = suppressed();
    assert_eq!(limiter.get_suppression_factor(reading, KEY), Ok(0.0));
    assert_eq!(limiter.buckets(KEY), Ok(vec![]));
    let mut limiter = suppressed();
    assert_eq!(limiter.inc(reading, KEY, 1.0, 1, NO), Ok(Decision::Allowed));
    assert_eq!(limiter.buckets(KEY), Ok(vec![added(1, reading)]));
}

/// Where the oldest bucket is found expired, all go that are, to the nanosecond.
#[test]
fn an_eviction_is_exact() {
    let second = 200 * MS;
    for (reading, left) in [(second + WINDOW, vec![second]), (second + WINDOW + 1, vec![])] {
        let mut limiter = Absolute::new(nanos(), room());
        limiter.inc(0, KEY, 1.0, 9).unwrap();
        limiter.inc(second, KEY, 1.0, 1).unwrap();
        assert_eq!(limiter.is_allowed(reading, KEY), Ok(Decision::Allowed));
        assert_eq!(times(limiter.buckets(KEY)), left);
        let mut limiter = suppressed();
        limiter.inc(second, KEY, 1.0, 1, 0).unwrap();
        limiter.get_suppression_factor(reading, KEY).unwrap();
        assert_eq!(times(limiter.buckets(KEY)), left);
    }
}

/// The wait is in milliseconds, by the age cut to them: a millisecond after it the oldest bucket is out.
#[test]
fn waits() {
    for (age, wait) in [(0, 10_000), (1, 10_000), (MS - 1, 10_000), (50 * MS, 9_950), (51 * MS - 1, 9_950)] {
        let mut limiter = absolute();
        let decision = limiter.inc(age, KEY, 1.0, 1).unwrap();
        assert_eq!(decision, rejected(wait, 10));
        let again = Duration::from_nanos(age) + decision.ask_again_after().unwrap();
        assert_eq!(limiter.inc(again, KEY, 1.0, 1), Ok(Decision::Allowed));
    }
    let mut limiter = absolute();
    assert_eq!(limiter.inc(50 * MS, KEY, 1.0, 1), Ok(rejected(9_950, 10)));
    assert_eq!(limiter.inc(50 * MS + 9_951 * MS - 1, KEY, 1.0, 1), Ok(rejected(0, 10)));
    assert_eq!(limiter.inc(50 * MS + 9_951 * MS, KEY, 1.0, 1), Ok(Decision::Allowed));
}

// ---- what goes by whole milliseconds

#[test]
fn joining() {
    let start = 7;
    for (age, joins) in [(0, true), (100 * MS, true), (100 * MS + 999_999, true), (101 * MS, false)] {
        let times_after = if joins { vec![start] } else { vec![start, start + age] };
        let mut limiter = Absolute::new(nanos(), room());
        limiter.inc(start, KEY, 1.0, 1).unwrap();
        limiter.inc(start + age, KEY, 1.0, 1).unwrap();
        assert_eq!(times(limiter.buckets(KEY)), times_after);
        let mut limiter = Suppressed::new(nanos(), room());
        limiter.inc(start, KEY, 1.0, 1, 0).unwrap();
        limiter.inc(start + age, KEY, 1.0, 1, 0).unwrap();
        assert_eq!(times(limiter.buckets(KEY)), times_after);
    }
}

/// A factor of 1 - 1 / 10, cached at reading 0; worked out afresh it is 1 - 1 / 15.
#[test]
fn the_cached_factor() {
    let (cached, fresh) = (1.0 - 1.0 / 10.0, 1.0 - 1.0 / 15.0);
    let mut limiter = suppressed();
    assert_eq!(limiter.get_suppression_factor(0, KEY), Ok(cached));
    let declined = Decision::Suppressed { suppression_factor: cached, is_allowed: false };
    assert_eq!(limiter.inc(1, KEY, 1.0, 5, NO), Ok(declined));
    for (reading, factor) in [(100 * MS - 1, cached), (100 * MS, fresh), (100 * MS + 1, fresh)] {
        assert_eq!(limiter.clone().get_suppression_factor(reading, KEY), Ok(factor));
        assert_eq!(limiter.clone().get(reading, KEY).unwrap().suppression_factor, factor);
        let decision = Decision::Suppressed { suppression_factor: factor, is_allowed: false };
        assert_eq!(limiter.clone().inc(reading, KEY, 1.0, 1, NO), Ok(decision));
    }
}

/// 10 counted in the last second are ten times the rate; over the window they are just it.
#[test]
fn the_last_second() {
    for (reading, factor) in [(1_000 * MS, 0.9), (1_000 * MS + 999_999, 0.9), (1_001 * MS, 0.0)] {
        assert_eq!(suppressed().get_suppression_factor(reading, KEY), Ok(factor));
    }
}

#[test]
fn cleaning_up() {
    for (reading, total) in [(500 * MS, 10), (500 * MS + 999_999, 10), (501 * MS, 0)] {
        let mut limiter = absolute();
        limiter.cleanup(reading, 500).unwrap();
        assert_eq!(limiter.get(reading, KEY), Ok(total));
        let mut limiter = suppressed();
        limiter.cleanup(reading, 500).unwrap();
        assert_eq!(limiter.get(reading, KEY).unwrap().total, total);
        let mut provider = Provider::new(nanos(), absolute().into_room(), suppressed().into_room());
        provider.cleanup(reading, 500).unwrap();
        assert_eq!(provider.absolute().get(reading, KEY), Ok(total));
        assert_eq!(provider.suppressed().get(reading, KEY).unwrap().total, total);
    }
    // a lone cached factor
    for (reading, left) in [(500 * MS - 1, Some(0)), (500 * MS, None)] {
        let mut limiter = Suppressed::new(nanos(), room());
        limiter.get_suppression_factor(0, KEY).unwrap();
        limiter.cleanup(reading, 500).unwrap();
        assert_eq!(limiter.delete(reading, KEY), Ok(left));
    }
}

// ---- readings

#[test]
fn a_clock_that_goes_back() {
    let mut limiter = Absolute::new(nanos(), room());
    limiter.inc(WINDOW + 5, KEY, 1.0, 1).unwrap();
    let room = limiter.room().clone();
    assert_eq!(limiter.inc(WINDOW + 4, KEY, 1.0, 1), Err(Refusal::ClockWentBack));
    assert_eq!(limiter.get(Duration::from_nanos(WINDOW + 4), KEY), Err(Refusal::ClockWentBack));
    assert_eq!(limiter.room(), &room);
    assert_eq!(limiter.inc(WINDOW + 5, KEY, 1.0, 1), Ok(Decision::Allowed));
    // in milliseconds the same two times are one reading
    let mut limiter = Absolute::new(ten_seconds(), Room::new(1, 1).unwrap());
    limiter.inc(Duration::from_nanos(WINDOW + 5), KEY, 1.0, 1).unwrap();
    assert_eq!(limiter.inc(Duration::from_nanos(WINDOW + 4), KEY, 1.0, 1), Ok(Decision::Allowed));
}

#[test]
fn the_largest_reading() {
    let mut limiter = absolute();
    assert_eq!(limiter.inc(u64::MAX, KEY, 1.0, 1), Ok(Decision::Allowed));
    assert_eq!(limiter.buckets(KEY), Ok(vec![added(1, u64::MAX)]));
    let time = nanos().clock_mode.duration(limiter.buckets(KEY).unwrap()[0].time);
    assert_eq!(limiter.inc(time, KEY, 1.0, 1), Ok(Decision::Allowed));
    assert_eq!(limiter.inc(time + Duration::from_nanos(1), KEY, 1.0, 1), Err(Refusal::ReadingTooLarge));
}

/// Ticks and times are the same readings.
#[test]
fn times_are_cut_to_ticks() {
    let time = Duration::from_nanos(3_004_999_999);
    for (mode, ticks) in [(ClockMode::Milliseconds, 3_004), (ClockMode::Nanoseconds, 3_004_999_999_u64)] {
        let readings = [Reading::from(ticks), Reading::from(time), Reading::Ticks(ticks), Reading::Elapsed(time)];
        for reading in readings {
            let mut limiter = Absolute::new(ten_seconds().clock_mode(mode), room());
            limiter.inc(reading, KEY, 1.0, 1).unwrap();
            assert_eq!(limiter.buckets(KEY), Ok(vec![added(1, ticks)]));
        }
    }
}

/// Every call refuses a time that has too many ticks, before all else, and leaves the room.
#[test]
fn times_that_do_not_fit() {
    for mode in [ClockMode::Milliseconds, ClockMode::Nanoseconds] {
        let settings = Settings { window_seconds: 0, ..Settings::default() }.clock_mode(mode);
        for time in [mode.duration(u64::MAX) + mode.duration(1), Duration::MAX] {
            too_large(settings, time);
        }
    }
}

fn too_large(settings: Settings, time: Duration) {
    let refused = Refusal::ReadingTooLarge;
    let (always, newest) = (Comparator::Always, Preservation::Newest);
    let mut provider = Provider::new(settings, absolute().into_room(), suppressed().into_room());
    assert_eq!(provider.cleanup(time, 0), Err(refused));
    let limiter = provider.absolute();
    assert_eq!(limiter.inc(time, KEY, 1.0, 1), Err(refused));
    assert_eq!(limiter.is_allowed(time, KEY), Err(refused));
    assert_eq!(limiter.get(time, KEY), Err(refused));
    assert_eq!(limiter.set_rate_limit(time, KEY, 1.0), Err(refused));
    assert_eq!(limiter.delete(time, KEY), Err(refused));
    assert_eq!(limiter.clear(time), Err(refused));
    assert_eq!(limiter.set_if(time, KEY, 1.0, 1, always), Err(refused));
    assert_eq!(limiter.set_if_preserve_history(time, KEY, 1.0, 1, always, newest), Err(refused));
    assert_eq!(limiter.cleanup(time, 0), Err(refused));
    assert_eq!(limiter.room(), absolute().room());
    let limiter = provider.suppressed();
    assert_eq!(limiter.inc(time, KEY, 1.0, 1, 0), Err(refused));
    assert_eq!(limiter.get(time, KEY), Err(refused));
    assert_eq!(limiter.get_suppression_factor(time, KEY), Err(refused));
    assert_eq!(limiter.set_rate_limit(time, KEY, 1.0), Err(refused));
    assert_eq!(limiter.delete(time, KEY), Err(refused));
    assert_eq!(limiter.clear(time), Err(refused));
    assert_eq!(limiter.set_if(time, KEY, 1.0, 1, always), Err(refused));
    assert_eq!(limiter.set_if_preserve_history(time, KEY, 1.0, 1, always, newest), Err(refused));
    assert_eq!(limiter.cleanup(time, 0), Err(refused));
    assert_eq!(limiter.room(), suppressed().room());
}

// ---- shots

#[test]
fn shots_in_nanoseconds() {
    let mut gateway = Gateway::new(nanos(), Table::new(), room());
    // 0.1 a second: one in the window soft, two hard
    assert_eq!(gateway.shot(0, KEY, 1, 0.1, 0), Ok(Shot::Allowed));
    assert_eq!(gateway.shot(Duration::from_nanos(200), KEY, 2, 0.1, 0), Ok(Shot::Allowed));
    let no = Shot::Suppressed { suppression_factor: 1.0, is_allowed: false };
    // the first look leaves what the window has left by less than a millisecond
    assert_eq!(gateway.shot(WINDOW + MS - 1, KEY, 3, 0.1, 0), Ok(no));
    assert_eq!(gateway.shot(WINDOW + MS, KEY, 3, 0.1, 0), Ok(Shot::Allowed));
    assert_eq!(gateway.shot(0, KEY, 3, 0.1, 0), Ok(Shot::Held));
    assert_eq!(gateway.shot(WINDOW + MS - 1, KEY, 4, 0.1, 0), Err(Refusal::ClockWentBack));
}

/// What number and table tell is told, whatever the reading; nothing changes.
#[test]
fn shots_at_times_that_do_not_fit() {
    let mut gateway = Gateway::new(nanos(), Table::new(), Room::new(64, 1).unwrap());
    for controller in 0..64_u64 {
        assert_eq!(gateway.shot(0, &controller.to_le_bytes(), 5, 1.0, 0), Ok(Shot::Allowed));
    }
    let (table, room) = (gateway.table().clone(), gateway.room().clone());
    let (own, other) = (0_u64.to_le_bytes(), 64_u64.to_le_bytes());
    assert_eq!(gateway.shot(Duration::MAX, &own, 0, 1.0, 0), Err(Refusal::BadNumber));
    assert_eq!(gateway.shot(Duration::MAX, &own, 4, 1.0, 0), Err(Refusal::OldNumber));
    assert_eq!(gateway.shot(Duration::MAX, &own, 5, 1.0, 0), Ok(Shot::Held));
    assert_eq!(gateway.shot(Duration::MAX, &other, 1, 1.0, 0), Err(Refusal::TableFull));
    assert_eq!(gateway.shot(Duration::MAX, &own, 6, 1.0, 0), Err(Refusal::ReadingTooLarge));
    assert_eq!((gateway.table(), gateway.room()), (&table, &room));
    assert_eq!(gateway.shot(0, &own, 6, 1.0, 0), Ok(Shot::Allowed));
}
