//! What a tick is, and readings.
use crate::refusal::Refusal;
use std::time::Duration;

/// What a tick is, in which readings are given and bucket times are kept: a setting of a room, the same for its whole
/// life. A room does not store it, and a call with the other mode is not told from a right one.
///
/// Windows stay in seconds; buckets, cache periods, `stale` and waits in milliseconds. In nanoseconds a bucket is expired
/// when its age, to the nanosecond, is over the window: for live totals (`get`, `delete`, the sets) and for what an
/// eviction takes out. By the age cut to whole milliseconds goes whether `inc`, `is_allowed` and
/// `get_suppression_factor` find the oldest bucket expired, and so evict at all; and joining a bucket, using a cached
/// factor, the last second, `cleanup` and waits:
///
/// ```
/// use frostaxle::{ClockMode, Room, Settings, Suppressed};
///
/// let settings = Settings { window_seconds: 10, ..Settings::default() }.clock_mode(ClockMode::Nanoseconds);
/// let mut limiter = Suppressed::new(settings, Room::for_settings(8, settings)?);
/// limiter.inc(0, b"ctl7", 1.5, 1, 0)?;
/// // 10,000.4 ms later the increment leaves the bucket, and `get` takes it out
/// limiter.inc(10_000_400_000, b"ctl7", 1.5, 1, 0)?;
/// assert_eq!(limiter.buckets(b"ctl7")?.len(), 2);
/// assert_eq!(limiter.get(10_000_400_000, b"ctl7")?.total, 1);
/// assert_eq!(limiter.buckets(b"ctl7")?.len(), 1);
/// # Ok::<(), frostaxle::Refusal>(())
/// ```
#[derive(Clone, Copy, Debug, Default, PartialEq, Eq, Hash)]
pub enum ClockMode {
    #[default]
    Milliseconds,
    /// 2^64 of them are some 584 years.
    Nanoseconds,
}

impl ClockMode {
    /// Its number in the face.
    pub(crate) fn number(self) -> u64 {
        match self {
            ClockMode::Milliseconds => 0,
            ClockMode::Nanoseconds => 1,
        }
    }

    /// A time cut to whole ticks, or none if these do not fit.
    pub fn ticks(self, time: Duration) -> Option<u64> {
        let ticks = match self {
            ClockMode::Milliseconds => time.as_millis(),
            ClockMode::Nanoseconds => time.as_nanos(),
        };
        u64::try_from(ticks).ok()
    }

    /// How long so many ticks are: of a bucket's time, how long after your clock's start it was added.
    pub fn duration(self, ticks: u64) -> Duration {
        match self {
            ClockMode::Milliseconds => Duration::from_millis(ticks),
            ClockMode::Nanoseconds => Duration::from_nanos(ticks),
        }
    }
}

/// What your clock shows at a call, from any start; in one room it may stand still but not go back. Calls take a number
/// of ticks or a [`Duration`] in its place:
///
/// ```
/// use frostaxle::{Absolute, Refusal, Room, Settings};
/// use std::time::{Duration, Instant};
///
/// let start = Instant::now();
/// let settings = Settings::default();
/// let mut limiter = Absolute::new(settings, Room::for_settings(8, settings)?);
/// limiter.inc(5, b"ctl7", 1.5, 1)?;
/// // the same reading, cut to whole milliseconds
/// limiter.inc(Duration::from_micros(5_900), b"ctl7", 1.5, 1)?;
/// assert_eq!(limiter.buckets(b"ctl7")?[0].time, 5);
/// limiter.is_allowed(start.elapsed() + Duration::from_secs(1), b"ctl7")?;
/// // one that has too many ticks is refused, and never wraps
/// assert_eq!(limiter.inc(Duration::MAX, b"ctl7", 1.5, 1), Err(Refusal::ReadingTooLarge));
/// # Ok::<(), frostaxle::Refusal>(())
/// ```
#[derive(Clone, Copy, Debug, PartialEq, Eq, Hash)]
pub enum Reading {
    /// Ticks of the settings' clock mode.
    Ticks(u64),
    /// The time since the start, which is cut to whole ticks.
    Elapsed(Duration),
}

impl Reading {
    pub(crate) fn ticks(self, mode: ClockMode) -> Result<u64, Refusal> {
        match self {
            Reading::Ticks(ticks) => Ok(ticks),
            Reading::Elapsed(time) => mode.ticks(time).ok_or(Refusal::ReadingTooLarge),
        }
    }
}

/// Of numbers this one alone, so that a literal is taken for it.
impl From<u64> for Reading {
    fn from(ticks: u64) -> Self {
        Reading::Ticks(ticks)
    }
}

impl From<Duration> for Reading {
    fn from(time: Duration) -> Self {
        Reading::Elapsed(time)
    }
}
