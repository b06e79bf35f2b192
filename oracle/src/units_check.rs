//! Period constructors and rates per period against the original's, whose ranges have no tops.

use twin::rules::LEAST_RATE;
use twin::units::{
    MILLISECONDS_TOP, PERIODS, WINDOW_TOP, in_milliseconds, milliseconds, rate, rate_per, window,
};

use crate::compare::Comparison;
use crate::{BucketSize, RateLimit, SuppressionFactorCachePeriod, TrypemaError, WindowSize};

type Whole = fn(u64) -> Result<u64, TrypemaError>;

const WINDOWS: [Whole; 6] = [
    |n| WindowSize::seconds(n).map(WindowSize::as_seconds),
    |n| WindowSize::minutes(n).map(WindowSize::as_seconds),
    |n| WindowSize::hours(n).map(WindowSize::as_seconds),
    |n| WindowSize::days(n).map(WindowSize::as_seconds),
    |n| WindowSize::weeks(n).map(WindowSize::as_seconds),
    |n| WindowSize::months(n).map(WindowSize::as_seconds),
];

const BUCKETS: [Whole; 6] = [
    |n| BucketSize::seconds(n).map(BucketSize::as_milliseconds),
    |n| BucketSize::minutes(n).map(BucketSize::as_milliseconds),
    |n| BucketSize::hours(n).map(BucketSize::as_milliseconds),
    |n| BucketSize::days(n).map(BucketSize::as_milliseconds),
    |n| BucketSize::weeks(n).map(BucketSize::as_milliseconds),
    |n| BucketSize::months(n).map(BucketSize::as_milliseconds),
];

/// The original has no weeks and months here.
const CACHES: [Whole; 4] = [
    |n| SuppressionFactorCachePeriod::seconds(n).map(|cache| cache.as_milliseconds()),
    |n| SuppressionFactorCachePeriod::minutes(n).map(|cache| cache.as_milliseconds()),
    |n| SuppressionFactorCachePeriod::hours(n).map(|cache| cache.as_milliseconds()),
    |n| SuppressionFactorCachePeriod::days(n).map(|cache| cache.as_milliseconds()),
];

type Rate = (fn(f64) -> Result<RateLimit, TrypemaError>, fn(RateLimit) -> f64);

const RATES: [Rate; 6] = [
    (RateLimit::per_second, RateLimit::as_per_second),
    (RateLimit::per_minute, RateLimit::as_per_minute),
    (RateLimit::per_hour, RateLimit::as_per_hour),
    (RateLimit::per_day, RateLimit::as_per_day),
    (RateLimit::per_week, RateLimit::as_per_week),
    (RateLimit::per_month, RateLimit::as_per_month),
];

/// The original's value where it is not past the top.
fn within(original: Result<u64, TrypemaError>, top: u64) -> Option<u64> {
    original.ok().filter(|value| *value <= top)
}

/// Values around zero, each top and the overflow for a multiplier.
fn values(multiplier: u64) -> Vec<u64> {
    let edges = [
        0,
        2,
        WINDOW_TOP / multiplier,
        MILLISECONDS_TOP / multiplier,
        u64::MAX / multiplier,
        u64::MAX,
    ];
    edges
        .iter()
        .flat_map(|edge| (0..5).map(move |by| edge.saturating_add(by).saturating_sub(2)))
        .collect()
}

fn count(comparison: &mut Comparison, same: bool, what: &str) {
    comparison.calls += 1;
    if !same {
        comparison.differed += 1;
        eprintln!("differs: {what}");
    }
}

fn rates() -> Vec<f64> {
    let mut rates =
        vec![0.0, -0.0, -1.0, f64::NAN, f64::INFINITY, f64::MAX, 1.0, 60.0, 0.1, 1e300, 7.3];
    for period in PERIODS {
        let edge = LEAST_RATE * period as f64;
        rates.extend([
            edge,
            f64::from_bits(edge.to_bits() - 1),
            f64::from_bits(edge.to_bits() + 1),
        ]);
    }
    rates
}

pub fn run(comparison: &mut Comparison) {
    for value in values(1) {
        let bucket =
            within(BucketSize::milliseconds(value).map(|b| b.as_milliseconds()), MILLISECONDS_TOP);
        let cache = SuppressionFactorCachePeriod::milliseconds(value).map(|c| c.as_milliseconds());
        let own = milliseconds(value);
        count(comparison, own == bucket && own == within(cache, MILLISECONDS_TOP), "milliseconds");
    }
    for (at, seconds) in PERIODS.into_iter().enumerate() {
        for value in values(seconds) {
            count(
                comparison,
                window(value, seconds) == within(WINDOWS[at](value), WINDOW_TOP),
                "window",
            );
        }
        for value in values(1000 * seconds) {
            let own = in_milliseconds(value, seconds);
            count(comparison, own == within(BUCKETS[at](value), MILLISECONDS_TOP), "bucket");
            if let Some(cache) = CACHES.get(at) {
                count(comparison, own == within(cache(value), MILLISECONDS_TOP), "cache period");
            }
        }
        let (make, tell) = RATES[at];
        for value in rates() {
            let original = make(value).ok().filter(|rate| rate.as_per_second() >= LEAST_RATE);
            let own = rate(value, seconds);
            let same = own.map(f64::to_bits) == original.map(|rate| rate.as_per_second().to_bits());
            let told = own.map(|rate| rate_per(rate, seconds).to_bits());
            count(comparison, same && told == original.map(|rate| tell(rate).to_bits()), "rate");
        }
    }
}
