//! Periods: how windows, buckets, cache periods and rates are named in other units.

use crate::rules::judge_rate;

/// Seconds in a second, minute, hour, day, week and 30-day month.
pub const PERIODS: [u64; 6] = [1, 60, 3_600, 86_400, 604_800, 2_592_000];

/// The top of a window, in seconds.
pub const WINDOW_TOP: u64 = 33_554_432;

/// The top of a bucket and of a cache period, in milliseconds.
pub const MILLISECONDS_TOP: u64 = 4_294_967_296;

/// `value` times `multiplier`; none for zero, overflow and results past the top.
fn period(value: u64, multiplier: u64, top: u64) -> Option<u64> {
    value.checked_mul(multiplier).filter(|result| (1..=top).contains(result))
}

/// A window of `value` periods, in seconds.
pub fn window(value: u64, period_seconds: u64) -> Option<u64> {
    period(value, period_seconds, WINDOW_TOP)
}

/// A bucket or cache period of `value` milliseconds.
pub fn milliseconds(value: u64) -> Option<u64> {
    period(value, 1, MILLISECONDS_TOP)
}

/// A bucket or cache period of `value` periods, in milliseconds.
pub fn in_milliseconds(value: u64, period_seconds: u64) -> Option<u64> {
    period(value, 1000 * period_seconds, MILLISECONDS_TOP)
}

/// A rate per period as a rate per second, if it is in its range.
pub fn rate(value: f64, period_seconds: u64) -> Option<f64> {
    let rate = value / period_seconds as f64;
    judge_rate(rate).ok().map(|()| rate)
}

/// A rate per second as a rate per period.
pub fn rate_per(rate: f64, period_seconds: u64) -> f64 {
    rate * period_seconds as f64
}
