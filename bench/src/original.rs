//! The original source, unchanged, as a crate of its own.

extern crate std_shim as std;

#[allow(dead_code)]
#[rustfmt::skip]
#[path = "../../oracle/target/original/builder.rs"]
mod builder;
#[allow(dead_code)]
#[rustfmt::skip]
#[path = "../../oracle/target/original/common.rs"]
mod common;
#[allow(dead_code)]
#[rustfmt::skip]
#[path = "../../oracle/target/original/error.rs"]
mod error;

#[allow(dead_code)]
#[rustfmt::skip]
#[path = "../../oracle/src/local.rs"]
mod local;

pub use builder::RateLimiterBuilder;
pub use common::{
    BucketSize, ConditionalSetOutcome, HardLimitFactor, HistoryPreservation, RateLimit,
    RateLimitComparator, RateLimitDecision, SuppressedRateLimitSnapshot,
    SuppressionFactorCachePeriod, WindowSize,
};
pub use error::TrypemaError;
pub use local::LocalRateLimiterProvider;
pub use std::time::{set_nanoseconds, set_reading};

/// A provider with these settings and no cleanup loop.
pub fn provider(
    window: u64,
    bucket: u64,
    cache: u64,
    factor: f64,
) -> std::sync::Arc<LocalRateLimiterProvider> {
    LocalRateLimiterProvider::builder()
        .window_size(WindowSize::seconds(window).expect("a window"))
        .bucket_size(BucketSize::milliseconds(bucket).expect("a bucket"))
        .suppression_factor_cache_period(
            SuppressionFactorCachePeriod::milliseconds(cache).expect("a cache period"),
        )
        .hard_limit_factor(HardLimitFactor::new(factor).expect("a factor"))
        .disable_cleanup()
        .build()
        .expect("a provider")
}
