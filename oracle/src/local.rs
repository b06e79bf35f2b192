//! The original's `local` module, as far as it is ported.

#[rustfmt::skip]
#[path = "../target/original/local/absolute_local_rate_limiter.rs"]
pub(crate) mod absolute_local_rate_limiter;
#[rustfmt::skip]
#[path = "../target/original/local/local_rate_limiter_provider.rs"]
mod local_rate_limiter_provider;
#[rustfmt::skip]
#[path = "../target/original/local/suppressed_local_rate_limiter.rs"]
pub(crate) mod suppressed_local_rate_limiter;

pub use absolute_local_rate_limiter::AbsoluteLocalRateLimiter;
pub use local_rate_limiter_provider::LocalRateLimiterProvider;
pub use suppressed_local_rate_limiter::SuppressedLocalRateLimiter;
