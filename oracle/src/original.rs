//! The original behind the judge's calls.

use std::sync::atomic::Ordering;
use std::time::{Instant, set_nanoseconds, set_reading};

use twin::calls::{Answer, Call, Op, Row};
use twin::room::Bucket;
use twin::rules::{ClockMode, Comparator, Kind, Mode, Settings};
use twin::set::Wanted;

use crate::builder::{CleanupConfig, ProviderConfig};
use crate::local::{
    LocalRateLimiterProvider, absolute_local_rate_limiter, suppressed_local_rate_limiter,
};
use crate::{
    BucketSize, ConditionalSetOutcome, HardLimitFactor, HistoryPreservation, RateLimit,
    RateLimitComparator, RateLimitDecision, SuppressionFactorCachePeriod, WindowSize, common,
};

/// A provider of the original, made past the builder, which would refuse a bucket longer than the window.
pub struct Original {
    pub provider: LocalRateLimiterProvider,
    clock: ClockMode,
}

/// What the texts of the second party's keys begin with, and those of the first never have.
const SECOND: char = '\u{100}';

/// A key's bytes as a text with a character for each. The original has no parties: the same bytes of the other one are another text.
pub fn text(party: u64, key: &[u8]) -> String {
    let second = (party == 2).then_some(SECOND);
    second.into_iter().chain(key.iter().map(|byte| char::from(*byte))).collect()
}

fn is_of(party: u64, text: &str) -> bool {
    text.starts_with(SECOND) == (party == 2)
}

fn rate_limit(rate: f64) -> RateLimit {
    RateLimit::per_second(rate).expect("a rate that was not refused")
}

fn comparator(comparator: Comparator) -> RateLimitComparator {
    match comparator {
        Comparator::Eq(operand) => RateLimitComparator::Eq(operand),
        Comparator::Lt(operand) => RateLimitComparator::Lt(operand),
        Comparator::Gt(operand) => RateLimitComparator::Gt(operand),
        Comparator::Ne(operand) => RateLimitComparator::Ne(operand),
        Comparator::Always => RateLimitComparator::Always,
    }
}

fn decision(decision: RateLimitDecision) -> Answer {
    match decision {
        RateLimitDecision::Allowed => Answer::Allowed,
        RateLimitDecision::Rejected { window_size, retry_after, remaining_after_waiting } => {
            Answer::Rejected {
                window: window_size.as_seconds(),
                wait: retry_after.as_millis() as u64,
                left: remaining_after_waiting,
            }
        }
        RateLimitDecision::Suppressed { suppression_factor, is_allowed } => {
            Answer::Suppressed { factor: suppression_factor.to_bits(), admitted: is_allowed }
        }
    }
}

fn outcome(outcome: ConditionalSetOutcome) -> Answer {
    Answer::Set {
        matched: outcome.matched,
        previous: outcome.previous_total,
        current: outcome.current_total,
    }
}

fn bucket(bucket: &common::Bucket) -> Bucket {
    Bucket {
        count: bucket.count.load(Ordering::Relaxed),
        declined: bucket.declined_count.load(Ordering::Relaxed),
        time: bucket.timestamp.reading(),
    }
}

fn stored_bucket(bucket: &Bucket) -> common::Bucket {
    common::Bucket {
        count: bucket.count.into(),
        declined_count: bucket.declined.into(),
        timestamp: Instant::at(bucket.time),
    }
}

/// A series as plain values.
#[derive(Debug, Default, PartialEq, Eq)]
pub struct Series {
    pub limit: u64,
    pub total: u64,
    pub declined: u64,
    pub buckets: Vec<Bucket>,
}

impl Original {
    pub fn new(settings: &Settings) -> Self {
        let config = ProviderConfig {
            window_size: WindowSize::seconds(settings.window).expect("a window"),
            bucket_size: BucketSize::milliseconds(settings.bucket).expect("a bucket"),
            hard_limit_factor: HardLimitFactor::new(settings.factor).expect("a factor"),
            suppression_factor_cache_period: SuppressionFactorCachePeriod::milliseconds(
                settings.cache,
            )
            .expect("a cache period"),
        };
        Original::of(config, settings.clock)
    }

    /// With this window; the rest is what the original has where nothing is named.
    pub fn with_window(window_size: WindowSize, clock: ClockMode) -> Self {
        Original::of(ProviderConfig { window_size, ..ProviderConfig::default() }, clock)
    }

    fn of(config: ProviderConfig, clock: ClockMode) -> Self {
        let provider = LocalRateLimiterProvider::new(config, CleanupConfig::default());
        Original { provider, clock }
    }

    /// The answer to a call that was not refused.
    pub fn call(&self, reading: u64, call: Call, row: &mut Row) -> Answer {
        set_nanoseconds(self.clock == ClockMode::Nanoseconds);
        set_reading(reading);
        let text = text(call.caller.party, call.key);
        let key = text.as_str();
        let (absolute, suppressed) = (self.provider.absolute(), self.provider.suppressed());
        match call.op {
            Op::AbsoluteInc { rate, count } => {
                decision(absolute.inc(key, &rate_limit(rate), count))
            }
            Op::IsAllowed => decision(absolute.is_allowed(key)),
            Op::AbsoluteGet => Answer::Total(absolute.get(key)),
            Op::SuppressedInc { rate, count, draw } => {
                rand::set_draw(draw);
                decision(suppressed.inc(key, &rate_limit(rate), count))
            }
            Op::SuppressedGet => {
                let got = suppressed.get(key);
                Answer::Snapshot {
                    total: got.total,
                    declined: got.total_declined,
                    factor: got.suppression_factor.to_bits(),
                }
            }
            Op::GetSuppressionFactor => {
                Answer::Factor(suppressed.get_suppression_factor(key).to_bits())
            }
            Op::CleanupBoth { stale, .. } => {
                self.provider.cleanup(stale);
                Answer::Done
            }
            Op::Clear { kind } => {
                self.clear(kind, call.caller.party);
                Answer::Done
            }
            Op::ReadOut { kind } => self.read_out(key, kind, row),
            op => self.call_shared(key, op),
        }
    }

    /// The calls that both limiters have.
    fn call_shared(&self, key: &str, op: Op) -> Answer {
        let (absolute, suppressed) = (self.provider.absolute(), self.provider.suppressed());
        match op {
            Op::SetRateLimit { kind, rate } => {
                let rate = rate_limit(rate);
                let old = match kind {
                    Kind::Absolute => absolute.set_rate_limit(key, &rate),
                    Kind::Suppressed => suppressed.set_rate_limit(key, &rate),
                };
                Answer::OldRate(old.map(|old| old.as_per_second().to_bits()))
            }
            Op::Delete { kind: Kind::Absolute } => Answer::Deleted(absolute.delete(key)),
            Op::Delete { kind: Kind::Suppressed } => Answer::Deleted(suppressed.delete(key)),
            Op::Set { kind, wanted } => self.set(key, kind, wanted),
            Op::Cleanup { kind, stale } => {
                match kind {
                    Kind::Absolute => absolute.cleanup(stale),
                    Kind::Suppressed => suppressed.cleanup(stale),
                }
                Answer::Done
            }
            op => unreachable!("the original has no {op:?}"),
        }
    }

    /// The texts that a limiter holds a series or a factor for.
    fn texts(&self, kind: Kind) -> Vec<String> {
        match kind {
            Kind::Absolute => self.provider.absolute().series().whole().keys().cloned().collect(),
            Kind::Suppressed => {
                let suppressed = self.provider.suppressed();
                let (series, factors) =
                    (suppressed.series.whole(), suppressed.suppression_factors.whole());
                series.keys().chain(factors.keys()).cloned().collect()
            }
        }
    }

    /// A party's keys go: by the original's clear where the other party has none, else by deletes.
    fn clear(&self, kind: Kind, party: u64) {
        let (absolute, suppressed) = (self.provider.absolute(), self.provider.suppressed());
        let (own, others): (Vec<String>, Vec<String>) =
            self.texts(kind).into_iter().partition(|text| is_of(party, text));
        if others.is_empty() {
            match kind {
                Kind::Absolute => absolute.clear(),
                Kind::Suppressed => suppressed.clear(),
            }
            return;
        }
        for key in own {
            match kind {
                Kind::Absolute => absolute.delete(&key),
                Kind::Suppressed => suppressed.delete(&key),
            };
        }
    }

    fn read_out(&self, key: &str, kind: Kind, row: &mut Row) -> Answer {
        let buckets = self.series(kind, key).unwrap_or_default().buckets;
        for (place, bucket) in row.iter_mut().zip(&buckets) {
            *place = *bucket;
        }
        Answer::Buckets(buckets.len() as u64)
    }

    fn set(&self, key: &str, kind: Kind, wanted: Wanted) -> Answer {
        let (absolute, suppressed) = (self.provider.absolute(), self.provider.suppressed());
        let rate = rate_limit(wanted.rate);
        let comparator = comparator(wanted.comparator);
        let count = wanted.count;
        let preservation = match wanted.mode {
            Mode::Replace => {
                return outcome(match kind {
                    Kind::Absolute => absolute.set_if(key, &rate, comparator, count),
                    Kind::Suppressed => suppressed.set_if(key, &rate, comparator, count),
                });
            }
            Mode::PreserveNewest => HistoryPreservation::PreserveNewest,
            Mode::PreserveOldest => HistoryPreservation::PreserveOldest,
        };
        outcome(match kind {
            Kind::Absolute => {
                absolute.set_if_preserve_history(key, &rate, comparator, count, preservation)
            }
            Kind::Suppressed => {
                suppressed.set_if_preserve_history(key, &rate, comparator, count, preservation)
            }
        })
    }

    /// A key's series, if it is known.
    pub fn series(&self, kind: Kind, key: &str) -> Option<Series> {
        match kind {
            Kind::Absolute => self.provider.absolute().series().get(key).map(|series| Series {
                limit: series.window_limit.to_bits(),
                total: series.total_count.load(Ordering::Relaxed),
                declined: 0,
                buckets: series.buckets.iter().map(bucket).collect(),
            }),
            Kind::Suppressed => self.provider.suppressed().series.get(key).map(|series| Series {
                limit: series.hard_window_limit.to_bits(),
                total: series.total_count.load(Ordering::Relaxed),
                declined: series.total_declined_count.load(Ordering::Relaxed),
                buckets: series.buckets.iter().map(bucket).collect(),
            }),
        }
    }

    /// A key's cached factor: its bits and its reading.
    pub fn cached(&self, key: &str) -> Option<(u64, u64)> {
        let factors = &self.provider.suppressed().suppression_factors;
        factors.get(key).map(|cached| (cached.1.to_bits(), cached.0.reading()))
    }

    /// Puts a key's state in, so that a history can start anywhere.
    pub fn put(&self, kind: Kind, key: &str, series: Option<Series>, cached: Option<(u64, u64)>) {
        let limiter = &self.provider.suppressed();
        if let Some((factor, time)) = cached {
            let cached = (Instant::at(time), f64::from_bits(factor));
            limiter.suppression_factors.insert(key.to_string(), cached);
        }
        let Some(series) = series else {
            return;
        };
        let buckets = series.buckets.iter().map(stored_bucket).collect();
        let limit = f64::from_bits(series.limit);
        match kind {
            Kind::Absolute => {
                let mut stored = absolute_local_rate_limiter::RateLimitSeries::new(limit);
                stored.buckets = buckets;
                stored.total_count = series.total.into();
                self.provider.absolute().series().insert(key.to_string(), stored);
            }
            Kind::Suppressed => {
                let mut stored = suppressed_local_rate_limiter::RateLimitSeries::new(limit);
                stored.buckets = buckets;
                stored.total_count = series.total.into();
                stored.total_declined_count = series.declined.into();
                limiter.series.insert(key.to_string(), stored);
            }
        }
    }

    /// How many series and cached factors a limiter holds.
    pub fn sizes(&self, kind: Kind) -> (usize, usize) {
        match kind {
            Kind::Absolute => (self.provider.absolute().series().whole().len(), 0),
            Kind::Suppressed => {
                let suppressed = self.provider.suppressed();
                (suppressed.series.whole().len(), suppressed.suppression_factors.whole().len())
            }
        }
    }
}
