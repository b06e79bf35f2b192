//! What concerns both rooms at once.

use crate::parties::Caller;
use crate::rules::{Kind, Refusal, Settings};
use crate::shared::{judge_cleanup, sweep};

/// Cleans both rooms or neither: the lowest refusal of the two goes first. Each room has a caller of its own.
pub fn cleanup(
    settings: &Settings,
    absolute: &mut [u64],
    suppressed: &mut [u64],
    reading: u64,
    callers: [Caller; 2],
    stale: u64,
) -> Result<(), Refusal> {
    let [of_absolute, of_suppressed] = callers;
    let verdicts = [
        judge_cleanup(Kind::Absolute, settings, absolute, reading, of_absolute),
        judge_cleanup(Kind::Suppressed, settings, suppressed, reading, of_suppressed),
    ];
    if let Some(refusal) = verdicts.iter().filter_map(|v| v.err()).min_by_key(|r| r.0) {
        return Err(refusal);
    }
    sweep(settings.clock, absolute, reading, stale);
    sweep(settings.clock, suppressed, reading, stale);
    Ok(())
}
