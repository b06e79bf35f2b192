//! The passes of a twin that trusts its rooms, built with `--cfg trusting`: nothing is judged, and of the ring only the buckets that a
//! decision needs are read. On sound slots they find what the judging passes find.

use crate::parties::{Held, Holders};
use crate::room::{Gone, Slot};
use crate::rules::{Kind, Settings};

/// What the parties hold, for 11 and 16. Stands in for the judging look.
pub fn held(holders: Holders) -> Option<Held> {
    Some(holders.count())
}

/// The expired buckets. Stands in for the judging pass.
pub fn scan_slot(
    _kind: Kind,
    settings: &Settings,
    slot: Slot,
    _last: u64,
    reading: u64,
) -> Option<Gone> {
    Some(if slot.has_series() { slot.expired(settings, reading) } else { Gone::default() })
}
