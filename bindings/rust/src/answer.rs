//! What calls take and give, and answer rows turned into it.
use crate::faces::Row;
use crate::refusal::Refusal;
use std::time::Duration;

/// What an increment is told.
#[derive(Clone, Copy, Debug, PartialEq)]
pub enum Decision {
    Allowed,
    /// A no of the absolute limiter. After `retry_after` the oldest bucket is at the window's edge, and a millisecond
    /// later it is out; it holds `remaining_after_waiting`.
    Rejected {
        window_size: Duration,
        retry_after: Duration,
        remaining_after_waiting: u64,
    },
    /// A yes or no of the suppressed limiter, by its factor (0 declines none, 1 all) and the draw.
    Suppressed {
        suppression_factor: f64,
        is_allowed: bool,
    },
}

impl Decision {
    /// Whether it is a yes.
    pub fn is_admitted(self) -> bool {
        match self {
            Decision::Allowed => true,
            Decision::Rejected { .. } => false,
            Decision::Suppressed { is_allowed, .. } => is_allowed,
        }
    }

    /// How long to wait before asking again: for a rejection, until the oldest bucket is out.
    pub fn ask_again_after(self) -> Option<Duration> {
        match self {
            Decision::Rejected { retry_after, .. } => Some(retry_after + Duration::from_millis(1)),
            _ => None,
        }
    }
}

/// What a numbered shot is told.
#[derive(Clone, Copy, Debug, PartialEq)]
pub enum Shot {
    /// The gateway has it: it was admitted before, and nothing changed.
    Held,
    Allowed,
    /// A yes or no of the suppressed limiter, as in [`Decision`].
    Suppressed {
        suppression_factor: f64,
        is_allowed: bool,
    },
}

impl Shot {
    /// Whether the gateway has the shot, from this call or from before. If not, it may be sent again under its number.
    pub fn is_admitted(self) -> bool {
        match self {
            Shot::Held | Shot::Allowed => true,
            Shot::Suppressed { is_allowed, .. } => is_allowed,
        }
    }
}

/// A suppressed key's live totals and its factor.
#[derive(Clone, Copy, Debug, PartialEq)]
pub struct Snapshot {
    pub total: u64,
    pub total_declined: u64,
    pub suppression_factor: f64,
}

/// What a key counted close together.
#[derive(Clone, Copy, Debug, PartialEq, Eq)]
pub struct Bucket {
    pub count: u64,
    /// How much of the count was declined; 0 in an absolute room.
    pub declined: u64,
    /// The reading at which it was added, in ticks: [`ClockMode::duration`](crate::ClockMode::duration) says how long
    /// that is.
    pub time: u64,
}

/// Whether a set's comparator was met, and the live totals before and after.
#[derive(Clone, Copy, Debug, PartialEq, Eq)]
pub struct SetOutcome {
    pub matched: bool,
    pub previous_total: u64,
    pub current_total: u64,
}

/// The guard of a set against the key's live total.
#[derive(Clone, Copy, Debug, PartialEq, Eq)]
pub enum Comparator {
    Always,
    Eq(u64),
    Lt(u64),
    Gt(u64),
    Ne(u64),
}

impl Comparator {
    /// Its number and operand in the face.
    pub(crate) fn numbers(self) -> (u64, u64) {
        match self {
            Comparator::Always => (0, 0),
            Comparator::Eq(operand) => (1, operand),
            Comparator::Lt(operand) => (2, operand),
            Comparator::Gt(operand) => (3, operand),
            Comparator::Ne(operand) => (4, operand),
        }
    }
}

/// Which end of the buckets stays when a set changes the total.
#[derive(Clone, Copy, Debug, PartialEq, Eq)]
pub enum Preservation {
    Newest,
    Oldest,
}

impl Preservation {
    /// Its number in the face.
    pub(crate) fn number(self) -> u64 {
        match self {
            Preservation::Newest => 0,
            Preservation::Oldest => 1,
        }
    }
}

/// The case and the values of an answer, unless it is a refusal.
fn case(row: Row) -> Result<(u64, [u64; 3]), Refusal> {
    let [number, case, x, y, z] = row;
    match number {
        0 => Ok((case, [x, y, z])),
        _ => Err(Refusal::of(number)),
    }
}

pub(crate) const UNKNOWN_CASE: Refusal = Refusal::Other(0);

pub(crate) fn decision(row: Row) -> Result<Decision, Refusal> {
    match case(row)? {
        (1, _) => Ok(Decision::Allowed),
        (2, [window, wait, left]) => Ok(Decision::Rejected {
            window_size: Duration::from_secs(window),
            retry_after: Duration::from_millis(wait),
            remaining_after_waiting: left,
        }),
        (3, [factor, admitted, _]) => {
            Ok(Decision::Suppressed { suppression_factor: f64::from_bits(factor), is_allowed: admitted == 1 })
        }
        _ => Err(UNKNOWN_CASE),
    }
}

/// A shot is held, or has one of the suppressed limiter's decisions.
pub(crate) fn shot(row: Row) -> Result<Shot, Refusal> {
    if let (4, _) = case(row)? {
        return Ok(Shot::Held);
    }
    match decision(row)? {
        Decision::Allowed => Ok(Shot::Allowed),
        Decision::Suppressed { suppression_factor, is_allowed } => {
            Ok(Shot::Suppressed { suppression_factor, is_allowed })
        }
        Decision::Rejected { .. } => Err(UNKNOWN_CASE),
    }
}

/// The values of an answer that has one case.
pub(crate) fn values(row: Row) -> Result<[u64; 3], Refusal> {
    match case(row)? {
        (1, values) => Ok(values),
        _ => Err(UNKNOWN_CASE),
    }
}

/// The first value, or none for an unknown key.
pub(crate) fn known(row: Row) -> Result<Option<u64>, Refusal> {
    match case(row)? {
        (1, [value, _, _]) => Ok(Some(value)),
        (2, _) => Ok(None),
        _ => Err(UNKNOWN_CASE),
    }
}

/// A bucket, or none past the last.
pub(crate) fn bucket(row: Row) -> Result<Option<Bucket>, Refusal> {
    match case(row)? {
        (1, [count, declined, time]) => Ok(Some(Bucket { count, declined, time })),
        (2, _) => Ok(None),
        _ => Err(UNKNOWN_CASE),
    }
}

pub(crate) fn outcome(row: Row) -> Result<SetOutcome, Refusal> {
    let [matched, previous_total, current_total] = values(row)?;
    Ok(SetOutcome { matched: matched == 1, previous_total, current_total })
}

pub(crate) fn snapshot(row: Row) -> Result<Snapshot, Refusal> {
    let [total, total_declined, factor] = values(row)?;
    Ok(Snapshot { total, total_declined, suppression_factor: f64::from_bits(factor) })
}
