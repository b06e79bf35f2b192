//! Every call as a value, so that one list of calls can be put to several implementations.

use crate::gateway::{self, Shot, ShotAnswer};
use crate::parties::Caller;
use crate::room::{Bucket, empty_room};
use crate::rules::{Decision, Kind, Refusal, SetOutcome, Settings};
use crate::set::Wanted;
use crate::{absolute, provider, set, shared, suppressed};

/// A call without its settings and reading.
#[derive(Clone, Copy, Debug)]
pub struct Call<'a> {
    pub caller: Caller,
    pub key: &'a [u8],
    pub op: Op,
}

/// What is asked for. A cleanup of both rooms has the absolute room's promises in its caller, and the suppressed room's here.
#[derive(Clone, Copy, Debug)]
pub enum Op {
    AbsoluteInc { rate: f64, count: u64 },
    IsAllowed,
    AbsoluteGet,
    SuppressedInc { rate: f64, count: u64, draw: u64 },
    SuppressedGet,
    GetSuppressionFactor,
    SetRateLimit { kind: Kind, rate: f64 },
    Delete { kind: Kind },
    Clear { kind: Kind },
    Set { kind: Kind, wanted: Wanted },
    NamelessSet { kind: Kind, rate: f64, count: u64, nameless: Nameless },
    Cleanup { kind: Kind, stale: u64 },
    CleanupBoth { stale: u64, first: u64, second: u64 },
    ReadOut { kind: Kind },
}

/// A set's comparator and, unless it replaces, its preservation as the numbers of the C face, of which one at least names nothing.
#[derive(Clone, Copy, Debug)]
pub struct Nameless {
    pub comparator: u64,
    pub preservation: Option<u64>,
}

/// A call of the gateway, without settings and reading; what has no key looks at neither.
#[derive(Clone, Copy, Debug)]
pub enum Asked<'a> {
    Shot(Caller, Shot<'a>),
    NewSeason,
    MakeTable,
}

/// An answer, doubles as their bits.
#[derive(Clone, Copy, Debug, PartialEq, Eq)]
pub enum Answer {
    Refused(u64),
    Done,
    Allowed,
    Rejected { window: u64, wait: u64, left: u64 },
    Suppressed { factor: u64, admitted: bool },
    Total(u64),
    Snapshot { total: u64, declined: u64, factor: u64 },
    Factor(u64),
    OldRate(Option<u64>),
    Deleted(Option<u64>),
    Set { matched: bool, previous: u64, current: u64 },
    Buckets(u64),
    Held,
}

impl From<Decision> for Answer {
    fn from(decision: Decision) -> Self {
        match decision {
            Decision::Allowed => Answer::Allowed,
            Decision::Rejected { window, wait, left } => Answer::Rejected { window, wait, left },
            Decision::Suppressed { factor, admitted } => {
                Answer::Suppressed { factor: factor.to_bits(), admitted }
            }
        }
    }
}

impl From<ShotAnswer> for Answer {
    fn from(answer: ShotAnswer) -> Self {
        match answer {
            ShotAnswer::Held => Answer::Held,
            ShotAnswer::Decided(decision) => decision.into(),
        }
    }
}

impl From<SetOutcome> for Answer {
    fn from(set: SetOutcome) -> Self {
        let SetOutcome { matched, previous, current } = set;
        Answer::Set { matched, previous, current }
    }
}

impl From<suppressed::Snapshot> for Answer {
    fn from(got: suppressed::Snapshot) -> Self {
        let factor = got.factor.to_bits();
        Answer::Snapshot { total: got.total, declined: got.declined, factor }
    }
}

impl From<()> for Answer {
    fn from(_: ()) -> Self {
        Answer::Done
    }
}

fn told<T: Into<Answer>>(result: Result<T, Refusal>) -> Answer {
    match result {
        Ok(value) => value.into(),
        Err(Refusal(number)) => Answer::Refused(number),
    }
}

/// Where a read-out puts its buckets: the row is as long as the caller made it.
pub type Row = Vec<Bucket>;

/// Both limiters over one absolute and one suppressed room of words, and the gateway over a table and a suppressed room.
/// The twin is one; an archive with C faces becomes another by forwarding each call.
pub trait Limiters {
    fn name(&self) -> &'static str;

    fn call(
        &self,
        settings: &Settings,
        rooms: &mut Rooms,
        reading: u64,
        call: Call,
        row: &mut Row,
    ) -> Answer;

    fn ask(
        &self,
        settings: &Settings,
        table: &mut [u64],
        room: &mut [u64],
        reading: u64,
        asked: Asked,
    ) -> Answer;

    /// How many buckets a ring must have so that no call meets 12.
    fn sufficient_ring(&self, settings: &Settings) -> Result<u64, Refusal>;
}

/// The words of the two rooms.
#[derive(Clone, Debug, PartialEq, Eq)]
pub struct Rooms {
    pub absolute: Vec<u64>,
    pub suppressed: Vec<u64>,
}

impl Rooms {
    pub fn empty(slots: usize, ring: usize) -> Self {
        Rooms { absolute: empty_room(slots, ring), suppressed: empty_room(slots, ring) }
    }

    pub fn of(&self, kind: Kind) -> &[u64] {
        match kind {
            Kind::Absolute => &self.absolute,
            Kind::Suppressed => &self.suppressed,
        }
    }

    pub fn of_mut(&mut self, kind: Kind) -> &mut [u64] {
        match kind {
            Kind::Absolute => &mut self.absolute,
            Kind::Suppressed => &mut self.suppressed,
        }
    }
}

/// The ordinary Rust program of these rooms.
pub struct Twin;

impl Limiters for Twin {
    fn name(&self) -> &'static str {
        "twin"
    }

    fn call(
        &self,
        settings: &Settings,
        rooms: &mut Rooms,
        t: u64,
        call: Call,
        row: &mut Row,
    ) -> Answer {
        let Call { caller, key, op } = call;
        let Rooms { absolute: a, suppressed: s } = rooms;
        match op {
            Op::AbsoluteInc { rate, count } => {
                told(absolute::inc(settings, a, t, caller, key, rate, count))
            }
            Op::IsAllowed => told(absolute::is_allowed(settings, a, t, caller, key)),
            Op::AbsoluteGet => told(absolute::get(settings, a, t, caller, key).map(Answer::Total)),
            Op::SuppressedInc { rate, count, draw } => {
                told(suppressed::inc(settings, s, t, caller, key, rate, count, draw))
            }
            Op::SuppressedGet => told(suppressed::get(settings, s, t, caller, key)),
            Op::GetSuppressionFactor => told(
                suppressed::get_suppression_factor(settings, s, t, caller, key)
                    .map(|factor| Answer::Factor(factor.to_bits())),
            ),
            Op::SetRateLimit { kind, rate } => told(
                shared::set_rate_limit(kind, settings, rooms.of_mut(kind), t, caller, key, rate)
                    .map(|old| Answer::OldRate(old.map(f64::to_bits))),
            ),
            Op::Delete { kind } => told(
                shared::delete(kind, settings, rooms.of_mut(kind), t, caller, key)
                    .map(Answer::Deleted),
            ),
            Op::Clear { kind } => told(shared::clear(settings, rooms.of_mut(kind), t, caller)),
            Op::Set { kind, wanted } => {
                told(set::set(kind, settings, rooms.of_mut(kind), t, caller, key, wanted))
            }
            Op::NamelessSet { kind, rate, count, .. } => {
                told(set::nameless(kind, settings, rooms.of(kind), t, caller, key, rate, count))
            }
            Op::Cleanup { kind, stale } => {
                told(shared::cleanup(kind, settings, rooms.of_mut(kind), t, caller, stale))
            }
            Op::CleanupBoth { stale, first, second } => {
                let callers = [caller, Caller { first, second, ..caller }];
                told(provider::cleanup(settings, a, s, t, callers, stale))
            }
            Op::ReadOut { kind } => told(
                shared::read_out(kind, settings, rooms.of(kind), caller.party, key, row)
                    .map(Answer::Buckets),
            ),
        }
    }

    fn ask(
        &self,
        settings: &Settings,
        table: &mut [u64],
        room: &mut [u64],
        reading: u64,
        asked: Asked,
    ) -> Answer {
        match asked {
            Asked::Shot(caller, shot) => {
                told(gateway::shot(settings, table, room, reading, caller, shot))
            }
            Asked::NewSeason => told(gateway::new_season(table)),
            Asked::MakeTable if gateway::make_table(table) => Answer::Done,
            Asked::MakeTable => Answer::Refused(5),
        }
    }

    fn sufficient_ring(&self, settings: &Settings) -> Result<u64, Refusal> {
        settings.sufficient_ring()
    }
}
