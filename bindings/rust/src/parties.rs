//! Two parties that share a room, and what each of them is promised.

/// One of the two parties that may share a room. A key belongs to the party that sends it: the same bytes under the other
/// party are another key. [`Absolute::party`](crate::Absolute::party), [`Suppressed::party`](crate::Suppressed::party)
/// and [`Gateway::party`](crate::Gateway::party) say whose calls follow; without them they are the first's.
#[derive(Clone, Copy, Debug, Default, PartialEq, Eq, Hash)]
pub enum Party {
    #[default]
    First,
    Second,
}

impl Party {
    /// Its number in the face.
    pub(crate) fn number(self) -> u64 {
        match self {
            Party::First => 1,
            Party::Second => 2,
        }
    }
}

/// How many slots of a room each party is promised: together at most the room's, and neither less than it holds, else a
/// call is refused with [`Refusal::BadPromise`](crate::Refusal::BadPromise).
///
/// A party gets a slot for a new key exactly while it holds fewer than it is promised. Keep the same promises for a room's
/// whole life, as its settings: then nothing that the other party does, full slots, refused calls and clears among it,
/// alters a decision, a total or a [`Refusal::NoFreeSlot`](crate::Refusal::NoFreeSlot) of this one.
///
/// ```
/// use frostaxle::{Party, Promises, Refusal, Room, Settings, Suppressed};
///
/// // of 3 slots 2 are for the survey, the first party, and 1 for the lock keepers
/// let promises = Promises { first: 2, second: 1 };
/// let settings = Settings::default();
/// let mut limiter = Suppressed::new(settings, Room::for_settings(3, settings)?).promises(promises);
/// limiter.party(Party::Second).inc(0, b"gate1", 1.5, 1, 0)?;
/// // two slots are free, and both are the survey's
/// assert_eq!(limiter.party(Party::Second).inc(0, b"gate2", 1.5, 1, 0), Err(Refusal::NoFreeSlot));
/// limiter.inc(0, b"boat7", 1.5, 1, 0)?;
/// limiter.inc(0, b"boat8", 1.5, 1, 0)?;
/// assert_eq!(limiter.inc(0, b"boat9", 1.5, 1, 0), Err(Refusal::NoFreeSlot));
/// # Ok::<(), Refusal>(())
/// ```
#[derive(Clone, Copy, Debug, PartialEq, Eq, Hash)]
pub struct Promises {
    pub first: u64,
    pub second: u64,
}

/// What each call is given: whose it is, and what both are promised.
#[derive(Clone, Copy, Debug)]
pub(crate) struct Caller {
    pub party: Party,
    pub promises: Promises,
}

impl Caller {
    /// The first party, promised every slot.
    pub fn alone(slots: u64) -> Caller {
        Caller { party: Party::First, promises: Promises { first: slots, second: 0 } }
    }
}
