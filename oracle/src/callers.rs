//! Who calls in a history: one party that is promised every slot, or two that share the rooms.

use twin::calls::{Op, Rooms};
use twin::parties::Caller;
use twin::rules::Kind;

use crate::expected::{held, is_sized, kind};
use crate::random::Dice;
use crate::state::Key;

/// Parties that are none.
pub const NO_PARTIES: [u64; 8] = [0, 3, 4, 127, 128, 129, 1 << 63, u64::MAX];

/// How many slots of a room each party is promised.
#[derive(Clone, Copy, Debug)]
pub struct Promise {
    pub first: u64,
    pub second: u64,
}

impl Promise {
    /// Every slot to one party.
    pub fn all(party: u64, slots: u64) -> Self {
        match party {
            1 => Promise { first: slots, second: 0 },
            _ => Promise { first: 0, second: slots },
        }
    }

    pub fn to(self, party: u64) -> Caller {
        let Promise { first, second } = self;
        Caller { party, first, second }
    }

    /// At least what the parties hold, and at most the room's slots together: all of them, or some left over. Mostly both get some.
    pub fn kept(dice: &mut Dice, room: &[u64]) -> Self {
        let (first, second) = held(room);
        let spare = room[0] - first - second;
        let given = if dice.once_in(3) { dice.below(spare + 1) } else { spare };
        let more = match given {
            2.. if !dice.once_in(4) => 1 + dice.below(given - 1),
            _ => dice.below(given + 1),
        };
        Promise { first: first + more, second: second + given - more }
    }

    /// One that mostly is broken: together over the room's slots, also by a sum past 2^64, or less than a party holds; or any.
    pub fn other(dice: &mut Dice, room: &[u64]) -> Self {
        let ((first, second), slots) = (held(room), room[0]);
        let any = dice.below(slots + 1);
        let choices = [
            (any, slots + 1 - any),
            (u64::MAX, 1 + any),
            (1 + any, u64::MAX),
            (1 << 63, (1 << 63) + any),
            (u64::MAX - any, u64::MAX),
            (first.saturating_sub(1), second),
            (first, second.saturating_sub(1)),
            (first.saturating_sub(1), slots - first),
            (slots - second, second.saturating_sub(1)),
            (any, slots - any),
            (first, second),
        ];
        let (first, second) = dice.pick(&choices);
        Promise { first, second }
    }
}

/// Who calls, with what is promised in each of the rooms.
#[derive(Clone, Copy, Debug)]
pub struct Callers {
    /// The party that has the rooms to itself.
    alone: Option<u64>,
    absolute: Promise,
    suppressed: Promise,
}

impl Callers {
    /// One party has the rooms to itself.
    pub fn alone(party: u64, rooms: &Rooms) -> Self {
        Callers {
            alone: Some(party),
            absolute: Promise::all(party, rooms.absolute[0]),
            suppressed: Promise::all(party, rooms.suppressed[0]),
        }
    }

    /// Two parties share the rooms.
    pub fn two(dice: &mut Dice, rooms: &Rooms) -> Self {
        let absolute = Promise::kept(dice, &rooms.absolute);
        let suppressed = Promise::kept(dice, &rooms.suppressed);
        Callers { alone: None, absolute, suppressed }
    }

    pub fn promise(&self, kind: Kind) -> Promise {
        match kind {
            Kind::Absolute => self.absolute,
            Kind::Suppressed => self.suppressed,
        }
    }

    /// These keys, of whichever of the parties may hold slots.
    pub fn keys(&self, names: &[Key]) -> Vec<Key> {
        let parties = self.alone.map_or(vec![1, 2], |party| vec![party]);
        let of = |party: u64| names.iter().map(move |name| Key::new(party, &name.bytes));
        parties.into_iter().flat_map(of).collect()
    }

    /// Other rooms stand in the old ones' places: the promises go with them.
    pub fn moved(&mut self, dice: &mut Dice, rooms: &Rooms) {
        *self = match self.alone {
            Some(party) => Callers::alone(party, rooms),
            None => Callers::two(dice, rooms),
        };
    }

    /// The next call's party; of two that share the rooms now and then neither.
    pub fn party(&self, dice: &mut Dice) -> u64 {
        match self.alone {
            Some(party) => party,
            None if dice.once_in(60) => dice.pick(&NO_PARTIES),
            None => 1 + dice.below(2),
        }
    }

    /// What is given with a call on a room: the usual promise, which of two parties changes now and then, once or from here on.
    pub fn given(&mut self, dice: &mut Dice, rooms: &Rooms, kind: Kind) -> Promise {
        let (usual, room) = (self.promise(kind), rooms.of(kind));
        if self.alone.is_some() || !is_sized(room) {
            return usual;
        }
        match dice.below(60) {
            0 | 1 => return Promise::other(dice, room),
            2 => {}
            _ => return usual,
        }
        let next = Promise::kept(dice, room);
        match kind {
            Kind::Absolute => self.absolute = next,
            Kind::Suppressed => self.suppressed = next,
        }
        next
    }

    /// The caller of a call of this party with the promises that are usual, and the call with what it has of the suppressed room's.
    pub fn usual(&self, party: u64, op: Op) -> (Caller, Op) {
        let caller = self.promise(kind(&op)).to(party);
        let op = match op {
            Op::CleanupBoth { stale, .. } => {
                let Promise { first, second } = self.promise(Kind::Suppressed);
                Op::CleanupBoth { stale, first, second }
            }
            op => op,
        };
        (caller, op)
    }

    /// The same with promises that change now and then.
    pub fn of(&mut self, dice: &mut Dice, rooms: &Rooms, party: u64, op: Op) -> (Caller, Op) {
        let caller = self.given(dice, rooms, kind(&op)).to(party);
        let op = match op {
            Op::CleanupBoth { stale, .. } => {
                let Promise { first, second } = self.given(dice, rooms, Kind::Suppressed);
                Op::CleanupBoth { stale, first, second }
            }
            op => op,
        };
        (caller, op)
    }
}
