//! The two parties of a room: who calls, what each is promised, and how many slots each holds.

use crate::rules::{Refusal, refuse_if};
#[cfg(trusting)]
pub use crate::trusting::held;

/// The party that has a room to itself.
pub const SOLE: u64 = 1;

/// Who calls, and how many slots each party is promised.
#[derive(Clone, Copy, Debug, PartialEq, Eq)]
pub struct Caller {
    /// 1 or 2.
    pub party: u64,
    /// What party 1 is promised.
    pub first: u64,
    /// What party 2 is promised.
    pub second: u64,
}

impl Caller {
    /// One party, promised every slot.
    pub fn alone(slots: usize) -> Self {
        Caller { party: SOLE, first: slots as u64, second: 0 }
    }

    /// Refusals 15 and 16.
    pub fn judge(&self, slots: usize, held: Held) -> Result<(), Refusal> {
        judge_party(self.party)?;
        let slots = slots as u64;
        let fits = self.first <= slots && self.second <= slots - self.first;
        refuse_if(!fits || held.first > self.first || held.second > self.second, 16)
    }

    /// Whether the party holds fewer slots than it is promised, so that one more is its own to take.
    pub fn has_share_left(&self, held: Held) -> bool {
        match self.party {
            1 => held.first < self.first,
            _ => held.second < self.second,
        }
    }
}

/// Refusal 15.
pub fn judge_party(party: u64) -> Result<(), Refusal> {
    refuse_if(!matches!(party, 1 | 2), 15)
}

/// How many slots each party holds.
#[derive(Clone, Copy, Debug)]
pub struct Held {
    first: u64,
    second: u64,
}

/// Who holds which of a room's slots: of each party a word, whose bit s is set where it holds slot s. A slot with both bits is neither
/// party's, one with none is free.
#[derive(Clone, Copy, Debug)]
pub struct Holders {
    /// All slots that the room has; no other bit is set here or below.
    pub all: u64,
    pub first: u64,
    pub second: u64,
}

impl Holders {
    /// The slots that a party holds; none for a party other than 1 and 2.
    pub fn of(self, party: u64) -> u64 {
        match party {
            1 => self.first & !self.second,
            2 => self.second & !self.first,
            _ => 0,
        }
    }

    pub fn used(self) -> u64 {
        self.first | self.second
    }

    pub fn free(self) -> u64 {
        self.all & !self.used()
    }

    pub fn count(self) -> Held {
        let Holders { first, second, .. } = self;
        Held { first: first.count_ones().into(), second: second.count_ones().into() }
    }
}

/// What the parties hold; none where a slot in use is neither party's.
#[cfg(not(trusting))]
pub fn held(holders: Holders) -> Option<Held> {
    (holders.first & holders.second == 0).then(|| holders.count())
}

/// The slots whose bits are set, the lowest first.
pub struct Slots(pub u64);

impl Iterator for Slots {
    type Item = usize;

    fn next(&mut self) -> Option<usize> {
        let Slots(bits) = *self;
        if bits == 0 {
            return None;
        }
        self.0 = bits & (bits - 1);
        Some(bits.trailing_zeros() as usize)
    }
}
