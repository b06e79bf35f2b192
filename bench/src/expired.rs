//! Rings that have wholly expired: a room whose rings are full, and calls that meet it a lunch break later.

use crate::contestants::{Contestant, Trusting};
use crate::load::{Call, Deed, Increment, Limiter, Load, Shape};

/// How long no call comes, in milliseconds.
const LUNCH: u64 = 3_600_000;

pub struct Expired {
    /// The words of the full room.
    room: Vec<u64>,
    calls: Vec<Increment>,
}

impl Expired {
    pub fn new(limiter: Limiter, load: &Load, timed: usize) -> Self {
        let (rounds, mut calls) = load.increments(timed);
        let filling = filling(load, rounds);
        let lunch = LUNCH * load.settings.clock.ticks();
        let reading = filling.last().expect("an increment").reading + lunch;
        calls.iter_mut().for_each(|call| call.reading = reading);
        Expired { room: full_room(limiter, load, &filling), calls }
    }

    /// In a round each key has one call.
    pub fn rounds(&self, load: &Load) -> std::slice::Chunks<'_, Increment> {
        self.calls.chunks(load.keys.len())
    }

    /// The contestant's room is full again, since a call that evicts empties a ring.
    pub fn restore(&self, limiter: Limiter, contestant: &mut dyn Contestant) {
        contestant.room(limiter).expect("a room").copy_from_slice(&self.room);
    }
}

/// Of the increments that keep rings full, those that leave every ring full, with its head at a place of the key's own. The last
/// bring some totals to their limits.
fn filling(load: &Load, mut rounds: Vec<Increment>) -> Vec<Increment> {
    let Shape { deed, keys, live, .. } = load.shape;
    // In a bucket's second round the oldest of a full ring is expired.
    rounds.truncate(rounds.len() - keys);
    // The later a key comes, the fewer buckets have gone from its ring.
    rounds.retain(|given| {
        let first_bucket = u64::from(given.key) * live / keys as u64;
        u64::from(given.number) > 2 * first_bucket
    });
    // The absolute limiter looks at the stored total first: `is_allowed` evicts at the limit alone.
    let is_at_limit = |key: u32| key % 2 == 1 || deed == Deed::Expired(Call::Own);
    let last = rounds.len() - keys;
    for given in rounds[last..].iter_mut().filter(|given| is_at_limit(given.key)) {
        given.count = (load.keys[given.key as usize].rate * load.settings.window as f64) as u32;
    }
    rounds
}

/// A room as the increments leave it. The trusting twin fills it, since it is quick.
fn full_room(limiter: Limiter, load: &Load, filling: &[Increment]) -> Vec<u64> {
    let load = Load::new(Shape { deed: Deed::Expired(Call::Inc), ..load.shape });
    let mut filler = Trusting::new(&load);
    filler.run(limiter, &load, filling);
    let room = filler.room(limiter).expect("a room").to_vec();
    let ring = load.shape.ring as u64;
    let is_full = |at| trusting::room::slot(&room, at).buckets() == ring;
    assert!((0..load.keys.len()).all(is_full), "a ring is not full");
    room
}
