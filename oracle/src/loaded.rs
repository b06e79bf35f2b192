//! Rooms that no short history leads to: any sound words, and damaged ones.

use twin::calls::Rooms;
use twin::room::words_of;
use twin::rules::{Kind, Settings};

use crate::expected::{ENTRY, HEADER, HOLDERS, set_holder};
use crate::random::{Dice, rate};
use crate::state::Key;

const TOP: u64 = 1 << 53;

/// Offsets of a room's parts.
struct Places {
    slots: usize,
    ring: usize,
}

impl Places {
    fn entry(&self, at: usize) -> usize {
        HEADER + ENTRY * at
    }

    fn size(&self) -> usize {
        7 + 3 * self.ring
    }

    fn body(&self, at: usize) -> usize {
        HEADER + ENTRY * self.slots + at * self.size()
    }
}

/// Times that do not fall, the newest at most `last`, with ages at the boundaries.
fn times(dice: &mut Dice, settings: &Settings, last: u64, many: usize) -> Vec<u64> {
    let window = 1000 * settings.window;
    let mut times: Vec<u64> = (0..many)
        .map(|_| {
            let edges =
                [0, 1, settings.bucket, settings.bucket + 1, 1000, 1001, window, window + 1];
            let age = match dice.below(3) {
                0 => dice.pick(&edges),
                1 => dice.below(window + 2),
                _ => dice.below(2 * window),
            };
            last.saturating_sub(dice.ticks(settings.clock, age))
        })
        .collect();
    times.sort_unstable();
    times
}

/// Counts whose sum is at most 2^53.
fn counts(dice: &mut Dice, many: usize) -> Vec<u64> {
    let is_huge = dice.once_in(8);
    let mut left = TOP;
    let mut counts = Vec::new();
    for _ in 0..many {
        let count = match dice.below(4) {
            0 => dice.below(2),
            1 if is_huge => dice.pick(&[left, left / 2, left.saturating_sub(1)]),
            2 if is_huge => dice.below(left + 1),
            _ => dice.below(20),
        };
        counts.push(count.min(left));
        left -= count.min(left);
    }
    counts
}

/// A sound limit: at the total, at its ends, or any.
pub fn limit(dice: &mut Dice, kind: Kind, settings: &Settings, total: u64) -> f64 {
    let limit = match dice.below(4) {
        0 => dice.pick(&[f64::INFINITY, f64::MAX, 0.5, 1.0, total as f64, total as f64 + 1.0]),
        1 => (total as f64) * settings.factor,
        _ => settings.limit(kind, rate(dice, settings)),
    };
    if settings.is_limit(kind, limit) { limit } else { f64::INFINITY }
}

fn fill_series(
    dice: &mut Dice,
    kind: Kind,
    settings: &Settings,
    body: &mut [u64],
    ring: usize,
    last: u64,
) {
    let many = dice.below(ring as u64 + 1) as usize;
    let head = dice.below(ring as u64) as usize;
    let times = times(dice, settings, last, many);
    let counts = counts(dice, many);
    let (mut total, mut declined_total) = (0, 0);
    for index in 0..many {
        let count = counts[index];
        let declined = match kind {
            Kind::Absolute => 0,
            Kind::Suppressed if dice.once_in(2) => dice.pick(&[0, 0, count]),
            Kind::Suppressed => dice.below(count + 1),
        };
        let at = 7 + (head + index) % ring;
        body[at] = count;
        body[at + ring] = declined;
        body[at + 2 * ring] = times[index];
        total += count;
        declined_total += declined;
    }
    let limit = limit(dice, kind, settings, total);
    body[..5].copy_from_slice(&[limit.to_bits(), total, declined_total, head as u64, many as u64]);
}

/// A cached factor, at an age beside the cache period or young.
fn fill_factor(dice: &mut Dice, settings: &Settings, body: &mut [u64], last: u64) {
    let below_one = 1.0 - f64::EPSILON / 2.0;
    let factor = dice.pick(&[0.0, 1.0, 0.5, 0.25, 5e-324, 1e-16, below_one, 1.0 / 3.0]);
    let age = dice.pick(&[0, settings.cache - 1, settings.cache, 1]);
    body[5] = factor.to_bits();
    body[6] = last.saturating_sub(dice.ticks(settings.clock, age));
}

/// A key as an entry has it: its length, then its bytes in four words.
pub fn packed(key: &[u8]) -> [u64; 5] {
    let mut bytes = [0u8; 32];
    bytes[..key.len()].copy_from_slice(key);
    let word =
        |at: usize| u64::from_le_bytes(bytes[8 * at..8 * at + 8].try_into().expect("8 bytes"));
    [key.len() as u64, word(0), word(1), word(2), word(3)]
}

fn sound_room(
    dice: &mut Dice,
    kind: Kind,
    settings: &Settings,
    places: &Places,
    keys: &[Key],
    last: u64,
) -> Vec<u64> {
    // Words that mean nothing are anything.
    let mut room: Vec<u64> = (0..words_of(places.slots, places.ring))
        .map(|_| if dice.once_in(2) { dice.any() } else { dice.below(4) })
        .collect();
    room[..3].copy_from_slice(&[places.slots as u64, places.ring as u64, last]);
    let mut unused: Vec<&Key> = keys.iter().collect();
    for at in 0..places.slots {
        let entry = places.entry(at);
        let key = unused.remove(dice.below(unused.len() as u64) as usize);
        let uses = match kind {
            Kind::Absolute => dice.below(2),
            Kind::Suppressed => dice.below(4),
        };
        // A free slot may show any use.
        room[entry] = if uses == 0 { dice.below(5) } else { uses };
        set_holder(&mut room, at, if uses == 0 { 0 } else { key.party });
        room[entry + 1..entry + 6].copy_from_slice(&packed(&key.bytes));
        let body = places.body(at);
        let body = &mut room[body..][..places.size()];
        if uses & 1 != 0 {
            fill_series(dice, kind, settings, body, places.ring, last);
        }
        if uses & 2 != 0 {
            fill_factor(dice, settings, body, last);
        }
        // A free slot's key may be in play elsewhere.
        if uses == 0 {
            unused.push(key);
        }
    }
    room
}

/// Two sound rooms with anything in the words that hold nothing.
pub fn sound_rooms(
    dice: &mut Dice,
    settings: &Settings,
    slots: usize,
    ring: usize,
    keys: &[Key],
    last: u64,
) -> Rooms {
    let places = Places { slots, ring };
    Rooms {
        absolute: sound_room(dice, Kind::Absolute, settings, &places, keys, last),
        suppressed: sound_room(dice, Kind::Suppressed, settings, &places, keys, last),
    }
}

/// The time of some bucket becomes 1 below the time before it, where the words show two buckets.
fn fall(dice: &mut Dice, body: &mut [u64], ring: usize) {
    let (head, held) = (body[3] as usize % ring, (body[4] as usize).min(ring));
    if held > 1 {
        let index = 1 + dice.below(held as u64 - 1) as usize;
        let time = |index: usize| 7 + 2 * ring + (head + index) % ring;
        body[time(index)] = body[time(index - 1)].wrapping_sub(1);
    }
}

/// What a word is changed to: a neighbour, a number at some boundary, the bits of a double, one bit other, or anything.
fn changed(dice: &mut Dice, room: &[u64], at: usize) -> u64 {
    let old = room[at];
    let one = 1f64.to_bits();
    match dice.below(8) {
        0 => old.wrapping_add(1),
        1 => old.wrapping_sub(1),
        2 => dice.pick(&[0, 1, 2, 3, 4, 5]),
        3 => dice.pick(&[
            32,
            33,
            64,
            65,
            512,
            513,
            room[1],
            room[1] - 1,
            room[1] + 1,
            room[2],
            room[2].wrapping_add(1),
        ]),
        4 => dice.pick(&[u64::MAX, TOP, TOP + 1, 1 << 63]),
        5 => dice.pick(&[
            one,
            one + 1,
            f64::NAN.to_bits(),
            f64::INFINITY.to_bits(),
            (-0.0f64).to_bits(),
            (-1.0f64).to_bits(),
        ]),
        6 => old ^ (1 << dice.below(64)),
        _ => dice.any(),
    }
}

/// What a word of holders' bits, party 1's or party 2's, is changed to: one bit other, of each slot that there is and of some that there are
/// not; no bit or all, of the slots that there are, of the others, of both; the other party's word, or what it leaves; the bits moved; or
/// numbers that other words may be.
pub fn holder_words(words: &[u64], at: usize, slots: usize) -> Vec<u64> {
    let (old, other) = (words[at], words[2 * HOLDERS + 1 - at]);
    let all = u64::MAX >> (64 - slots);
    let mut values = vec![
        0,
        all,
        !all,
        u64::MAX,
        other,
        !other,
        old & other,
        old | other,
        old ^ other,
        !old,
        old ^ all,
        old ^ !all,
        old << 1,
        old >> 1,
        old.rotate_left(32),
        old.wrapping_add(1),
        old.wrapping_sub(1),
        1,
        2,
        128,
        TOP,
        1f64.to_bits(),
    ];
    values.extend((0..slots).chain([slots, 31, 32, 62, 63]).map(|at| old ^ 1 << at.min(63)));
    values.retain(|value| *value != old);
    values.sort_unstable();
    values.dedup();
    values
}

/// A slot that the room has, or has not, gets another holder, or neither party; or of one of the two words one bit is other, or all are.
fn damage_holder(dice: &mut Dice, room: &mut [u64]) {
    let slots = if dice.once_in(4) { 64 } else { room[0] };
    let (slot, at) = (dice.below(slots) as usize, HOLDERS + dice.below(2) as usize);
    match dice.below(6) {
        0..=2 => set_holder(room, slot, dice.pick(&[0, 1, 2, 3, 3, 3])),
        3 => room[at] ^= 1 << slot,
        4 => room[at] = dice.pick(&holder_words(room, at, room[0] as usize)),
        _ => room[at] = dice.any(),
    }
}

/// One word changed to a value at some boundary, a time that falls, or one word more or less.
pub fn damage(dice: &mut Dice, room: &mut Vec<u64>) {
    if dice.once_in(40) {
        match dice.below(4) {
            0 => room.truncate(dice.below(4) as usize),
            1 => room.push(0),
            2 => drop(room.pop()),
            _ => room.clear(),
        }
        return;
    }
    let places = Places { slots: room[0] as usize, ring: room[1] as usize };
    let slot = dice.below(room[0]) as usize;
    if dice.once_in(8) {
        let start = places.body(slot);
        return fall(dice, &mut room[start..][..places.size()], places.ring);
    }
    let at = match dice.below(10) {
        0 if dice.once_in(2) => dice.below(3) as usize,
        0 => return damage_holder(dice, room),
        1 | 2 => places.entry(slot) + dice.below(6) as usize,
        3..=6 => places.body(slot) + dice.below(7) as usize,
        _ => places.body(slot) + 7 + dice.below(3 * places.ring as u64) as usize,
    };
    room[at] = changed(dice, room, at);
}
