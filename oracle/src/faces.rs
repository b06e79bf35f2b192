//! What the C face has besides the calls: rooms to make.

use twin::room::{empty_room, words_of};

use crate::rattle::{make, room_words};

/// Lengths at and past the ends of their ranges.
const SLOTS: [u64; 9] = [0, 1, 2, 63, 64, 65, 1 << 60, 1 << 63, u64::MAX];
const RINGS: [u64; 10] = [0, 1, 2, 128, 511, 512, 513, 1 << 62, 1 << 63, u64::MAX];

fn is_in_range(slots: u64, ring: u64) -> bool {
    (1..=64).contains(&slots) && (1..=512).contains(&ring)
}

/// Whether a made room is the twin's empty one, and a room of another length is left with 5.
fn makes(slots: u64, ring: u64, length: usize) -> bool {
    let mut room = vec![7; length];
    let told = make(&mut room, slots, ring);
    let (n, r) = (slots as usize, ring as usize);
    match is_in_range(slots, ring) && words_of(n, r) == length {
        true => told == 0 && room == empty_room(n, r),
        false => told == 5 && room == vec![7; length],
    }
}

/// How many calls, and how many of them differ.
pub fn run() -> (u64, u64) {
    let (mut calls, mut differed) = (0, 0);
    for (slots, ring) in SLOTS.into_iter().flat_map(|n| RINGS.map(|r| (n, r))) {
        let fits = is_in_range(slots, ring);
        let words = if fits { words_of(slots as usize, ring as usize) } else { 0 };
        let lengths = [0, 1, 3, 16, words, words + 1, words.saturating_sub(1)];
        calls += 1 + lengths.len() as u64;
        differed += u64::from(room_words(slots, ring) != words);
        differed += lengths.iter().filter(|length| !makes(slots, ring, **length)).count() as u64;
    }
    (calls, differed)
}
