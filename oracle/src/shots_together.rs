//! Refusals of a shot met together: every set of 1 to 12, 15 and 16, with and without 19, at perceived rate zero and not, for a controller of
//! each standing in the table. The first in the order 19, 20, 21, 1 to 7, 15, 16, 8, .. must be given, and held before 1.

use twin::calls::{Answer, Asked, Rooms};
use twin::gateway::{Shot, empty_table};
use twin::rules::{ClockMode, Kind};

use crate::expected::{ENTRY, HEADER};
use crate::loaded::packed;
use crate::random::{Dice, bad_rate};
use crate::seasons::rooms;
use crate::shots::{HELD, Memory, NO, RATE_ZERO, Shots, YES};
use crate::together::{
    Faults, NO_RATE, ORDER, PARTIES, RATE, Shares, TOP, Unfit, body_start, key, reading, room,
    settings, spoil,
};

/// How the shot's number and its controller stand to the table.
#[derive(Clone, Copy, PartialEq)]
enum Standing {
    New,
    Higher,
    Held,
    /// 20.
    Lower,
    /// 21: not in a table of 64.
    NoPlace,
}

const STANDINGS: [Standing; 5] =
    [Standing::New, Standing::Higher, Standing::Held, Standing::Lower, Standing::NoPlace];

/// The number that the controller's entry has.
const NUMBER: u64 = 17;

/// What the sets of a run must come to.
const COMES: [usize; 21] =
    [HELD, YES, NO, RATE_ZERO, 1, 2, 3, 4, 5, 6, 7, 8, 9, 10, 11, 12, 15, 16, 19, 20, 21];

/// A table of 64 or of fewer controllers, with this one where it is to be known.
fn table(dice: &mut Dice, standing: Standing, controller: &[u8]) -> Vec<u64> {
    let mut table = empty_table();
    let known = if standing == Standing::NoPlace { 64 } else { 1 + dice.below(63) };
    table[0] = known;
    let own = dice.below(known);
    let is_known = !matches!(standing, Standing::New | Standing::NoPlace);
    for at in 0..known {
        let name = format!("other{at}");
        let name = if is_known && at == own { controller } else { name.as_bytes() };
        let entry = &mut table[HEADER + ENTRY * at as usize..][..ENTRY];
        entry[0] = NUMBER;
        entry[1..].copy_from_slice(&packed(name));
    }
    table
}

/// The table becomes unsound for the controller, or for all.
fn spoil_table(dice: &mut Dice, table: &mut Vec<u64>, controller: &[u8]) {
    let known = table[0] as usize;
    let has_name = |entry: &[u64]| controller.len() <= 32 && entry[1..] == packed(controller);
    let own = table[HEADER..].chunks(ENTRY).take(known).position(has_name);
    match (dice.below(6), own) {
        (0, _) => drop(table.pop()),
        (1, _) => table.push(0),
        (2, _) => table[0] = dice.pick(&[65, 1 << 32, u64::MAX]),
        (3, Some(own)) => table[HEADER + ENTRY * own] = dice.pick(&[0, 1 << 32, u64::MAX]),
        (4, Some(own)) if known > 1 => {
            let start = HEADER + ENTRY * own;
            let other = (own + 1) % known;
            table.copy_within(start..start + ENTRY, HEADER + ENTRY * other);
        }
        _ => table[dice.pick(&[1, 2])] = dice.pick(&[1, u64::MAX]),
    }
}

/// What is due: a refusal, 0 where the limiter decides, or none where the shot is held.
fn due(faults: Faults, standing: Standing, is_table_unfit: bool) -> Option<u64> {
    // A long key has no entry, and an unsound table no last number.
    let is_long = faults.has(7);
    let has_last = !is_long && !is_table_unfit;
    match standing {
        _ if faults.has(19) => return Some(19),
        Standing::Lower if has_last => return Some(20),
        Standing::Held if has_last => return None,
        Standing::NoPlace if !is_table_unfit => return Some(21),
        _ => {}
    }
    // A slot that is not there is not full, and has no total.
    let has_slot = !is_long && !faults.has(11);
    let is_met = |number: &u64| faults.has(*number) && (has_slot || ![10, 12].contains(number));
    Some(ORDER.into_iter().find(is_met).unwrap_or(0))
}

/// What the limiter decides: at perceived rate zero the factor is 0, else 1 - 0.
fn decided(faults: Faults) -> Answer {
    let admitted = faults.has(NO_RATE);
    let factor: f64 = if admitted { 0.0 } else { 1.0 };
    Answer::Suppressed { factor: factor.to_bits(), admitted }
}

/// The suppressed room of refusals met together; for 10 the first slot's total is at the top.
fn room_of(clock: ClockMode, faults: Faults, shares: Shares) -> Vec<u64> {
    let mut room = room(clock, Kind::Suppressed, faults, shares);
    if faults.has(10) {
        let start = body_start(&room, 0);
        for at in [1, 2, 8, 10] {
            room[start + at] = TOP;
        }
    }
    room
}

/// The shot's number.
fn number(dice: &mut Dice, faults: Faults, standing: Standing) -> u64 {
    match (faults.has(19), standing) {
        (true, _) => dice.pick(&[0, 1 << 32, u64::MAX]),
        (_, Standing::Lower) => dice.pick(&[1, NUMBER - 1]),
        (_, Standing::Held) => NUMBER,
        _ => dice.pick(&[NUMBER + 1, (1 << 32) - 1]),
    }
}

fn one(shots: &mut Shots, dice: &mut Dice, faults: Faults, standing: Standing) {
    let (clock, controller) = (shots.clock, key(faults));
    let is_long = faults.has(7);
    let in_table: &[u8] = if is_long { b"a" } else { controller };
    let shares = Shares::new(dice);
    let mut memory = Memory {
        table: table(dice, standing, in_table),
        rooms: Rooms { suppressed: room_of(clock, faults, shares), ..rooms(1, 1) },
    };
    let is_named = !is_long && !faults.has(11) && !faults.has(15);
    let is_table_unfit = faults.has(5) && dice.once_in(2);
    match is_table_unfit {
        true => spoil_table(dice, &mut memory.table, controller),
        false if faults.has(5) => {
            // Only a slot that the call addresses is judged, but for its holder.
            let all = [Unfit::Lengths, Unfit::Holder, Unfit::Slot];
            let unfit = dice.pick(if is_named { &all } else { &all[..2] });
            spoil(dice, &mut memory.rooms.suppressed, unfit);
        }
        false => {}
    }
    let number = number(dice, faults, standing);
    let rate = if faults.has(8) { bad_rate(dice) } else { RATE };
    let draw = dice.pick(&if faults.has(9) { [TOP, u64::MAX] } else { [0, TOP - 1] });
    let reading = reading(dice, clock, faults);
    let shot = Shot { controller, number, rate, draw };
    let due = due(faults, standing, is_table_unfit);
    let settings = settings(dice, clock, faults);
    let caller = shares.caller(dice, faults);
    let told = shots.put(&settings, &mut memory, reading, Asked::Shot(caller, shot));
    let is_due = match due {
        None => told == Answer::Held,
        Some(0) => told == decided(faults),
        Some(number) => told == Answer::Refused(number),
    };
    if !is_due {
        shots.differ(format!("{due:?} is due to {shot:?}, and {told:?} was told"));
    }
}

/// Every set of refusals, for every standing.
pub fn run(shots: &mut Shots, dice: &mut Dice) {
    for standing in STANDINGS {
        // The last bit is 19's.
        let sets = (0..1u64 << 14).flat_map(|set| PARTIES.map(|parties| (set, parties)));
        for (set, (no_party, broken_promise)) in sets {
            let set = (set & 0x1fff) | (set >> 13 << 19);
            if shots.goes_on() {
                one(shots, dice, Faults::new(set, no_party, broken_promise), standing);
            }
        }
    }
    shots.end_part("refusals together", &COMES);
}
