//! Refusals met together: every set of 1 to 12, 15 and 16 on every call, at perceived rate zero and not. Of those that the call can meet the
//! first in the order of judging must be given; a set whose numbers name nothing meets 14 besides. What is not refused tells factor 0 at
//! perceived rate zero.

use twin::calls::{Answer, Call, Nameless, Op, Rooms};
use twin::parties::Caller;
use twin::room::empty_room;
use twin::rules::{ClockMode, Comparator, Kind, Mode, Settings};
use twin::set::Wanted;

use crate::SHORT_WINDOW;
use crate::callers::{NO_PARTIES, Promise};
use crate::expected::{ENTRY, HEADER, HOLDERS, has_key, kind, set_holder, ticks};
use crate::random::{Dice, bad_rate, nameless};
use crate::rate_zero;
use crate::trial::Trials;

pub const TOP: u64 = 1 << 53;

/// How often each set without 15 and 16 is tried on each call, with other words at fault; the others are tried once.
const TIMES: u64 = 3;

/// The order in which refusals are judged.
pub const ORDER: [u64; 14] = [1, 2, 3, 4, 5, 6, 7, 15, 16, 8, 9, 10, 11, 12];

/// S is 0 and H over 2^53, so that one count can meet 10 and ask for a factor.
const SETTINGS: Settings = Settings {
    window: SHORT_WINDOW,
    bucket: 100,
    cache: 100,
    factor: (1u64 << 60) as f64,
    clock: ClockMode::Milliseconds,
};
pub const RATE: f64 = 0.0625;

/// Stands in the form of a call, each of which draws its own.
const NAMELESS: Nameless = Nameless { comparator: 5, preservation: None };

/// In a set of refusals: perceived rate zero, which is none.
pub const NO_RATE: u64 = 0;

/// A set of refusals, with perceived rate zero or not.
#[derive(Clone, Copy)]
pub struct Faults(pub u64);

impl Faults {
    /// The set of a number: its bits are perceived rate zero and 1 to 12; with 15 and with 16 or without.
    pub fn new(set: u64, no_party: bool, broken_promise: bool) -> Self {
        Faults(set | u64::from(no_party) << 15 | u64::from(broken_promise) << 16)
    }

    pub fn has(self, number: u64) -> bool {
        self.0 >> number & 1 == 1
    }
}

/// How a room meets 5.
#[derive(Clone, Copy, PartialEq)]
pub enum Unfit {
    Lengths,
    /// The first slot is unsound.
    Slot,
    /// A slot in use is neither party's.
    Holder,
}

/// Whose the slots are: the first is of the party that calls, the second of either, and a third one is free or not there.
#[derive(Clone, Copy)]
pub struct Shares {
    party: u64,
    second: u64,
    has_free: bool,
}

impl Shares {
    pub fn new(dice: &mut Dice) -> Self {
        let (party, second) = (1 + dice.below(2), 1 + dice.below(2));
        Shares { party, second, has_free: dice.once_in(2) }
    }

    fn held(&self, party: u64) -> u64 {
        u64::from(self.party == party) + u64::from(self.second == party)
    }

    /// What is promised. 11: the party that calls holds all of its own; 16: together too much, also past 2^64, or less than one holds.
    pub fn promise(&self, dice: &mut Dice, faults: Faults) -> Promise {
        let (mut first, mut second) = (self.held(1), self.held(2));
        let slots = 2 + u64::from(self.has_free);
        if faults.has(16) {
            let less = if first > 0 { (first - 1, slots - first) } else { (0, second - 1) };
            let other = if second > 0 { (slots - second, second - 1) } else { less };
            let pairs = [
                (slots, 1),
                (first, slots + 1 - first),
                (u64::MAX, slots),
                (2, u64::MAX),
                (1 << 63, 1 << 63),
                less,
                other,
            ];
            (first, second) = dice.pick(&pairs);
        } else if self.has_free && dice.once_in(2) {
            let own = if faults.has(11) { 3 - self.party } else { 1 + dice.below(2) };
            *if own == 1 { &mut first } else { &mut second } += 1;
        }
        Promise { first, second }
    }

    /// Who calls. 15: neither party.
    pub fn caller(&self, dice: &mut Dice, faults: Faults) -> Caller {
        let party = if faults.has(15) { dice.pick(&NO_PARTIES) } else { self.party };
        self.promise(dice, faults).to(party)
    }
}

/// The last reading of the rooms.
pub fn last(clock: ClockMode) -> u64 {
    1000 * ticks(clock)
}

/// The last reading, or for 6 an earlier one, be it by a tick.
pub fn reading(dice: &mut Dice, clock: ClockMode, faults: Faults) -> u64 {
    let last = last(clock);
    if faults.has(6) { dice.pick(&[last - 1, last - 100]) } else { last }
}

fn calls() -> Vec<Op> {
    let mut ops = vec![
        Op::AbsoluteInc { rate: RATE, count: 1 },
        Op::IsAllowed,
        Op::AbsoluteGet,
        Op::SuppressedInc { rate: RATE, count: 1, draw: 0 },
        Op::SuppressedGet,
        Op::GetSuppressionFactor,
        Op::CleanupBoth { stale: 500, first: 0, second: 0 },
    ];
    for kind in [Kind::Absolute, Kind::Suppressed] {
        ops.extend([
            Op::SetRateLimit { kind, rate: RATE },
            Op::Delete { kind },
            Op::Clear { kind },
            Op::Cleanup { kind, stale: 500 },
            Op::ReadOut { kind },
            Op::NamelessSet { kind, rate: RATE, count: 2, nameless: NAMELESS },
        ]);
        for mode in [Mode::Replace, Mode::PreserveNewest, Mode::PreserveOldest] {
            let wanted = Wanted { rate: RATE, comparator: Comparator::Always, count: 2, mode };
            ops.push(Op::Set { kind, wanted });
        }
    }
    ops
}

/// Where the body of a slot begins, in a room with a ring of two.
pub fn body_start(room: &[u64], slot: usize) -> usize {
    HEADER + ENTRY * room[0] as usize + 13 * slot
}

/// The room's slots in use, of keys `a` and `b`: one bucket that is past joining. 12: the ring is full; perceived rate zero: its counts are 0.
pub fn room(clock: ClockMode, kind: Kind, faults: Faults, shares: Shares) -> Vec<u64> {
    let mut room = empty_room(if shares.has_free { 3 } else { 2 }, 2);
    room[2] = last(clock);
    let time = last(clock) - 200 * ticks(clock);
    let count = u64::from(kind == Kind::Absolute || !faults.has(NO_RATE));
    let declined = if kind == Kind::Absolute { 0 } else { count };
    let limit = match kind {
        Kind::Absolute => 1000.0,
        Kind::Suppressed => SETTINGS.limit(kind, RATE),
    };
    let buckets = if faults.has(12) { 2 } else { 1 };
    let slots = [(b'a', shares.party), (b'b', shares.second)];
    for (slot, (name, party)) in slots.into_iter().enumerate() {
        set_holder(&mut room, slot, party);
        room[HEADER + ENTRY * slot..][..3].copy_from_slice(&[1, 1, u64::from(name)]);
        let start = body_start(&room, slot);
        let body = &mut room[start..][..13];
        body[..5].copy_from_slice(&[limit.to_bits(), count, declined, 1, buckets]);
        body[7..].copy_from_slice(&[0, count, 0, declined, time, time]);
    }
    room
}

/// The key: long, without a slot, or the first slot's.
pub fn key(faults: Faults) -> &'static [u8] {
    match (faults.has(7), faults.has(11)) {
        (true, _) => &[b'a'; 33],
        (_, true) => b"zz",
        _ => b"a",
    }
}

/// The call with its numbers at fault: 8, 9 and 10.
fn with_faults(dice: &mut Dice, op: Op, faults: Faults) -> Op {
    let bad = bad_rate(dice);
    let over = dice.pick(&[TOP + 1, 1 << 63, u64::MAX]);
    let rate_of = |rate: f64| if faults.has(8) { bad } else { rate };
    let count_of = |count: u64| if faults.has(10) { over } else { count };
    match op {
        Op::AbsoluteInc { rate, count } => {
            Op::AbsoluteInc { rate: rate_of(rate), count: count_of(count) }
        }
        Op::SuppressedInc { rate, count, draw } => {
            // A count between S and H asks for the factor.
            let count = if faults.has(10) { TOP + 1 } else { count };
            let draw = dice.pick(&if faults.has(9) { [TOP, u64::MAX] } else { [draw, TOP - 1] });
            Op::SuppressedInc { rate: rate_of(rate), count, draw }
        }
        Op::SetRateLimit { kind, rate } => Op::SetRateLimit { kind, rate: rate_of(rate) },
        Op::Set { kind, wanted } => {
            let (rate, count) = (rate_of(wanted.rate), count_of(wanted.count));
            Op::Set { kind, wanted: Wanted { rate, count, ..wanted } }
        }
        Op::NamelessSet { kind, rate, count, .. } => {
            let (rate, count) = (rate_of(rate), count_of(count));
            Op::NamelessSet { kind, rate, count, nameless: nameless(dice) }
        }
        op => op,
    }
}

pub fn settings(dice: &mut Dice, clock: ClockMode, faults: Faults) -> Settings {
    let mut settings = Settings { clock, ..SETTINGS };
    if faults.has(1) {
        settings.window = dice.pick(&[0, 33_554_433, u64::MAX]);
    }
    if faults.has(2) {
        settings.bucket = dice.pick(&[0, 4_294_967_297, u64::MAX]);
    }
    if faults.has(3) {
        settings.cache = dice.pick(&[0, 4_294_967_297, u64::MAX]);
    }
    if faults.has(4) {
        let below = f64::from_bits(1f64.to_bits() - 1);
        settings.factor = dice.pick(&[below, 0.0, -1.0, f64::NAN, f64::INFINITY, -f64::INFINITY]);
    }
    settings
}

/// Wrong lengths, an unsound first slot, or a slot in use that is neither party's.
pub fn spoil(dice: &mut Dice, room: &mut Vec<u64>, unfit: Unfit) {
    let (slots, start) = (room[0], body_start(room, 0));
    match (unfit, dice.below(4)) {
        (Unfit::Lengths, 0) => room.push(0),
        (Unfit::Lengths, 1) => drop(room.pop()),
        (Unfit::Lengths, 2) => room[0] = dice.pick(&[0, 65, u64::MAX]),
        (Unfit::Lengths, _) => room.truncate(dice.below(4) as usize),
        (Unfit::Slot, 0) => room[HEADER] = dice.pick(&[0, 4]),
        (Unfit::Slot, 1) => room[start] = 0,
        (Unfit::Slot, 2) => room[start + 1] += 1,
        (Unfit::Slot, _) => room[start + 3] = 2,
        (Unfit::Holder, 0) => room[HOLDERS..HEADER].fill(u64::MAX),
        (Unfit::Holder, 1) => {
            let either = room[HOLDERS] | room[HOLDERS + 1];
            room[HOLDERS..HEADER].fill(either);
        }
        (Unfit::Holder, _) => set_holder(room, dice.below(slots) as usize, 3),
    }
}

/// Whether the call can meet this refusal, of those in the set.
fn meets(op: &Op, faults: Faults, number: u64, unfit: Unfit) -> bool {
    use Op::*;
    let is_inc = matches!(op, AbsoluteInc { .. } | SuppressedInc { .. });
    let is_nameless = matches!(op, NamelessSet { .. });
    let is_set = matches!(op, Set { .. });
    let is_named = has_key(op) && ![7, 11, 15].iter().any(|number| faults.has(*number));
    match number {
        5 if unfit == Unfit::Slot => !matches!(op, Clear { .. }) && (is_named || !has_key(op)),
        6 => !matches!(op, ReadOut { .. }),
        7 => has_key(op),
        8 => is_inc || is_set || is_nameless || matches!(op, SetRateLimit { .. }),
        9 => matches!(op, SuppressedInc { .. }),
        10 => is_inc || is_set || is_nameless,
        11 => is_inc || is_set || matches!(op, GetSuppressionFactor),
        12 => is_inc && is_named,
        16 => !matches!(op, ReadOut { .. }),
        _ => true,
    }
}

/// The factor that a call tells that is not refused, if it tells one: 0 at perceived rate zero and of an unknown key, else 1 - 0.
fn factor_due(op: &Op, faults: Faults) -> Option<f64> {
    match op {
        Op::SuppressedInc { .. } | Op::SuppressedGet | Op::GetSuppressionFactor => {
            let is_zero = faults.has(NO_RATE) || faults.has(11);
            Some(if is_zero { 0.0 } else { 1.0 })
        }
        _ => None,
    }
}

fn one(trials: &mut Trials, dice: &mut Dice, clock: ClockMode, op: Op, faults: Faults) {
    let unfit = dice.pick(&[Unfit::Lengths, Unfit::Slot, Unfit::Holder]);
    let shares = Shares::new(dice);
    let mut rooms = Rooms {
        absolute: room(clock, Kind::Absolute, faults, shares),
        suppressed: room(clock, Kind::Suppressed, faults, shares),
    };
    // The provider's cleanup meets 5, 6 and 16 in either room.
    let at_fault = match op {
        Op::CleanupBoth { .. } => dice.pick(&[Kind::Absolute, Kind::Suppressed]),
        _ => kind(&op),
    };
    let reading = reading(dice, clock, faults);
    if matches!(op, Op::CleanupBoth { .. }) && faults.has(6) && dice.once_in(2) {
        let other = if at_fault == Kind::Absolute { Kind::Suppressed } else { Kind::Absolute };
        rooms.of_mut(other)[2] -= 150 * ticks(clock);
    }
    match at_fault {
        _ if !faults.has(5) => {}
        Kind::Absolute => spoil(dice, &mut rooms.absolute, unfit),
        Kind::Suppressed => spoil(dice, &mut rooms.suppressed, unfit),
    }
    let key = key(faults);
    let op = with_faults(dice, op, faults);
    let (caller, op) = given(dice, shares, op, faults);
    let last = if matches!(op, Op::NamelessSet { .. }) { 14 } else { 0 };
    let due = ORDER
        .into_iter()
        .find(|number| faults.has(*number) && meets(&op, faults, *number, unfit))
        .unwrap_or(last);
    let call = Call { caller, key, op };
    let told = trials.put(&settings(dice, clock, faults), &mut rooms, reading, call);
    let is_due = match (due, told) {
        (0, Answer::Refused(_)) => false,
        (0, told) => rate_zero::factor(told) == factor_due(&op, faults),
        _ => told == Answer::Refused(due),
    };
    if !is_due {
        trials.differed += 1;
        eprintln!("differs: refusal {due} is the first that {call:?} meets, {told:?} was told");
    }
}

/// The caller, and the call; of the provider's cleanup one promise is broken, or both are.
fn given(dice: &mut Dice, shares: Shares, op: Op, faults: Faults) -> (Caller, Op) {
    let Op::CleanupBoth { stale, .. } = op else {
        return (shares.caller(dice, faults), op);
    };
    let sound = Faults::new(faults.0 & !(1 << 16), faults.has(15), false);
    let (absolute, suppressed) = dice.pick(&[(faults, faults), (faults, sound), (sound, faults)]);
    let Promise { first, second } = shares.promise(dice, suppressed);
    (shares.caller(dice, absolute), Op::CleanupBoth { stale, first, second })
}

/// With 15 and with 16, or without.
pub const PARTIES: [(bool, bool); 4] = [(false, false), (true, false), (false, true), (true, true)];

/// Every set of refusals on every call.
pub fn run(trials: &mut Trials, dice: &mut Dice, clock: ClockMode) {
    let parties = || PARTIES.into_iter().chain([PARTIES[0]; TIMES as usize - 1]);
    for op in calls() {
        for set in 0..1 << 13 {
            for (no_party, broken_promise) in parties() {
                one(trials, dice, clock, op, Faults::new(set, no_party, broken_promise));
            }
        }
    }
}
