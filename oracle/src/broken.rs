//! Rooms that no call made: good ones with words changed, wrong lengths, and random words.

use twin::calls::{Call, Op, Rooms};
use twin::parties::Caller;
use twin::room::{is_room, words_of};
use twin::rules::{ClockMode, Comparator, Kind, Mode, Settings};
use twin::set::Wanted;

use crate::callers::{NO_PARTIES, Promise};
use crate::compare::{Comparison, Shared};
use crate::expected::{ENTRY, HEADER, HOLDERS, holder, is_sized, is_sound, kind, set_holder};
use crate::loaded::holder_words;
use crate::long::{self, Falls};
use crate::random::{Dice, bad_rate, bad_settings, key_pool, nameless, rate, rooms_left};
use crate::state::Key;
use crate::together;
use crate::trial::Trials;
use crate::{Others, SHORT_WINDOW, others};

const TOP: u64 = 1 << 53;
const FIXED: usize = 7;

/// What the calls on one room are drawn from.
struct Scene<'a> {
    dice: &'a mut Dice,
    settings: Settings,
    kind: Kind,
    /// The other room, for the provider's cleanup.
    beside: Vec<u64>,
    last: u64,
    keys: &'a [Key],
}

const CALLS: u64 = 11;

impl Scene<'_> {
    fn count(&mut self) -> u64 {
        match self.dice.once_in(6) {
            true => self.dice.pick(&[TOP - 2, TOP - 1, TOP, TOP + 1, u64::MAX, 1 << 63]),
            false => self.dice.below(8),
        }
    }

    fn rate(&mut self) -> f64 {
        match self.dice.once_in(40) {
            true => bad_rate(self.dice),
            false => rate(self.dice, &self.settings),
        }
    }

    fn wanted(&mut self) -> Wanted {
        let operand = self.dice.below(4);
        let comparator = match self.dice.below(8) {
            0 => Comparator::Eq(operand),
            1 => Comparator::Lt(operand),
            2 => Comparator::Gt(operand),
            3 => Comparator::Ne(operand),
            _ => Comparator::Always,
        };
        let mode = self.dice.pick(&[Mode::Replace, Mode::PreserveNewest, Mode::PreserveOldest]);
        Wanted { rate: self.rate(), comparator, count: self.count(), mode }
    }

    fn stale(&mut self) -> u64 {
        let random = self.dice.below(20_000);
        self.dice.pick(&[0, 1, 500, random, random, u64::MAX])
    }

    /// The call of a number below `CALLS`.
    fn op(&mut self, number: u64) -> Op {
        let kind = self.kind;
        let absolute = kind == Kind::Absolute;
        match number {
            0 if absolute => Op::AbsoluteInc { rate: self.rate(), count: self.count() },
            0 => {
                let within = self.dice.below(TOP);
                let odd = self.dice.pick(&[0, TOP - 1, TOP / 2, TOP, u64::MAX]);
                let draw = if self.dice.once_in(4) { odd } else { within };
                Op::SuppressedInc { rate: self.rate(), count: self.count(), draw }
            }
            1 if absolute => Op::IsAllowed,
            1 => Op::GetSuppressionFactor,
            2 if absolute => Op::AbsoluteGet,
            2 => Op::SuppressedGet,
            3 => Op::SetRateLimit { kind, rate: self.rate() },
            4 => Op::Delete { kind },
            5 => Op::Clear { kind },
            6 => Op::Set { kind, wanted: self.wanted() },
            7 => Op::Cleanup { kind, stale: self.stale() },
            // The caller's promise in the suppressed room comes with the rooms.
            8 => Op::CleanupBoth { stale: self.stale(), first: 0, second: 0 },
            9 => Op::ReadOut { kind },
            _ => {
                let (rate, count, nameless) = (self.rate(), self.count(), nameless(self.dice));
                Op::NamelessSet { kind, rate, count, nameless }
            }
        }
    }

    fn reading(&mut self) -> u64 {
        let Settings { window, bucket, cache, .. } = self.settings;
        let dice = &mut *self.dice;
        let rises = [0, 0, 1, bucket, bucket + 1, cache, 1000, 1000 * window, 1000 * window + 1];
        match dice.below(24) {
            0 => self.last.saturating_sub(1),
            1 => dice.pick(&[0, u64::MAX]),
            _ => {
                let rise = dice.pick(&rises);
                self.last.saturating_add(dice.ticks(self.settings.clock, rise))
            }
        }
    }

    fn key(&mut self, own: &[u8]) -> Vec<u8> {
        match self.dice.below(40) {
            0 => vec![b'k'; self.dice.pick(&[33, 40, 1000])],
            1..=9 => self.keys[self.dice.below(self.keys.len() as u64) as usize].bytes.clone(),
            _ => own.to_vec(),
        }
    }

    /// What is promised in a room: mostly what the parties hold at least, now and then something else.
    fn promise(&mut self, room: &[u64]) -> Promise {
        match (is_sized(room), self.dice.once_in(12)) {
            (false, _) => Promise { first: self.dice.below(4), second: self.dice.below(4) },
            (true, true) => Promise::other(self.dice, room),
            (true, false) => Promise::kept(self.dice, room),
        }
    }

    /// Who calls, mostly the party that holds the key's slot; and the call with its promises.
    fn given(&mut self, rooms: &Rooms, own: u64, op: Op) -> (Caller, Op) {
        let party = match self.dice.below(40) {
            0 => self.dice.pick(&NO_PARTIES),
            1..=6 => 3 - own,
            _ => own,
        };
        let caller = self.promise(rooms.of(kind(&op))).to(party);
        let op = match op {
            Op::CleanupBoth { stale, .. } => {
                let Promise { first, second } = self.promise(&rooms.suppressed);
                Op::CleanupBoth { stale, first, second }
            }
            op => op,
        };
        (caller, op)
    }

    fn rooms(&self, room: &[u64]) -> Rooms {
        let (room, beside) = (room.to_vec(), self.beside.clone());
        match self.kind {
            Kind::Absolute => Rooms { absolute: room, suppressed: beside },
            Kind::Suppressed => Rooms { absolute: beside, suppressed: room },
        }
    }

    /// Every call once, each on the room as it is, or now and then one after another. The key is of a slot.
    fn try_all(&mut self, trials: &mut Trials, room: &[u64], own: &[u8], slot: usize) {
        trials.count_room(self.kind, room);
        // Whose the slot is, as far as its bits tell.
        let party = match room.len() {
            HEADER.. => Some(holder(room, slot)).filter(|holder| [1, 2].contains(holder)),
            _ => None,
        };
        let party = party.unwrap_or_else(|| 1 + self.dice.below(2));
        let in_a_row = self.dice.once_in(8);
        let last = self.last;
        if is_room(room) && self.dice.once_in(2) {
            self.last = room[2];
        }
        let mut rooms = self.rooms(room);
        for number in 0..CALLS {
            if !in_a_row {
                rooms = self.rooms(room);
            }
            let (op, reading, key) = (self.op(number), self.reading(), self.key(own));
            let (caller, op) = self.given(&rooms, party, op);
            let settings = match self.dice.once_in(100) {
                true => bad_settings(self.dice, &self.settings),
                false => self.settings,
            };
            trials.put(&settings, &mut rooms, reading, Call { caller, key: &key, op });
            if in_a_row && is_room(rooms.of(self.kind)) {
                self.last = rooms.of(self.kind)[2];
            }
        }
        self.last = last;
    }
}

/// Where a place behind the header lies: the slot it belongs to.
fn slot_of(room: &[u64], at: usize) -> usize {
    let (slots, size) = (room[0] as usize, FIXED + 3 * room[1] as usize);
    match at - HEADER {
        at if at < ENTRY * slots => at / ENTRY,
        at => (at - ENTRY * slots) / size,
    }
}

/// The key that a directory entry shows.
fn key_at(room: &[u64], slot: usize) -> Vec<u8> {
    let entry = &room[HEADER + ENTRY * slot..][..ENTRY];
    let bytes = entry[2..].iter().flat_map(|word| word.to_le_bytes());
    bytes.take(entry[1].min(32) as usize).collect()
}

/// What a word is changed to: 0 and 1, its neighbours, ends of ranges, doubles, and the room's own lengths and reading; one of holders' bits
/// to other bits.
fn values(room: &[u64], at: usize) -> Vec<u64> {
    let (old, one) = (room[at], 1f64.to_bits());
    if (HOLDERS..HEADER).contains(&at) {
        return holder_words(room, at, room[0] as usize);
    }
    let mut values = vec![
        0,
        1,
        old.wrapping_add(1),
        old.wrapping_sub(1),
        TOP,
        TOP + 1,
        1 << 63,
        u64::MAX,
        f64::NAN.to_bits(),
        (-0.0f64).to_bits(),
        one,
        one + 1,
        f64::INFINITY.to_bits(),
        2,
        room[1],
        room[2],
        room[2].wrapping_add(1),
    ];
    values.retain(|value| *value != old);
    values.sort_unstable();
    values.dedup();
    values
}

/// A slot that a change of this word concerns: of holders' bits one whose bit is other, if the room has it.
fn concerned(dice: &mut Dice, good: &[u64], at: usize, value: u64) -> usize {
    let any = dice.below(good[0]) as usize;
    match at {
        0..HOLDERS => any,
        HOLDERS..HEADER => {
            let others = (good[at] ^ value).rotate_right(any as u32);
            let slot = (any + others.trailing_zeros() as usize) % 64;
            if slot < good[0] as usize { slot } else { any }
        }
        _ => slot_of(good, at),
    }
}

/// One holder changed, to each other, and to neither party: of every slot that the room has, and of some that it does not have.
fn one_holder(scene: &mut Scene, trials: &mut Trials, good: &[u64]) {
    let slots = good[0] as usize;
    let past = (0..2).map(|_| slots + scene.dice.below(64) as usize).chain([slots]);
    let past: Vec<usize> = past.filter(|at| *at < 64).collect();
    for at in (0..slots).chain(past) {
        for other in (0..4).filter(|other| *other != holder(good, at)) {
            let mut room = good.to_vec();
            set_holder(&mut room, at, other);
            let slot = if at < slots { at } else { scene.dice.below(good[0]) as usize };
            scene.try_all(trials, &room, &key_at(good, slot), slot);
        }
    }
}

/// One word changed, in each place, to each value.
fn one_word(scene: &mut Scene, trials: &mut Trials, good: &[u64]) {
    let mut room = good.to_vec();
    for at in 0..good.len() {
        for value in values(good, at) {
            room[at] = value;
            let slot = concerned(scene.dice, good, at, value);
            // A changed key is asked for as it was and as it shows now.
            let shown = if scene.dice.once_in(2) && at >= HEADER { &room } else { good };
            let own = key_at(shown, slot);
            scene.try_all(trials, &room, &own, slot);
        }
        room[at] = good[at];
    }
}

/// Two words changed, or a holder and a word, mostly in one slot.
fn two_words(scene: &mut Scene, trials: &mut Trials, good: &[u64], times: u64) {
    for _ in 0..times {
        let mut room = good.to_vec();
        let slot = scene.dice.below(good[0]) as usize;
        let mine: Vec<usize> =
            (HEADER..good.len()).filter(|at| slot_of(good, *at) == slot).collect();
        for _ in 0..2 {
            let at = match scene.dice.below(10) {
                0 => {
                    set_holder(&mut room, slot, scene.dice.below(4));
                    continue;
                }
                1 => HOLDERS + scene.dice.below(2) as usize,
                2 | 3 => scene.dice.below(good.len() as u64) as usize,
                _ => scene.dice.pick(&mine),
            };
            room[at] = scene.dice.pick(&values(good, at));
        }
        scene.try_all(trials, &room, &key_at(good, slot), slot);
    }
}

/// Other lengths under the same words, and other headers over the same length.
fn lengths(scene: &mut Scene, trials: &mut Trials, good: &[u64]) {
    let own = key_at(good, 0);
    let (slots, ring, all) = (good[0], good[1], good.len());
    for length in [0, 1, 2, 3, HEADER - 1, HEADER, HEADER + 1, 9, 12, all - 3, all - 2, all - 1] {
        scene.try_all(trials, &good[..length.min(all)], &own, 0);
    }
    for more in [1, 2, 3, 62] {
        let longer: Vec<u64> = good.iter().copied().chain((0..more).map(|_| 0)).collect();
        scene.try_all(trials, &longer, &own, 0);
    }
    // Sums past 2^64 come to the same length at slots 2 or 4, and at a ring of 1.
    let more_slots = [0, slots - 1, slots + 1, 64, 65, slots + (1 << 60), u64::MAX];
    let more_rings =
        [0, ring - 1, ring + 1, 512, 513, ring + (1 << 62), ring + (1 << 63), u64::MAX];
    let headers = more_slots.map(|n| (n, ring)).into_iter().chain(more_rings.map(|r| (slots, r)));
    let same_length = (1..=64).filter_map(|n| {
        let size = (all - HEADER) as u64;
        let cells = (size / n).checked_sub((ENTRY + FIXED) as u64)?;
        (size.is_multiple_of(n) && cells.is_multiple_of(3)).then_some((n, cells / 3))
    });
    let mut room = good.to_vec();
    for (n, r) in headers.chain(same_length).filter(|header| *header != (slots, ring)) {
        room[..2].copy_from_slice(&[n, r]);
        scene.try_all(trials, &room, &own, 0);
    }
}

/// Words of which nothing is known, or a header that fits them.
fn wild(dice: &mut Dice) -> Vec<u64> {
    let length = dice.below(160);
    let mut room: Vec<u64> = (0..length).map(|_| dice.any()).collect();
    if dice.once_in(2) {
        let (slots, ring) = (dice.below(4) + 1, dice.below(5) + 1);
        room = (0..words_of(slots as usize, ring as usize))
            .map(|_| if dice.once_in(3) { dice.any() } else { dice.below(4) })
            .collect();
        room[..2].copy_from_slice(&[slots, ring]);
        for at in 0..slots as usize {
            room[HEADER + ENTRY * at] = dice.below(5);
            set_holder(&mut room, at, any_holder(dice));
        }
    }
    room
}

/// Mostly a party, or nobody.
fn any_holder(dice: &mut Dice) -> u64 {
    if dice.once_in(12) { dice.below(4) } else { dice.pick(&[0, 1, 1, 2, 2]) }
}

/// Each word drawn for its place, so that a slot is sound now and then.
fn likely(dice: &mut Dice, settings: &Settings, keys: &[Key]) -> Vec<u64> {
    let (slots, ring) = (dice.below(3) as usize + 1, dice.below(3) as usize + 1);
    let mut room = vec![0; words_of(slots, ring)];
    let last = dice.pick(&[0, 1, 5, 5000, u64::MAX]);
    room[..HOLDERS].copy_from_slice(&[slots as u64, ring as u64, last]);
    if dice.once_in(2) {
        room[HOLDERS..HEADER].fill_with(|| dice.any());
    }
    for slot in 0..slots {
        set_holder(&mut room, slot, any_holder(dice));
        let entry = HEADER + ENTRY * slot;
        let key = &keys[dice.below(3) as usize].bytes;
        room[entry] = dice.pick(&[0, 1, 1, 1, 2, 3, 3, 4]);
        room[entry + 1] = key.len() as u64;
        room[entry + 2] = key.first().map_or(0, |byte| u64::from(*byte));
        if dice.once_in(12) {
            room[entry + 1 + dice.below(5) as usize] = dice.pick(&[0, 1, 2, 33, 1 << 40, 1 << 63]);
        }
        let start = HEADER + ENTRY * slots + slot * (FIXED + 3 * ring);
        likely_body(dice, settings, &mut room[start..][..FIXED + 3 * ring], last);
    }
    room
}

fn likely_body(dice: &mut Dice, settings: &Settings, body: &mut [u64], last: u64) {
    let ring = ((body.len() - FIXED) / 3) as u64;
    let usual = rate(dice, settings);
    let limit = dice.pick(&[usual, usual, 1.0, 2.5, 0.0, -1.0, f64::NAN, 5e-324, f64::INFINITY]);
    let factor = dice.pick(&[0.0, 1.0, 0.5, 1.0 + f64::EPSILON, -0.0, f64::NAN]);
    let few = |dice: &mut Dice| dice.pick(&[0, 0, 0, 1, 1, 2]);
    let time = |dice: &mut Dice| match dice.below(8) {
        0 => last.wrapping_add(1),
        1 => last.saturating_sub(1),
        _ => last,
    };
    let head = dice.below(ring + 1);
    let buckets = dice.below(ring + 2).min(dice.below(ring + 2));
    let (total, declined) = (few(dice), few(dice));
    let factor_time = time(dice);
    body[..FIXED].copy_from_slice(&[
        limit.to_bits(),
        total,
        declined,
        head,
        buckets,
        factor.to_bits(),
        factor_time,
    ]);
    let ring = ring as usize;
    for cell in FIXED..FIXED + ring {
        body[cell] = few(dice);
        body[cell + ring] = few(dice) / 2;
        body[cell + 2 * ring] = time(dice);
    }
    if dice.once_in(20) {
        // Sums past 2^64 and totals at the top.
        let top = dice.pick(&[TOP, TOP + 1, 1 << 63, u64::MAX]);
        let at = dice.pick(&[1, 2, FIXED, FIXED + ring]);
        body[at] = top;
    }
}

/// Rooms at the ends of the lengths' ranges.
fn ends(scene: &mut Scene, trials: &mut Trials) {
    for (slots, ring) in [(64, 512), (65, 512), (64, 513), (1, 512), (64, 1), (65, 1), (1, 513)] {
        let mut room = vec![0; words_of(slots, ring)];
        room[..2].copy_from_slice(&[slots as u64, ring as u64]);
        scene.try_all(trials, &room, b"a", 0);
        // Every slot in use, of one party or of both, or all but the last one; and the last one of neither.
        let (all, last, even) = (u64::MAX, 1 << 63, u64::MAX / 3);
        let bits = [(all, 0), (0, all), (!last, last), (last, !last), (even, !even), (all, last)];
        for (first, second) in bits.into_iter().chain([(!last, 0), (0, !last), (all, all)]) {
            room[HOLDERS..HEADER].copy_from_slice(&[first, second]);
            scene.try_all(trials, &room, b"a", 0);
        }
    }
}

/// A word of holders' bits, or one of the slot: of its entry, of its body before the cells, or of these.
fn word_of_slot(dice: &mut Dice, room: &[u64], slot: usize) -> usize {
    let (slots, cells) = (room[0] as usize, 3 * room[1] as usize);
    let body = HEADER + ENTRY * slots + slot * (FIXED + cells);
    match dice.below(3) {
        0 if dice.once_in(4) => HOLDERS + dice.below(2) as usize,
        0 => HEADER + ENTRY * slot + dice.below(ENTRY as u64) as usize,
        1 => body + dice.below(FIXED as u64) as usize,
        _ => body + FIXED + dice.below(cells as u64) as usize,
    }
}

/// How many long rings go with each room that a history leaves: with falling times, and others.
const FALLING: u64 = 56;
const OTHER: u64 = 22;

/// Long rings with falling times and with other damage; of the sound ones, some with one word changed.
fn long_rings(scene: &mut Scene, trials: &mut Trials, falls: &mut Falls) {
    let (kind, settings) = (scene.kind, scene.settings);
    for number in 0..FALLING + OTHER {
        let dice = &mut *scene.dice;
        let mut room = match number {
            0..FALLING => falls.room(dice, kind, &settings),
            _ => long::any(dice, kind, &settings),
        };
        if room.damage == "sound" && dice.once_in(2) {
            let at = word_of_slot(dice, &room.words, room.slot);
            room.words[at] = dice.pick(&values(&room.words, at));
            room.damage = "one word";
        }
        trials.count_long(room.damage, is_sound(kind, &settings, &room.words, room.slot));
        scene.last = room.words[2];
        scene.try_all(trials, &room.words, long::KEY, room.slot);
    }
}

/// All damage to one history's rooms, then as many random rooms.
fn around(
    trials: &mut Trials,
    dice: &mut Dice,
    settings: Settings,
    rooms: &Rooms,
    keys: &[Key],
    falls: &mut Falls,
) {
    for kind in [Kind::Absolute, Kind::Suppressed] {
        let other = if kind == Kind::Absolute { Kind::Suppressed } else { Kind::Absolute };
        let (good, beside) = (rooms.of(kind), rooms.of(other).to_vec());
        let last = good[2];
        let mut scene = Scene { dice, settings, kind, beside, last, keys };
        one_holder(&mut scene, trials, good);
        one_word(&mut scene, trials, good);
        two_words(&mut scene, trials, good, 200);
        lengths(&mut scene, trials, good);
        long_rings(&mut scene, trials, falls);
        for _ in 0..200 {
            let room = match scene.dice.once_in(4) {
                true => wild(scene.dice),
                false => likely(scene.dice, &settings, keys),
            };
            scene.last = room.get(2).copied().unwrap_or_default();
            let own = scene.dice.pick(&[&keys[0], &keys[1], &keys[2]]).bytes.clone();
            scene.try_all(trials, &room, &own, 0);
        }
    }
}

/// So many damaged rooms in a clock mode, and every set of refusals together; one line.
pub fn run(clock: ClockMode, rooms: u64, seed: u64) -> Trials {
    let mut trials = Trials::new(others());
    let mut dice = Dice::new(seed);
    let keys = key_pool(1);
    let mut histories = Comparison::new(clock, Others::new());
    let mut shared =
        Comparison { shared: Some(Shared::default()), ..Comparison::new(clock, Others::new()) };
    let settings = Settings { window: SHORT_WINDOW, clock, ..Settings::default() };
    for kind in [Kind::Absolute, Kind::Suppressed] {
        let beside = twin::room::empty_room(2, 2);
        let dice = &mut dice;
        ends(&mut Scene { dice, settings, kind, beside, last: 0, keys: &keys }, &mut trials);
    }
    let mut falls = Falls::new(&mut dice);
    while trials.damaged < rooms && trials.differed < 100 {
        // Of one party, or of two.
        let from = if dice.once_in(2) { &mut shared } else { &mut histories };
        if let Some((settings, rooms)) = rooms_left(from, dice.any()) {
            around(&mut trials, &mut dice, settings, &rooms, &keys, &mut falls);
        }
    }
    together::run(&mut trials, &mut dice, clock);
    #[cfg(archive)]
    trials.count_faces(crate::faces::run());
    trials.differed += histories.differed + shared.differed;
    trials
}
