//! Random histories that crowd the boundaries, from a generator of our own.

use twin::calls::{Call, Nameless, Op, Rooms};
use twin::room::{is_room, last_reading, slot};
use twin::rules::{ClockMode, Comparator, Kind, Mode, Settings};
use twin::set::Wanted;
use twin::suppressed::get_suppression_factor;

use crate::callers::Callers;
use crate::compare::{Comparison, History, Shared};
use crate::expected::{ticks, used};
use crate::loaded::{damage, sound_rooms};
use crate::original::Series;
use crate::state::{Key, of_key};

const TOP: u64 = 1 << 53;

/// A small generator (splitmix64): the same numbers for the same seed.
pub struct Dice(u64);

impl Dice {
    pub fn new(seed: u64) -> Self {
        Dice(seed)
    }

    pub fn any(&mut self) -> u64 {
        self.0 = self.0.wrapping_add(0x9e37_79b9_7f4a_7c15);
        let mut x = self.0;
        x = (x ^ (x >> 30)).wrapping_mul(0xbf58_476d_1ce4_e5b9);
        x = (x ^ (x >> 27)).wrapping_mul(0x94d0_49bb_1331_11eb);
        x ^ (x >> 31)
    }

    pub fn below(&mut self, end: u64) -> u64 {
        self.any() % end
    }

    pub fn pick<T: Copy>(&mut self, from: &[T]) -> T {
        from[self.below(from.len() as u64) as usize]
    }

    /// True once in `n` times.
    pub fn once_in(&mut self, n: u64) -> bool {
        self.below(n) == 0
    }

    /// So many milliseconds in ticks; where a millisecond has many, mostly with a part of the next.
    pub fn ticks(&mut self, clock: ClockMode, ms: u64) -> u64 {
        let n = ticks(clock);
        if n == 1 {
            return ms;
        }
        let any = self.below(n);
        n * ms + self.pick(&[0, 0, 1, 2 * n / 5, n - 1, n - 1, any])
    }
}

pub fn settings(dice: &mut Dice, clock: ClockMode, is_steady: bool) -> Settings {
    // Where ticks are fine, a window of 1 s sets its two looks against the last second.
    let windows = match clock {
        ClockMode::Milliseconds => [1, 1, 2, 3, 7, 10, 10, 10, 30, 60, 3600, 33_554_432],
        ClockMode::Nanoseconds => [1, 1, 1, 1, 2, 3, 7, 10, 10, 60, 3600, 33_554_432],
    };
    let window = dice.pick(&windows);
    let ms = 1000 * window;
    let bucket = match dice.below(8) {
        0..=3 => dice.pick(&[1, 2, 10, 100, 100, 500, 999, 1000]).min(ms),
        4 => dice.pick(&[ms / 4, ms / 2, ms - 1]),
        5 => ms,
        6 => dice.pick(&[ms + 1, ms + 500, 2 * ms]),
        _ => dice.pick(&[1, 100, 4_294_967_295, 4_294_967_296]),
    };
    let cache = dice.pick(&[1, 1, 2, 10, 99, 100, 100, 1000, 1001, ms, ms + 1, 4_294_967_296]);
    let factor = match dice.below(4) {
        0 if !is_steady => 1.0,
        1 if !is_steady => {
            dice.pick(&[1.000_000_000_000_000_2, 1.1, 10.0, 1e3, 1e6, 1e16, 1e300, f64::MAX])
        }
        _ => dice.pick(&[1.5, 2.0, 2.0, 3.3, 4.0]),
    };
    Settings {
        window,
        bucket: bucket.clamp(1, 4_294_967_296),
        cache: cache.clamp(1, 4_294_967_296),
        factor,
        clock,
    }
}

/// Rates whose limits are small, whole, broken, tiny or huge.
pub fn rate(dice: &mut Dice, settings: &Settings) -> f64 {
    let window = settings.window as f64;
    let whole = dice.pick(&[1.0, 1.0, 2.0, 3.0, 5.0, 10.0, 10.0, 20.0, 60.0, 100.0, 1000.0]);
    match dice.below(16) {
        0..=5 => whole / window,
        6 => (whole + 0.5) / window,
        7 => whole / window / settings.factor,
        8 => dice.pick(&[0.05, 0.1, 0.5, 1.0, 1.5, 10.0]),
        9 => dice.pick(&[0.3, 0.9, 0.999_999_999]) / window,
        10 => TOP as f64 / window * dice.pick(&[0.5, 1.0, 2.0, 1024.0, 2048.0, 4096.0]),
        11 => dice.pick(&[2f64.powi(-900), 1e-200, 1e-30, 1e30, 1e300, f64::MAX]),
        12 => dice.pick(&[f64::MAX / window, f64::MAX / window / settings.factor, 2f64.powi(-900)]),
        _ => (dice.below(1000) + 1) as f64 / 10.0 / window,
    }
}

/// Settings get the factor, and the answer is the rate, of a slow key: S is 0, H mostly over it.
pub fn slow_rate(dice: &mut Dice, settings: &mut Settings) -> f64 {
    settings.factor = dice.pick(&[2.0, 4.0, 4.0, 10.0, 1e3]);
    dice.pick(&[0.3, 0.5, 0.9]) / settings.window as f64
}

pub fn bad_rate(dice: &mut Dice) -> f64 {
    let least = 2f64.powi(-900);
    dice.pick(&[
        0.0,
        -0.0,
        -1.0,
        f64::NAN,
        f64::INFINITY,
        least / 2.0,
        f64::from_bits(least.to_bits() - 1),
        5e-324,
    ])
}

/// A set's numbers of which one names nothing, or both.
pub fn nameless(dice: &mut Dice) -> Nameless {
    let odd = dice.pick(&[5, 6, 255, 1 << 32, u64::MAX]);
    let odd_side = dice.pick(&[2, 3, 255, 1 << 32, u64::MAX]);
    let (named, side) = (dice.below(5), dice.below(2));
    let (comparator, preservation) = dice.pick(&[
        (odd, None),
        (odd, Some(side)),
        (named, Some(odd_side)),
        (odd, Some(odd_side)),
    ]);
    Nameless { comparator, preservation }
}

pub fn bad_settings(dice: &mut Dice, good: &Settings) -> Settings {
    let mut bad = *good;
    for _ in 0..=dice.below(2) {
        match dice.below(4) {
            0 => bad.window = dice.pick(&[0, 33_554_433, u64::MAX]),
            1 => bad.bucket = dice.pick(&[0, 4_294_967_297, u64::MAX]),
            2 => bad.cache = dice.pick(&[0, 4_294_967_297, u64::MAX]),
            _ => {
                bad.factor =
                    dice.pick(&[0.0, 0.999_999_999_999_999_9, -1.0, f64::NAN, f64::INFINITY])
            }
        }
    }
    bad
}

pub const KEY_POOL: [&[u8]; 7] =
    [b"a", b"b", b"", b"abcdefgh", b"abcdefghi", b"a\0", b"0123456789abcdef0123456789abcdef"];
pub static LONG_KEY: [u8; 33] = [b'k'; 33];

/// What the next call is drawn from.
pub struct Source {
    pub dice: Dice,
    pub rates: Vec<f64>,
    /// Readings at which something was written.
    pub times: Vec<u64>,
    pub now: u64,
    pub is_suppressed: bool,
    pub callers: Callers,
    /// Small counts at small rises, so that a key dwells between its limits.
    pub is_steady: bool,
}

impl Source {
    pub fn rate(&mut self) -> f64 {
        if self.dice.once_in(60) {
            return bad_rate(&mut self.dice);
        }
        self.dice.pick(&self.rates)
    }

    /// Where ticks are fine, boundaries are sought from the times that the rooms hold. In milliseconds the draws stay as they are.
    fn look_at(&mut self, settings: &Settings, rooms: &Rooms) {
        if ticks(settings.clock) == 1 {
            return;
        }
        let rooms = [&rooms.absolute, &rooms.suppressed];
        let all = rooms.iter().flat_map(|room| used(room).map(|at| slot(room, at)));
        let mut times = Vec::new();
        for slot in all {
            let held = if slot.has_series() { slot.buckets() } else { 0 };
            times.extend((0..held).map(|index| slot.bucket(index).time));
            times.extend(slot.has_factor().then(|| slot.factor_time()));
        }
        if !times.is_empty() {
            self.times = times;
        }
    }

    /// Zero, a boundary's length, or a boundary's age of an earlier time.
    pub fn reading(&mut self, settings: &Settings) -> u64 {
        let dice = &mut self.dice;
        let (bucket, cache, window) = (settings.bucket, settings.cache, 1000 * settings.window);
        if dice.once_in(80) {
            return self.now.saturating_sub(dice.pick(&[1, 2, 1000]));
        }
        // Where ticks are fine there is more to seek at the edges; in milliseconds the draws stay as they are.
        let is_fine = ticks(settings.clock) > 1;
        if self.is_steady && !dice.once_in(if is_fine { 2 } else { 5 }) {
            let rise = dice.below(2 * settings.cache.min(1000) + 1);
            self.now = self.now.saturating_add(dice.ticks(settings.clock, rise));
            return self.now;
        }
        let around = |edge: u64, dice: &mut Dice| (edge + dice.below(4)).saturating_sub(1);
        let age = match dice.below(if is_fine { 18 } else { 14 }) {
            0..=2 => 0,
            3 => dice.pick(&[1, 2, 10]),
            4 | 5 => around(bucket, dice),
            6 => around(cache, dice),
            7 => around(1000, dice),
            8 | 9 => around(window, dice),
            10 => window / dice.pick(&[2, 3, 5, 10]),
            11 => dice.below(300),
            12 => dice.below(2 * window),
            13 => bucket / 2,
            _ => window,
        };
        let age = dice.ticks(settings.clock, age);
        let from = if dice.once_in(2) { self.now } else { dice.pick(&self.times) };
        let reading = from.checked_add(age).filter(|reading| *reading >= self.now);
        self.now = reading.unwrap_or(self.now);
        if self.times.len() == 6 {
            self.times.remove(0);
        }
        self.times.push(self.now);
        self.now
    }

    /// A count that brings `held` to an edge, or a small or a huge one.
    fn count(&mut self, held: u64, edges: &[u64]) -> u64 {
        let dice = &mut self.dice;
        if self.is_steady && !dice.once_in(5) {
            // The second edge is S: a few increments fill it.
            return dice.below((edges[1] / 3).clamp(3, 1000));
        }
        match dice.below(12) {
            0 => 0,
            1..=2 => 1,
            3 => dice.below(12),
            4..=8 => {
                let edge = dice.pick(edges).saturating_add(dice.below(3)).saturating_sub(1);
                let count = edge.saturating_sub(held);
                if count > TOP { dice.below(5) } else { count }
            }
            9 if dice.once_in(4) => {
                (TOP - held.min(TOP)).saturating_add(dice.below(3)).saturating_sub(1)
            }
            10 if dice.once_in(12) => dice.pick(&[TOP, TOP + 1, TOP - 1, u64::MAX, TOP / 2]),
            _ => dice.below(4),
        }
    }

    fn comparator(&mut self, live: u64) -> Comparator {
        let operand = match self.dice.below(4) {
            0 => 0,
            1 => live,
            2 => live.saturating_add(1),
            _ => live.saturating_sub(1),
        };
        match self.dice.below(8) {
            0 => Comparator::Eq(operand),
            1 => Comparator::Lt(operand),
            2 => Comparator::Gt(operand),
            3 => Comparator::Ne(operand),
            _ => Comparator::Always,
        }
    }

    /// In milliseconds: the age of an earlier time, or beside it; now and then more than the readings have room for.
    fn stale(&mut self, settings: &Settings) -> u64 {
        let n = ticks(settings.clock);
        let age = (self.now - self.dice.pick(&self.times).min(self.now)) / n;
        match self.dice.below(8) {
            0 if n == 1 => self.dice.pick(&[0, 1, 500, u64::MAX]),
            0 => self.dice.pick(&[0, 1, u64::MAX / n, u64::MAX / n + 1, u64::MAX]),
            1..=3 => age,
            4 | 5 => age.saturating_add(1),
            6 => age.saturating_sub(1),
            _ => self.dice.below(20_000),
        }
    }

    /// A draw at an end, or beside the chance that the key's factor gives now.
    pub fn draw(&mut self, settings: &Settings, rooms: &Rooms, party: u64, key: &[u8]) -> u64 {
        if self.dice.once_in(100) {
            return self.dice.pick(&[TOP, TOP + 1, u64::MAX]);
        }
        if self.dice.once_in(2) {
            let ends = [0, 1, TOP - 1, TOP / 2, TOP / 2 - 1, self.dice.below(TOP)];
            return self.dice.pick(&ends);
        }
        let mut room = rooms.suppressed.clone();
        let caller = self.callers.promise(Kind::Suppressed).to(party);
        let factor = get_suppression_factor(settings, &mut room, self.now, caller, key);
        let chance = (1.0 - factor.unwrap_or(0.5)) * TOP as f64;
        let beside = (chance as u64 + self.dice.below(3)).saturating_sub(1);
        beside.min(TOP - 1)
    }

    fn wanted(&mut self, series: &Series, edges: &[u64]) -> Wanted {
        let live = series.total;
        let count = match self.dice.below(8) {
            0 => 0,
            1 => live,
            2 => live / 2,
            3 => live.saturating_sub(1),
            4 => live.saturating_add(1),
            5 => series.buckets.iter().skip(1).map(|bucket| bucket.count).sum(),
            6 => series.buckets.iter().rev().skip(1).map(|bucket| bucket.count).sum(),
            _ => self.count(0, edges),
        };
        let mode = self.dice.pick(&[Mode::Replace, Mode::PreserveNewest, Mode::PreserveOldest]);
        Wanted { rate: self.rate(), comparator: self.comparator(live), count, mode }
    }

    /// A set whose numbers name nothing, now and then with a count or a rate at fault.
    pub fn nameless_set(&mut self) -> Op {
        let kind = if self.is_suppressed { Kind::Suppressed } else { Kind::Absolute };
        let count = self.dice.pick(&[0, 1, TOP, TOP + 1, u64::MAX]);
        let (rate, nameless) = (self.rate(), nameless(&mut self.dice));
        Op::NamelessSet { kind, rate, count, nameless }
    }

    /// The next call with this key: whose it is, and what it asks for.
    pub fn call<'a>(&mut self, settings: &Settings, rooms: &Rooms, key: &'a [u8]) -> Call<'a> {
        let party = self.callers.party(&mut self.dice);
        let op = self.op(settings, rooms, party, key);
        self.call_of(rooms, party, key, op)
    }

    /// The call of a party, with what is promised.
    pub fn call_of<'a>(&mut self, rooms: &Rooms, party: u64, key: &'a [u8], op: Op) -> Call<'a> {
        let (caller, op) = self.callers.of(&mut self.dice, rooms, party, op);
        Call { caller, key, op }
    }

    pub fn op(&mut self, settings: &Settings, rooms: &Rooms, party: u64, key: &[u8]) -> Op {
        let kind = if self.is_suppressed { Kind::Suppressed } else { Kind::Absolute };
        let series = of_key(rooms.of(kind), party, key).0.unwrap_or_default();
        let rate = self.rate();
        let limit = match series.limit {
            0 => settings.limit(kind, rate),
            bits => f64::from_bits(bits),
        };
        let (hard, soft) = (limit as u64, settings.soft(limit));
        let between = (hard - soft) / 3;
        let edges = [hard, soft, soft, soft + between, hard - between];
        let is_plain = self.is_steady && !self.dice.once_in(3);
        let roll = if is_plain { 0 } else { self.dice.below(100) };
        match roll {
            0..50 => {
                let count = self.count(series.total - series.declined, &edges);
                match kind {
                    Kind::Absolute => Op::AbsoluteInc { rate, count },
                    Kind::Suppressed => {
                        let draw = self.draw(settings, rooms, party, key);
                        Op::SuppressedInc { rate, count, draw }
                    }
                }
            }
            50..60 => match kind {
                Kind::Absolute => Op::IsAllowed,
                Kind::Suppressed => Op::GetSuppressionFactor,
            },
            60..68 => match kind {
                Kind::Absolute => Op::AbsoluteGet,
                Kind::Suppressed => Op::SuppressedGet,
            },
            68..73 => Op::SetRateLimit { kind, rate },
            73..76 => Op::Delete { kind },
            76 => Op::Clear { kind },
            77..91 => Op::Set { kind, wanted: self.wanted(&series, &edges) },
            91..95 => Op::Cleanup { kind, stale: self.stale(settings) },
            // The callers have the promises.
            95..97 => Op::CleanupBoth { stale: self.stale(settings), first: 0, second: 0 },
            _ => Op::ReadOut { kind },
        }
    }
}

/// A start near the top of the readings, at 0, or anywhere.
pub fn first_reading(dice: &mut Dice, settings: &Settings) -> u64 {
    match dice.below(10) {
        0 => u64::MAX - dice.below(4000 * settings.window * ticks(settings.clock)),
        1 => dice.any() >> 1,
        2 => 1,
        _ => 0,
    }
}

/// The rooms a history starts from: empty, or any sound words; now and then with long rings, which a quick pass judges.
fn start<'a>(
    dice: &mut Dice,
    settings: Settings,
    keys: &'a [Key],
    now: u64,
    empty: bool,
    is_shared: bool,
) -> History<'a> {
    let slots = dice.pick(if is_shared { &[2, 3, 4, 5, 7] } else { &[1, 2, 2, 3, 4] });
    let is_long = !empty && dice.once_in(80);
    let ring = match is_long {
        true => dice.pick(&[24, 25, 26, 40, 100, 298, 512]),
        false => dice.pick(&[1, 2, 3, 3, 4, 6, 9]),
    };
    if empty || (!is_long && dice.once_in(2)) {
        return History::new(settings, slots, ring, keys);
    }
    let rooms = sound_rooms(dice, &settings, slots, ring, keys, now);
    History::from_rooms(settings, rooms, keys)
}

/// How a random history goes on: with how many keys, for how many calls, and whether they go to both rooms.
pub struct Course {
    pub keys: u64,
    pub calls: u64,
    pub both: bool,
}

/// A random history before its first call.
fn begun<'a>(comparison: &Comparison, keys: &'a [Key], seed: u64) -> (History<'a>, Source, Course) {
    let mut dice = Dice::new(seed);
    let is_steady = dice.once_in(3);
    let mut settings = settings(&mut dice, comparison.clock, is_steady);
    // The sample's draws stay as they are.
    let is_slow = !is_steady && comparison.record.is_none() && dice.once_in(6);
    let rates = match () {
        _ if is_steady => {
            vec![dice.pick(&[10.0, 20.0, 60.0, 100.0, 250.5]) / settings.window as f64]
        }
        _ if is_slow => vec![slow_rate(&mut dice, &mut settings)],
        _ => (0..=dice.below(3)).map(|_| rate(&mut dice, &settings)).collect(),
    };
    let now = first_reading(&mut dice, &settings);
    let (empty, is_shared) = (comparison.record.is_some(), comparison.shared.is_some());
    let history = start(&mut dice, settings, keys, now, empty, is_shared);
    let slots = history.rooms.absolute[0];
    let callers = match is_shared {
        true => Callers::two(&mut dice, &history.rooms),
        false => Callers::alone(keys[0].party, &history.rooms),
    };
    let most_keys = if is_steady { 2 } else { (slots + 2).min(KEY_POOL.len() as u64) };
    let keys = dice.below(most_keys) + 1;
    let calls = dice.pick(&[3, 10, 20, 40, 80]);
    let rooms = dice.below(3);
    let (times, is_suppressed) = (vec![now], rooms == 1);
    let source = Source { dice, rates, times, now, is_suppressed, callers, is_steady };
    (history, source, Course { keys, calls, both: rooms == 2 })
}

/// The next call of a random history; false where the comparison ends it.
fn step(
    comparison: &mut Comparison,
    history: &mut History,
    source: &mut Source,
    course: &Course,
) -> bool {
    if course.both {
        source.is_suppressed = source.dice.once_in(2);
    }
    let settings = history.settings;
    source.look_at(&settings, &history.rooms);
    let reading = source.reading(&settings);
    let mut key: &[u8] = &history.keys[source.dice.below(course.keys) as usize].bytes;
    if source.dice.once_in(150) {
        key = &LONG_KEY;
    }
    // The sample has no refused call: its draws stay as they are.
    let call = match comparison.record.is_none() && source.dice.once_in(100) {
        true => {
            let (party, op) = (source.callers.party(&mut source.dice), source.nameless_set());
            source.call_of(&history.rooms, party, key, op)
        }
        false => source.call(&settings, &history.rooms, key),
    };
    let given = match source.dice.once_in(150) {
        true => bad_settings(&mut source.dice, &settings),
        false => settings,
    };
    let goes_on = comparison.step(history, &given, reading, call);
    let last = last_reading(&history.rooms.absolute).max(last_reading(&history.rooms.suppressed));
    source.now = source.now.max(last);
    goes_on
}

/// The calls of a random history; false where the comparison ends it.
pub fn play(
    comparison: &mut Comparison,
    history: &mut History,
    source: &mut Source,
    course: &Course,
) -> bool {
    comparison.begin(history);
    (0..course.calls).all(|_| step(comparison, history, source, course))
}

/// A random history, unless the comparison ends it.
fn played<'a>(
    comparison: &mut Comparison,
    keys: &'a [Key],
    seed: u64,
) -> Option<(History<'a>, Source)> {
    let (mut history, mut source, course) = begun(comparison, keys, seed);
    play(comparison, &mut history, &mut source, &course).then_some((history, source))
}

/// One more call, once words are damaged.
fn on_damaged(comparison: &mut Comparison, mut history: History, mut source: Source) {
    source.look_at(&history.settings, &history.rooms);
    let reading = source.reading(&history.settings);
    let keys = history.keys;
    let key: &[u8] = &source.dice.pick(&[&keys[0], &keys[1], &keys[2]]).bytes;
    let call = source.call(&history.settings, &history.rooms, key);
    for _ in 0..=source.dice.below(2) {
        damage(&mut source.dice, &mut history.rooms.absolute);
        damage(&mut source.dice, &mut history.rooms.suppressed);
        if !is_room(&history.rooms.absolute) || !is_room(&history.rooms.suppressed) {
            break;
        }
    }
    comparison.step_without_original(&mut history, reading, call);
}

/// A party's keys.
pub fn key_pool(party: u64) -> Vec<Key> {
    KEY_POOL.iter().map(|bytes| Key::new(party, bytes)).collect()
}

/// The keys of both parties, the first one's before the other's.
pub fn both_pools() -> Vec<Key> {
    [1, 2].into_iter().flat_map(key_pool).collect()
}

/// The keys in play: of both parties, or of the one that a seed's history is of. The sample's is the first.
fn keys_of(comparison: &Comparison, seed: u64) -> Vec<Key> {
    match comparison.shared {
        Some(_) => both_pools(),
        None if comparison.record.is_none() && seed.is_multiple_of(4) => key_pool(2),
        None => key_pool(1),
    }
}

/// The one history of a seed.
pub fn run_one(comparison: &mut Comparison, seed: u64) {
    comparison.seed = Some(seed);
    let keys = keys_of(comparison, seed);
    if let Some((history, source)) = played(comparison, &keys, seed) {
        on_damaged(comparison, history, source);
    }
    comparison.seed = None;
}

/// The settings of a random history and the rooms that it leaves.
pub fn rooms_left(comparison: &mut Comparison, seed: u64) -> Option<(Settings, Rooms)> {
    let keys = keys_of(comparison, seed);
    let (history, _) = played(comparison, &keys, seed)?;
    Some((history.settings, history.rooms))
}

/// Histories until so many calls are compared.
pub fn run(comparison: &mut Comparison, calls: u64, seed: u64) {
    let mut seeds = Dice::new(seed);
    let end = comparison.calls + calls;
    while comparison.calls < end && comparison.goes_on() {
        run_one(comparison, seeds.any());
    }
}

/// The same for histories of two parties that share the rooms; each call counts.
pub fn run_shared(comparison: &mut Comparison, calls: u64, seed: u64) {
    comparison.shared = Some(Shared::default());
    let mut seeds = Dice::new(seed);
    while comparison.shared.is_some_and(|shared| shared.calls < calls) && comparison.goes_on() {
        run_one(comparison, seeds.any());
    }
}
