//! How long a ring must be (ticket 4): the number itself; that no call meets 12 in rings of that length, over random histories from empty
//! rooms; and that zero counts meet it in rings one shorter.

use std::fmt;

use twin::calls::{Answer, Call, Limiters, Op, Rooms, Twin};
use twin::room::{Bucket, empty_room, slot};
use twin::rules::{ClockMode, Kind, Refusal, Settings};
use twin::units::{MILLISECONDS_TOP, WINDOW_TOP};

use crate::callers::{Callers, Promise};
use crate::compare::{clock_word, first_other_word, who};
use crate::expected::{At, settings_fault, ticks, used};
use crate::others;
use crate::random::{
    Dice, KEY_POOL, LONG_KEY, Source, bad_settings, first_reading, rate, settings, slow_rate,
};
use crate::state::of_key;
use crate::trial::Trials;

/// How many differences are printed.
const SHOWN: u64 = 3;

/// So many calls of random histories at least, for full rings to come.
const LEAST: u64 = 10_000;

/// How many cells a ring may have.
const MOST_CELLS: u64 = 512;

/// Where there are so few, the buckets that a window has room for are counted one by one.
const FEW: u64 = 4000;

const KINDS: [Kind; 2] = [Kind::Absolute, Kind::Suppressed];
const FULL: Answer = Answer::Refused(12);

/// Buckets stand so many ticks apart, or more.
fn gap(settings: &Settings) -> u64 {
    ticks(settings.clock) * (settings.bucket + 1)
}

/// How many buckets suffice, by a second reading: the multiples of b + 1, 0 among them, that lie within the window. They are found by halving,
/// without a division, and where they are few also counted.
fn sufficient(window: u64, bucket: u64) -> u64 {
    let (ms, gap) = (1000 * u128::from(window), u128::from(bucket) + 1);
    let (mut within, mut past) = (0, ms + 1);
    while past - within > 1 {
        let middle = (within + past) / 2;
        match middle * gap <= ms {
            true => within = middle,
            false => past = middle,
        }
    }
    let many = within as u64 + 1;
    if many <= FEW {
        let all = std::iter::successors(Some(0), |multiple| Some(multiple + gap));
        assert_eq!(many as usize, all.take_while(|multiple| *multiple <= ms).count());
    }
    many
}

/// A window and a bucket for which so many buckets suffice: b is as small as it may be, as great, or between.
fn spans(dice: &mut Dice, ring: u64) -> (u64, u64) {
    loop {
        let (small, any) = (1 + dice.below(100), 1 + dice.below(WINDOW_TOP));
        let window =
            dice.pick(&[1, 1, 2, 3, 7, 10, 10, 30, 60, 3600, small, small, any, WINDOW_TOP]);
        let ms = 1000 * window;
        let least = ms / ring;
        let most = if ring == 1 { 2 * ms } else { ms / (ring - 1) - 1 };
        let most = most.min(MILLISECONDS_TOP);
        if least <= most {
            let between = least + dice.below(most - least + 1);
            let bucket = dice.pick(&[least, most, most, between]);
            assert_eq!(sufficient(window, bucket), ring);
            return (window, bucket);
        }
    }
}

/// A random history from empty rooms whose rings suffice, or are longer.
struct Filling {
    settings: Settings,
    rooms: Rooms,
    source: Source,
    /// How many keys are in play.
    keys: u64,
    /// Calls go to both rooms.
    both: bool,
    /// One call in so many is any, at any reading that does not fall; the others are increments, mostly where a bucket is added.
    rarely: u64,
    /// The promises do not change.
    is_fixed: bool,
    calls: u64,
}

impl Filling {
    fn new(clock: ClockMode, seed: u64) -> Self {
        let mut dice = Dice::new(seed);
        let (short, any) = (1 + dice.below(12), 1 + dice.below(MOST_CELLS));
        let long = dice.pick(&[13, 24, 100, 298, MOST_CELLS, any]);
        let is_long = dice.once_in(30);
        let ring = if is_long { long } else { short };
        let is_steady = dice.once_in(3);
        let (window, bucket) = spans(&mut dice, ring);
        let mut settings = Settings { window, bucket, ..settings(&mut dice, clock, is_steady) };
        let rates = match dice.below(4) {
            0 => vec![slow_rate(&mut dice, &mut settings)],
            1 => (0..=dice.below(3)).map(|_| rate(&mut dice, &settings)).collect(),
            _ => vec![1e6 / window as f64],
        };
        let now = first_reading(&mut dice, &settings);
        let spare = if dice.once_in(10) { 1 + dice.below(2) } else { 0 };
        // A long ring is filled by one key of one room, and by few calls besides.
        let keys = if is_long { 1 } else { dice.pick(&[1, 1, 2, 3]) };
        let (rarely, calls) = match is_long {
            true => (dice.pick(&[ring, 4 * ring, 16 * ring]), 60 + 3 * ring),
            false => (dice.pick(&[2, 3, 4, 8, 4 * ring]), dice.pick(&[20, 60, 120])),
        };
        let slots = dice.pick(&[keys, 2 * keys, 2 * keys + 1]) as usize;
        let rooms = Rooms::empty(slots, (ring + spare).min(MOST_CELLS) as usize);
        let callers = match dice.below(4) {
            party @ (1 | 2) => Callers::alone(party, &rooms),
            _ => Callers::two(&mut dice, &rooms),
        };
        let in_rooms = dice.below(if is_long { 2 } else { 3 });
        let (is_fixed, both, is_suppressed) = (dice.once_in(2), in_rooms == 2, in_rooms == 1);
        let times = vec![now];
        let source = Source { dice, rates, times, now, is_suppressed, callers, is_steady };
        Filling { settings, rooms, source, keys, both, rarely, is_fixed, calls }
    }

    fn cells(&self) -> u64 {
        self.rooms.absolute[1]
    }

    /// Mostly b + 1 ms after the newest bucket, where one is added; or a nanosecond later, a tick or a millisecond before, or no later than
    /// the call before.
    fn filling_reading(&mut self, newest: Option<&Bucket>) -> u64 {
        let (gap, ms) = (gap(&self.settings), ticks(self.settings.clock));
        let Source { dice, now, .. } = &mut self.source;
        let from = newest.map_or(*now, |newest| newest.time);
        // A millisecond later there might be no full ring.
        let later = if ms > 1 { gap + 1 } else { gap };
        let rise = dice.pick(&[gap, gap, gap, later, gap - 1, gap - ms]);
        if !dice.once_in(4) {
            *now = from.saturating_add(rise).max(*now);
        }
        *now
    }

    fn increment(&mut self, kind: Kind) -> Op {
        let Source { dice, rates, .. } = &mut self.source;
        let (rate, count) = (dice.pick(rates), dice.pick(&[0, 0, 0, 1, 1, 2, 7]));
        match kind {
            Kind::Absolute => Op::AbsoluteInc { rate, count },
            Kind::Suppressed => {
                let draw = dice.pick(&[0, 1 << 52, (1 << 53) - 1]);
                Op::SuppressedInc { rate, count, draw }
            }
        }
    }

    /// The settings of the next call, now and then out of their ranges, its reading, and the call.
    fn next(
        &mut self,
        kind: Kind,
        party: u64,
        key: &'static [u8],
    ) -> (Settings, u64, Call<'static>) {
        let buckets = buckets(&self.rooms, kind, party, key);
        if !self.source.dice.once_in(self.rarely) {
            let reading = self.filling_reading(buckets.last());
            let op = self.increment(kind);
            return (self.settings, reading, self.call(party, key, op));
        }
        // Ages of the key's own buckets are beside the boundaries.
        if !buckets.is_empty() {
            self.source.times = buckets.iter().map(|bucket| bucket.time).collect();
        }
        let before = self.source.now;
        let reading = self.source.reading(&self.settings).max(before);
        let op = match self.source.dice.once_in(100) {
            true => self.source.nameless_set(),
            false => self.source.op(&self.settings, &self.rooms, party, key),
        };
        let key = if self.source.dice.once_in(150) { &LONG_KEY } else { key };
        let given = match self.source.dice.once_in(150) {
            true => bad_settings(&mut self.source.dice, &self.settings),
            false => self.settings,
        };
        (given, reading, self.call(party, key, op))
    }

    fn call(&mut self, party: u64, key: &'static [u8], op: Op) -> Call<'static> {
        match self.is_fixed {
            true => {
                let (caller, op) = self.source.callers.usual(party, op);
                Call { caller, key, op }
            }
            false => self.source.call_of(&self.rooms, party, key, op),
        }
    }

    /// The next call, put to all, and what is wrong after it.
    fn step(&mut self, rings: &mut Rings) -> Option<String> {
        if self.both {
            self.source.is_suppressed = self.source.dice.once_in(2);
        }
        let kind = if self.source.is_suppressed { Kind::Suppressed } else { Kind::Absolute };
        let party = self.source.callers.party(&mut self.source.dice);
        let key = KEY_POOL[self.source.dice.below(self.keys) as usize];
        let (settings, reading, call) = self.next(kind, party, key);
        let before = buckets(&self.rooms, kind, party, key);
        let answer = rings.trials.put(&settings, &mut self.rooms, reading, call);
        rings.count(answer);
        let after = buckets(&self.rooms, kind, party, key);
        let is_added = after.last().is_some_and(|newest| newest.time == reading)
            && before.last().is_none_or(|newest| newest.time < reading);
        if is_added && after.len() as u64 == self.cells() && self.is_tight(kind, &after, reading) {
            rings.full[kind as usize] += 1;
        }
        let fault = match answer {
            FULL => "12 in a ring that suffices",
            _ if !KINDS.iter().all(|kind| are_apart(&self.settings, self.rooms.of(*kind))) => {
                "buckets less than b + 1 ms apart"
            }
            _ => return None,
        };
        Some(format!("{fault}: t={reading} {call:?} -> {answer:?}"))
    }

    /// No bucket of a full ring could be spared: the oldest is live to the tick, or in the suppressed limiter at a first look. A ring of
    /// one cell is never in want.
    fn is_tight(&self, kind: Kind, buckets: &[Bucket], reading: u64) -> bool {
        let at = At { settings: &self.settings, reading };
        let stays = match kind {
            Kind::Absolute => at.is_live(&buckets[0]),
            Kind::Suppressed => at.looks_live(&buckets[0]),
        };
        stays && buckets.len() > 1
    }
}

/// A key's buckets, none where it has no series.
fn buckets(rooms: &Rooms, kind: Kind, party: u64, key: &[u8]) -> Vec<Bucket> {
    of_key(rooms.of(kind), party, key).0.unwrap_or_default().buckets
}

/// Why so many buckets suffice: each key's stand at least b + 1 ms apart.
fn are_apart(settings: &Settings, room: &[u64]) -> bool {
    let gap = gap(settings);
    used(room).map(|at| slot(room, at)).filter(|slot| slot.has_series()).all(|slot| {
        let time = |index: u64| slot.bucket(index).time;
        (1..slot.buckets()).all(|at| time(at).checked_sub(time(at - 1)).is_some_and(|by| by >= gap))
    })
}

/// Increments of count 0 that come b + 1 ms after one another, on one key of an empty room.
#[derive(Clone, Copy, Debug)]
struct Zeros {
    settings: Settings,
    kind: Kind,
    cells: u64,
    start: u64,
    calls: u64,
}

const KEY: &[u8] = b"a";

impl Zeros {
    fn rooms(&self) -> Rooms {
        let (own, beside) = (empty_room(1, self.cells as usize), empty_room(1, 1));
        match self.kind {
            Kind::Absolute => Rooms { absolute: own, suppressed: beside },
            Kind::Suppressed => Rooms { absolute: beside, suppressed: own },
        }
    }

    /// Every answer, and the rooms that are left.
    fn told(&self, limiters: &dyn Limiters) -> (Vec<Answer>, Rooms) {
        let (rate, count) = (1.0, 0);
        let op = match self.kind {
            Kind::Absolute => Op::AbsoluteInc { rate, count },
            Kind::Suppressed => Op::SuppressedInc { rate, count, draw: 0 },
        };
        let call = Call { caller: Promise::all(1, 1).to(1), key: KEY, op };
        let mut rooms = self.rooms();
        let answers = (0..self.calls).map(|at| {
            let reading = self.start + at * gap(&self.settings);
            limiters.call(&self.settings, &mut rooms, reading, call, &mut vec![])
        });
        (answers.collect(), rooms)
    }
}

/// The counts, and the implementations besides the twin.
pub struct Rings {
    clock: ClockMode,
    others: Vec<Box<dyn Limiters>>,
    /// The calls of the random histories.
    trials: Trials,
    /// Settings whose number is compared; of these refused, and with more buckets than a ring can have.
    compared: u64,
    refused_settings: u64,
    too_long: u64,
    /// Random histories in rings that suffice, their calls, refused ones, and those that met 12.
    histories: u64,
    calls: u64,
    refused: u64,
    met: u64,
    /// How often a bucket took the last cell of such a ring and none in it could be spared: absolute, suppressed.
    full: [u64; 2],
    /// Histories of zero counts: in rings one shorter all that met 12, and in rings that suffice.
    met_in_shorter: u64,
    stood: u64,
    zeros: u64,
    with_others: u64,
    differed: u64,
    /// So many differences end the run.
    most_differing: u64,
}

impl fmt::Display for Rings {
    fn fmt(&self, f: &mut fmt::Formatter) -> fmt::Result {
        let Rings { compared, refused_settings, too_long, histories, calls, refused, met, .. } =
            self;
        let Rings { full: [absolute, suppressed], met_in_shorter, stood, zeros, .. } = self;
        let who = who(&self.others, self.with_others + self.trials.with_others());
        write!(
            f,
            "rings: {compared} settings compared ({refused_settings} refused, {too_long} with over {MOST_CELLS} buckets); \
             {histories} histories in rings that suffice, {calls} calls ({refused} refused, 12: {met}; full {absolute} times \
             in the absolute limiter, {suppressed} in the suppressed one); {zeros} zero counts: {met_in_shorter} histories in \
             rings one shorter met 12, {stood} in rings that suffice did not; {who}; {} differed",
            self.differed()
        )
    }
}

impl Rings {
    pub fn new(clock: ClockMode, most_differing: u64) -> Self {
        Rings {
            clock,
            others: others(),
            trials: Trials::new(others()),
            compared: 0,
            refused_settings: 0,
            too_long: 0,
            histories: 0,
            calls: 0,
            refused: 0,
            met: 0,
            full: [0; 2],
            met_in_shorter: 0,
            stood: 0,
            zeros: 0,
            with_others: 0,
            differed: 0,
            most_differing,
        }
    }

    pub fn differed(&self) -> u64 {
        self.differed + self.trials.differed
    }

    pub fn goes_on(&self) -> bool {
        self.differed() < self.most_differing
    }

    fn differ(&mut self, fault: String) {
        self.differed += 1;
        if self.differed <= SHOWN {
            eprintln!("differs: {fault}");
        }
    }

    fn count(&mut self, answer: Answer) {
        self.calls += 1;
        self.refused += u64::from(matches!(answer, Answer::Refused(_)));
        self.met += u64::from(answer == FULL);
    }

    /// The number of the twin and of the others against the second reading.
    fn compare(&mut self, settings: &Settings) {
        let due = match settings_fault(settings) {
            0 => Ok(sufficient(settings.window, settings.bucket)),
            number => Err(Refusal(number)),
        };
        self.compared += 1;
        self.refused_settings += u64::from(due.is_err());
        self.too_long += u64::from(due.is_ok_and(|ring| ring > MOST_CELLS));
        let mut told = vec![("the twin", Twin.sufficient_ring(settings))];
        told.extend(
            self.others.iter().map(|other| (other.name(), other.sufficient_ring(settings))),
        );
        self.with_others += self.others.len() as u64;
        for (name, told) in told.into_iter().filter(|(_, told)| *told != due) {
            self.differ(format!("{name} tells a ring of {told:?} and not {due:?}; {settings:?}"));
        }
    }

    /// The number for settings at the edges of their ranges and past them, for small ones, and for so many times four that are drawn.
    pub fn numbers(&mut self, many: u64, seed: u64) {
        let mut dice = Dice::new(seed);
        for settings in edges(self.clock) {
            self.compare(&settings);
        }
        let plain = Settings { clock: self.clock, ..Settings::default() };
        for (window, bucket) in small().chain((0..many).flat_map(|_| beside(&mut dice))) {
            self.compare(&Settings { window, bucket, ..plain });
        }
    }

    /// Zero counts in a ring of so many cells: every answer of all, and that the ring is full at the end.
    fn put_zeros(&mut self, zeros: Zeros, is_short: bool) {
        let due = |at: u64| if is_short && at >= zeros.cells { FULL } else { Answer::Allowed };
        let due: Vec<Answer> = (0..zeros.calls).map(due).collect();
        let (answers, rooms) = zeros.told(&Twin);
        let held = buckets(&rooms, zeros.kind, 1, KEY).len() as u64;
        let mut fault = match answers == due {
            false => Some(format!("the twin answers {}", first_other(&answers, &due))),
            true if held != zeros.cells => Some(format!("the ring holds {held} buckets")),
            true => None,
        };
        for other in &self.others {
            self.with_others += zeros.calls;
            let (told, words) = zeros.told(&**other);
            let name = other.name();
            fault = fault.or_else(|| match told == due {
                false => Some(format!("{name} answers {}", first_other(&told, &due))),
                true if words != rooms => {
                    Some(format!("{name}: {}", first_other_word(&rooms, &words)))
                }
                true => None,
            });
        }
        self.zeros += zeros.calls;
        match fault {
            Some(fault) => self.differ(format!("{fault}; {zeros:?}")),
            None if is_short => self.met_in_shorter += 1,
            None => self.stood += 1,
        }
    }

    /// Zero counts fill a ring that is one too short, and the next meets 12; in one that suffices they go on for twice as long.
    fn shorter(&mut self, settings: Settings, start: u64) {
        let enough = sufficient(settings.window, settings.bucket);
        for kind in KINDS {
            let cells = enough - 1;
            if (1..=MOST_CELLS).contains(&cells) {
                self.put_zeros(Zeros { settings, kind, cells, start, calls: enough }, true);
            }
            if enough <= MOST_CELLS {
                let calls = 2 * enough;
                self.put_zeros(Zeros { settings, kind, cells: enough, start, calls }, false);
            }
        }
    }

    /// Every bucket size of the three shortest windows, and so many settings of any window.
    fn all_shorter(&mut self, many: u64, seed: u64) {
        let mut dice = Dice::new(seed);
        let plain = Settings { clock: self.clock, ..Settings::default() };
        for (window, bucket) in small() {
            if self.goes_on() {
                self.shorter(Settings { window, bucket, ..plain }, 0);
            }
        }
        for _ in 0..many {
            if !self.goes_on() {
                return;
            }
            let (short, any) = (2 + dice.below(40), 2 + dice.below(MOST_CELLS));
            let ring = dice.pick(&[short, short, short, any]);
            let (window, bucket) = spans(&mut dice, ring);
            let drawn = settings(&mut dice, self.clock, false);
            let start = dice.pick(&[0, 1, drawn.window]) + (dice.any() >> 2) * dice.below(2);
            self.shorter(Settings { window, bucket, ..drawn }, start);
        }
    }

    /// The random history of a seed.
    pub fn history(&mut self, seed: u64) {
        let mut filling = Filling::new(self.clock, seed);
        self.histories += 1;
        let (differed, mut calls) = (self.differed(), 0);
        while calls < filling.calls && self.differed() == differed {
            if let Some(fault) = filling.step(self) {
                self.differ(format!("{fault}; {:?}, ring {}", filling.settings, filling.cells()));
            }
            calls += 1;
        }
        if self.differed() > differed && differed < SHOWN {
            eprintln!("  run it alone: judge ring {seed}{}", clock_word(self.clock));
        }
    }

    /// Random histories until so many calls are put, and zero counts; rings must have been full in both limiters, and 12 must have been met.
    pub fn run(&mut self, calls: u64, seed: u64) {
        let calls = calls.max(LEAST);
        let mut seeds = Dice::new(seed);
        while self.calls < calls && self.goes_on() {
            self.history(seeds.any());
        }
        self.all_shorter(calls / 300, seed);
        let [absolute, suppressed] = self.full;
        let needed = [
            (absolute, "no ring of the absolute limiter was full"),
            (suppressed, "no ring of the suppressed limiter was full"),
            (self.met_in_shorter, "no zero count met 12"),
            (self.stood, "no zero counts stood"),
        ];
        for (_, fault) in needed.iter().filter(|(times, _)| *times == 0) {
            if self.goes_on() {
                self.differ(fault.to_string());
            }
        }
    }
}

/// The first answer that is not the one due.
fn first_other(told: &[Answer], due: &[Answer]) -> String {
    let at = told.iter().zip(due).position(|(told, due)| told != due).unwrap_or_default();
    format!("{:?} and not {:?} to call {at}", told[at], due[at])
}

/// All settings with each value inside its range, at its edge, or outside: refusals 1 to 4 alone and together.
fn edges(clock: ClockMode) -> Vec<Settings> {
    let windows = [0, 1, 2, 10, 30, WINDOW_TOP - 1, WINDOW_TOP, WINDOW_TOP + 1, 1 << 60, u64::MAX];
    let top = MILLISECONDS_TOP;
    let buckets =
        [0, 1, 2, 99, 100, 101, 999, 1000, 1001, top - 1, top, top + 1, 1 << 60, u64::MAX];
    let caches = [0, 1, 100, top, top + 1, u64::MAX];
    let below_one = 1.0 - f64::EPSILON / 2.0;
    let factors = [
        1.0,
        1.0 + f64::EPSILON,
        f64::MAX,
        below_one,
        0.0,
        -0.0,
        -1.0,
        f64::NAN,
        -f64::NAN,
        f64::INFINITY,
        f64::NEG_INFINITY,
    ];
    let mut all = Vec::new();
    for (window, bucket) in windows.iter().flat_map(|window| buckets.map(|b| (*window, b))) {
        for (cache, factor) in caches.iter().flat_map(|cache| factors.map(|f| (*cache, f))) {
            all.push(Settings { window, bucket, cache, factor, clock });
        }
    }
    all
}

/// The three shortest windows, each with every bucket size up to it and past it.
fn small() -> impl Iterator<Item = (u64, u64)> {
    (1..=3).flat_map(|window| (1..=1000 * window + 5).map(move |bucket| (window, bucket)))
}

/// A window, and buckets for which b + 1 goes into it exactly, or just does not; and any other one.
fn beside(dice: &mut Dice) -> [(u64, u64); 4] {
    let (small, any) = (1 + dice.below(100), 1 + dice.below(WINDOW_TOP));
    let window = dice.pick(&[1, 10, 30, WINDOW_TOP, small, any]);
    let ms = 1000 * window;
    let (few, many) = (1 + dice.below(600), 1 + dice.below(ms));
    // What goes into 1000 goes into 1000 W.
    let parts = dice.pick(&[1, 2, 4, 5, 8, 10, 20, 25, 100, 125, 200, 500, 1000, few, few, many]);
    let exact = ms / parts;
    let other = dice.any() >> (31 + dice.below(33));
    [exact.saturating_sub(2), exact.saturating_sub(1), exact, other]
        .map(|bucket| (window, bucket.clamp(1, MILLISECONDS_TOP)))
}
