//! Seasons: histories of shots, with calls on the room between them, new seasons and other rooms. A log of the answers says what was
//! admitted, whatever the table has.

use std::collections::HashSet;

use twin::calls::{Answer, Asked, Op, Rooms};
use twin::gateway::{Shot, TOP_NUMBER, empty_table};
use twin::room::{empty_room, is_room};
use twin::rules::{ClockMode, Comparator, Kind, Mode, Settings, TOP};
use twin::set::Wanted;

use crate::callers::Callers;
use crate::compare::clock_word;
use crate::expected::{ENTRY, HEADER, set_holder};
use crate::loaded::{damage, packed, sound_rooms};
use crate::random::{
    Dice, LONG_KEY, Source, bad_settings, first_reading, key_pool, rate, settings, slow_rate,
};
use crate::shots::{ALLOWED, DONE, HELD, Memory, NO, RATE_ZERO, RESENT, Shots, YES};
use crate::shots_expected::is_admitted;
use crate::state::Key;

const NUMBERS: u64 = TOP_NUMBER + 1;

/// How many controllers a table knows at most.
const MOST: usize = 64;

/// What the seasons of a run must come to: each answer, and each refusal that a shot can meet.
const COMES: [usize; 24] = [
    HELD, ALLOWED, YES, NO, DONE, RESENT, RATE_ZERO, 1, 2, 3, 4, 5, 6, 7, 8, 9, 10, 11, 12, 15, 16,
    19, 20, 21,
];

/// So many calls at least, for all of that to come.
const LEAST: u64 = 40_000;

/// What the answers of a season told.
#[derive(Clone, Default)]
pub struct Log {
    admitted: HashSet<(Vec<u8>, u64)>,
    turned_away: HashSet<(Vec<u8>, u64)>,
}

impl Log {
    /// What is wrong with this answer after those before; and whether it admits what was turned away before.
    fn takes(&mut self, shot: Shot, answer: Answer) -> (Option<&'static str>, bool) {
        let pair = (shot.controller.to_vec(), shot.number);
        match answer {
            Answer::Held if !self.admitted.contains(&pair) => {
                (Some("held, and never admitted"), false)
            }
            Answer::Suppressed { admitted: false, .. } => {
                self.turned_away.insert(pair);
                (None, false)
            }
            answer if is_admitted(answer) => {
                let is_resent = self.turned_away.remove(&pair);
                let is_new = self.admitted.insert(pair);
                ((!is_new).then_some("admitted twice"), is_resent)
            }
            _ => (None, false),
        }
    }

    /// Notes an answer, and what is wrong with it.
    pub fn judge(&mut self, shots: &mut Shots, shot: Shot, answer: Answer) {
        let (fault, is_resent) = self.takes(shot, answer);
        if is_resent {
            shots.count(RESENT);
        }
        if let Some(fault) = fault {
            shots.differ(format!("{fault}: {shot:?} -> {answer:?}"));
        }
    }
}

/// A season under way.
pub struct Season {
    pub settings: Settings,
    pub memory: Memory,
    /// Their names; a key's party tells nothing.
    pub controllers: Vec<Key>,
    source: Source,
    log: Log,
    /// The last shot that was given, to send it again.
    last: (usize, u64),
}

/// An empty suppressed room; the absolute one beside it is small.
pub fn rooms(slots: usize, ring: usize) -> Rooms {
    Rooms { absolute: empty_room(1, 1), suppressed: empty_room(slots, ring) }
}

pub fn extreme_number(dice: &mut Dice) -> u64 {
    dice.pick(&[0, 1, 2, NUMBERS - 2, NUMBERS - 1, NUMBERS, NUMBERS + 1, 1 << 63, u64::MAX])
}

/// Names for more controllers than a table knows.
fn crowd(dice: &mut Dice) -> Vec<Key> {
    let many = MOST as u64 + 1 + dice.below(5);
    (0..many).map(|at| Key::new(1, format!("ctl{at}").as_bytes())).collect()
}

/// A sound table with some of these controllers, and anything in the entries that are free.
fn loaded(dice: &mut Dice, controllers: &[Key]) -> Vec<u64> {
    let mut table: Vec<u64> = (0..empty_table().len())
        .map(|_| if dice.once_in(2) { dice.any() } else { dice.below(4) })
        .collect();
    let many = controllers.len() as u64;
    let any = dice.below(many + 1);
    let known = dice.pick(&[any, many, many - 1]).min(MOST as u64) as usize;
    table[..3].copy_from_slice(&[known as u64, 0, 0]);
    // Nobody holds an entry that is in use.
    for at in 0..known {
        set_holder(&mut table, at, 0);
    }
    let mut unused: Vec<&Key> = controllers.iter().collect();
    for (at, entry) in table[HEADER..].chunks_mut(ENTRY).enumerate() {
        // A free entry may show a controller that another one has.
        let place = dice.below(unused.len() as u64) as usize;
        let controller = if at < known { unused.remove(place) } else { &controllers[0] };
        let any = 1 + dice.below(TOP_NUMBER);
        if at < known || dice.once_in(8) {
            entry[0] = dice.pick(&[1, 2, 7, any, any, TOP_NUMBER - 1, TOP_NUMBER]);
            entry[1..].copy_from_slice(&packed(&controller.bytes));
        }
        if unused.is_empty() {
            unused = controllers.iter().collect();
        }
    }
    table
}

/// The last number that a sound table has of a controller, 0 for none.
fn last_number(table: &[u64], controller: &[u8]) -> u64 {
    let own = |entry: &&[u64]| controller.len() <= 32 && entry[1..] == packed(controller);
    let mut known = table[HEADER..].chunks(ENTRY).take(table[0] as usize);
    known.find(own).map_or(0, |entry| entry[0])
}

impl Season {
    fn new(clock: ClockMode, seed: u64) -> Self {
        let mut dice = Dice::new(seed);
        let is_crowd = dice.once_in(10);
        let is_steady = dice.once_in(2);
        let mut settings = settings(&mut dice, clock, is_steady);
        // Shots count 1: limits that a few of them reach, also with a soft limit of 0.
        let small = match dice.once_in(4) {
            true => slow_rate(&mut dice, &mut settings),
            false => dice.pick(&[0.5, 1.0, 2.0, 2.0, 3.0, 5.0]) / settings.window as f64,
        };
        let any = rate(&mut dice, &settings);
        let now = first_reading(&mut dice, &settings);
        let mut controllers = if is_crowd { crowd(&mut dice) } else { key_pool(1) };
        let slots = if is_crowd { dice.pick(&[64, 64, 40]) } else { dice.pick(&[1, 2, 3, 4, 5]) };
        let ring = dice.pick(&[1, 2, 3, 3, 4, 9]);
        if !is_crowd {
            controllers.truncate(1 + dice.below(5) as usize);
        }
        let mut table = empty_table();
        let mut log = Log::default();
        if dice.once_in(4) {
            table = loaded(&mut dice, &controllers);
            for entry in table[HEADER..].chunks(ENTRY).take(table[0] as usize) {
                let bytes = entry[2..].iter().flat_map(|word| word.to_le_bytes());
                log.admitted.insert((bytes.take(entry[1] as usize).collect(), entry[0]));
            }
        }
        let memory = Memory { table, rooms: rooms(slots, ring) };
        let rates = if is_steady { vec![small] } else { vec![small, any] };
        let callers = match dice.below(4) {
            party @ (1 | 2) => Callers::alone(party, &memory.rooms),
            _ => Callers::two(&mut dice, &memory.rooms),
        };
        let (times, is_suppressed) = (vec![now], true);
        let source = Source { dice, rates, times, now, is_suppressed, callers, is_steady };
        Season { settings, memory, controllers, source, log, last: (0, 1) }
    }

    /// Who calls.
    pub fn callers(&self) -> Callers {
        self.source.callers
    }

    /// The next number of a controller: higher, the same, lower, any, or one of those at the ends.
    fn number(&mut self, controller: usize) -> u64 {
        let dice = &mut self.source.dice;
        let last = last_number(&self.memory.table, &self.controllers[controller].bytes);
        match dice.below(24) {
            0 if dice.once_in(4) => extreme_number(dice),
            1 | 2 => 1 + dice.below(4),
            3 | 4 => last + 2 + dice.below(3),
            5..=7 if last > 0 => last,
            8 | 9 if last > 0 => last - 1,
            10 => last.saturating_sub(dice.below(5)),
            _ => last + 1,
        }
    }

    /// The controller and number of the next shot; now and then the same once more.
    fn pair(&mut self, turn: usize) -> (usize, u64) {
        if self.source.dice.once_in(4) {
            return self.last;
        }
        let many = self.controllers.len();
        let controller = match turn < many {
            true => turn,
            false => self.source.dice.below(many as u64) as usize,
        };
        (controller, self.number(controller))
    }

    /// One shot, with all that it is judged by. A refused or held one leaves every word, one that is turned away the table's.
    fn shoot(&mut self, shots: &mut Shots, turn: usize) {
        let pair = self.pair(turn);
        self.last = pair;
        let name = self.controllers[pair.0].bytes.clone();
        let is_long = self.source.dice.once_in(150);
        let controller: &[u8] = if is_long { &LONG_KEY } else { &name };
        let settings = match self.source.dice.once_in(150) {
            true => bad_settings(&mut self.source.dice, &self.settings),
            false => self.settings,
        };
        let reading = self.source.reading(&self.settings);
        let Source { dice, callers, .. } = &mut self.source;
        let party = callers.party(dice);
        let caller = callers.given(dice, &self.memory.rooms, Kind::Suppressed).to(party);
        let draw = self.source.draw(&self.settings, &self.memory.rooms, party, controller);
        let shot = Shot { controller, number: pair.1, rate: self.source.rate(), draw };
        let table = self.memory.table.clone();
        let room = self.memory.rooms.suppressed.clone();
        let answer = shots.put(&settings, &mut self.memory, reading, Asked::Shot(caller, shot));
        let leaves_table = is_admitted(answer) || self.memory.table == table;
        let leaves_room = !matches!(answer, Answer::Held | Answer::Refused(_))
            || self.memory.rooms.suppressed == room;
        self.log.judge(shots, shot, answer);
        if !leaves_table || !leaves_room {
            shots.differ(format!("words change: t={reading} {shot:?} -> {answer:?}"));
        }
    }

    /// A new season, or a table made anew: what was admitted before it does not count.
    fn begin_anew(&mut self, shots: &mut Shots) {
        let asked = if self.source.dice.once_in(4) { Asked::MakeTable } else { Asked::NewSeason };
        shots.put(&self.settings, &mut self.memory, 0, asked);
        self.log = Log::default();
        shots.seasons += 1;
    }

    /// A call on the room: an increment, also of 0, for perceived rate zero, a set, also to the top, for 10, a cleanup, a clear.
    fn beside(&mut self, shots: &mut Shots) {
        let at = self.source.dice.below(self.controllers.len() as u64) as usize;
        let key: &[u8] = &self.controllers[at].bytes;
        let reading = self.source.reading(&self.settings);
        let rate = self.source.rates[0];
        let party = self.source.callers.party(&mut self.source.dice);
        let op = match self.source.dice.below(40) {
            0 => {
                let (comparator, mode) = (Comparator::Always, Mode::Replace);
                let wanted = Wanted { rate, comparator, count: TOP, mode };
                Op::Set { kind: Kind::Suppressed, wanted }
            }
            1..10 => Op::SuppressedInc { rate, count: 0, draw: 0 },
            _ => self.source.op(&self.settings, &self.memory.rooms, party, key),
        };
        let call = self.source.call_of(&self.memory.rooms, party, key, op);
        shots.beside.put(&self.settings, &mut self.memory.rooms, reading, call);
    }

    /// Another room in the old one's place, empty or loaded; or a damaged one for a shot or two.
    fn other_room(&mut self, shots: &mut Shots, turn: usize) {
        let dice = &mut self.source.dice;
        let slots = dice.pick(&[1, 2, 5]).min(self.controllers.len());
        let ring = dice.pick(&[1, 2, 3, 5]);
        match dice.below(4) {
            0 => {
                self.memory.rooms = rooms(slots, ring);
                self.source.callers.moved(dice, &self.memory.rooms);
            }
            1 => {
                let now = self.source.now;
                let keys = self.source.callers.keys(&self.controllers);
                self.memory.rooms = sound_rooms(dice, &self.settings, slots, ring, &keys, now);
                self.source.callers.moved(dice, &self.memory.rooms);
            }
            _ => {
                let good = self.memory.rooms.suppressed.clone();
                for _ in 0..=dice.below(2) {
                    let room = &mut self.memory.rooms.suppressed;
                    if is_room(room) {
                        damage(dice, room);
                    }
                }
                self.shoot(shots, turn);
                self.shoot(shots, turn);
                self.memory.rooms.suppressed = good;
            }
        }
        self.source.now = self.source.now.max(self.memory.rooms.of(Kind::Suppressed)[2]);
    }

    fn step(&mut self, shots: &mut Shots, turn: usize) {
        // A crowd needs its time to fill a table and a room.
        let rarely = if self.controllers.len() > MOST { 4 } else { 1 };
        match self.source.dice.below(100 * rarely) {
            0 => self.begin_anew(shots),
            1 | 2 => self.other_room(shots, turn),
            3..=17 => self.beside(shots),
            _ => self.shoot(shots, turn),
        }
    }
}

/// A random season, and what it leaves.
pub fn played(shots: &mut Shots, seed: u64) -> Season {
    let mut season = Season::new(shots.clock, seed);
    let length = match season.controllers.len() > MOST {
        true => 200,
        false => season.source.dice.pick(&[5, 20, 40, 80]),
    };
    shots.seasons += 1;
    let (differed, mut turn) = (shots.differed(), 0);
    while turn < length && shots.differed() == differed {
        season.step(shots, turn);
        turn += 1;
    }
    if shots.differed() > differed {
        eprintln!("  in its season: judge season {seed}{}", clock_word(shots.clock));
    }
    season
}

/// Seasons until so many calls are compared.
pub fn run(shots: &mut Shots, calls: u64, seed: u64) {
    let mut seeds = Dice::new(seed);
    let end = shots.calls + calls.max(LEAST);
    while shots.calls < end && shots.goes_on() {
        played(shots, seeds.any());
    }
    shots.end_part("seasons", &COMES);
}
