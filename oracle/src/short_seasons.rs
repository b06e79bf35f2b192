//! Every season of three or four calls over a small alphabet: two controllers, three numbers, and what may come between.

use twin::calls::{Asked, Call, Op};
use twin::gateway::{Shot, empty_table};
use twin::parties::Caller;
use twin::rules::{ClockMode, Kind, Settings};

use crate::SHORT_WINDOW;
use crate::callers::Promise;
use crate::expected::ticks;
use crate::seasons::{Log, rooms};
use crate::shots::{ALLOWED, DONE, HELD, Memory, NO, RESENT, Shots, YES};

/// S is 1 and H 3: of one controller the second shot is admitted by its draw, and the fourth is too many.
fn settings(clock: ClockMode) -> Settings {
    Settings { window: SHORT_WINDOW, factor: 3.0, clock, ..Settings::default() }
}

const RATE: f64 = 0.1;

const TOP: u64 = 1 << 53;

/// So many calls of a run are worth the seasons of four.
const MANY: u64 = 500_000;

/// What the short seasons must come to.
const COMES: [usize; 11] = [HELD, ALLOWED, YES, NO, DONE, RESENT, 11, 12, 19, 20, 6];

#[derive(Clone, Copy)]
enum Letter {
    Shot {
        controller: &'static [u8],
        number: u64,
        draw: u64,
        rise: u64,
    },
    /// At a reading that has passed.
    Early,
    NewSeason,
    Room(Op),
}

/// The rises: none, past joining, past the window, of which the last is not past it at a first look where ticks are fine.
fn letters(clock: ClockMode) -> Vec<Letter> {
    let (kind, n) = (Kind::Suppressed, ticks(clock));
    let mut letters = vec![
        Letter::NewSeason,
        Letter::Early,
        Letter::Room(Op::Clear { kind }),
        Letter::Room(Op::Cleanup { kind, stale: 0 }),
        Letter::Room(Op::Delete { kind }),
        Letter::Shot { controller: b"a", number: 0, draw: 0, rise: 0 },
    ];
    for controller in [&b"a"[..], b"b"] {
        for number in 1..4 {
            let past_window = 1000 * SHORT_WINDOW * n + n.div_ceil(3);
            for (draw, rise) in [(0, 0), (TOP - 1, 101 * n), (0, past_window)] {
                letters.push(Letter::Shot { controller, number, draw, rise });
            }
        }
    }
    letters
}

/// What a season has come to.
#[derive(Clone)]
struct Stand {
    settings: Settings,
    memory: Memory,
    who: Who,
    log: Log,
    now: u64,
}

/// Whose the shots are: one party's, or of those that share the room the one's of even numbers and the other's of odd ones.
#[derive(Clone, Copy)]
struct Who {
    alone: Option<u64>,
    promise: Promise,
}

impl Who {
    fn caller(&self, number: u64) -> Caller {
        self.promise.to(self.alone.unwrap_or(1 + number % 2))
    }
}

impl Stand {
    fn shoot(&mut self, shots: &mut Shots, shot: Shot, reading: u64) {
        let asked = Asked::Shot(self.who.caller(shot.number), shot);
        let answer = shots.put(&self.settings, &mut self.memory, reading, asked);
        self.log.judge(shots, shot, answer);
    }

    fn step(&mut self, shots: &mut Shots, letter: Letter) {
        match letter {
            Letter::Shot { controller, number, draw, rise } => {
                self.now += rise;
                self.shoot(shots, Shot { controller, number, rate: RATE, draw }, self.now);
            }
            Letter::Early => {
                let shot = Shot { controller: b"a", number: 2, rate: RATE, draw: 0 };
                self.shoot(shots, shot, self.now.saturating_sub(1));
            }
            Letter::NewSeason => {
                shots.put(&self.settings, &mut self.memory, self.now, Asked::NewSeason);
                self.log = Log::default();
            }
            Letter::Room(op) => {
                let call = Call { caller: self.who.caller(1), key: b"a", op };
                shots.beside.put(&self.settings, &mut self.memory.rooms, self.now, call);
            }
        }
    }
}

/// All that may follow.
fn follow(shots: &mut Shots, letters: &[Letter], stand: &Stand, left: u64) {
    for letter in letters {
        if !shots.goes_on() {
            return;
        }
        let mut next = stand.clone();
        next.step(shots, *letter);
        match left {
            1 => shots.seasons += 1,
            _ => follow(shots, letters, &next, left - 1),
        }
    }
}

/// Every season, of one party in rooms of one slot and of two, and of two parties with a slot each; of four calls in a run of many.
pub fn run(shots: &mut Shots, calls: u64) {
    let length = if calls < MANY { 3 } else { 4 };
    for (slots, alone) in [(1, Some(1)), (2, Some(2)), (2, None)] {
        let shared = Promise { first: 1, second: 1 };
        let promise = alone.map_or(shared, |party| Promise::all(party, slots as u64));
        let memory = Memory { table: empty_table(), rooms: rooms(slots, 2) };
        let settings = settings(shots.clock);
        let who = Who { alone, promise };
        let begun = Stand { settings, memory, who, log: Log::default(), now: 0 };
        follow(shots, &letters(shots.clock), &begun, length);
    }
    shots.end_part("short seasons", &COMES);
}
