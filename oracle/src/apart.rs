//! Whether a party hears of the other: pairs of histories from empty rooms, with the same promises, in which one party's calls and all
//! cleanups are the same, and the other party's calls are wholly others. Each of that party's answers must be the same in both.

use std::fmt;

use twin::calls::{Answer, Call, Limiters, Op, Rooms, Row, Twin};
use twin::rules::{ClockMode, Settings};

use crate::callers::Callers;
use crate::compare::{UNTOUCHED, clock_word, who};
use crate::expected::{held, kind};
use crate::others;
use crate::random::{
    Dice, KEY_POOL, LONG_KEY, Source, bad_settings, first_reading, rate, settings, slow_rate,
};

/// How many differing pairs are printed.
const SHOWN: u64 = 3;

/// One call of a history.
#[derive(Clone, Copy)]
struct Step {
    settings: Settings,
    reading: u64,
    call: Call<'static>,
    /// It stands in both histories of a pair.
    is_common: bool,
}

/// What a common call was told, and how many slots of its room the other party held.
#[derive(PartialEq)]
struct Heard {
    answer: Answer,
    row: Row,
    beside: u64,
}

/// The two histories of a pair while they are made; the twin goes along, so that calls crowd the boundaries.
struct Pair {
    settings: Settings,
    slots: usize,
    ring: usize,
    /// The party whose answers are compared.
    own: u64,
    source: Source,
    /// How many keys are in play.
    keys: u64,
}

fn is_cleanup(op: &Op) -> bool {
    matches!(op, Op::Cleanup { .. } | Op::CleanupBoth { .. })
}

impl Pair {
    fn new(clock: ClockMode, seed: u64) -> Self {
        let mut dice = Dice::new(seed);
        let is_steady = dice.once_in(3);
        let mut settings = settings(&mut dice, clock, is_steady);
        let rates = match dice.below(6) {
            0 => vec![slow_rate(&mut dice, &mut settings)],
            _ if is_steady => vec![dice.pick(&[10.0, 20.0, 60.0]) / settings.window as f64],
            _ => (0..=dice.below(3)).map(|_| rate(&mut dice, &settings)).collect(),
        };
        let now = first_reading(&mut dice, &settings);
        let (slots, ring) = (dice.pick(&[2, 2, 3, 4, 5, 8]), dice.pick(&[1, 2, 3, 4, 6, 9]));
        let callers = Callers::two(&mut dice, &Rooms::empty(slots, ring));
        let (own, keys) = (1 + dice.below(2), 1 + dice.below(KEY_POOL.len() as u64));
        let (times, is_suppressed) = (vec![now], false);
        let source = Source { dice, rates, times, now, is_suppressed, callers, is_steady };
        Pair { settings, slots, ring, own, source, keys }
    }

    /// A call of a party, drawn by what it has in these rooms.
    fn step(&mut self, rooms: &Rooms, party: u64, reading: u64) -> Step {
        let source = &mut self.source;
        source.is_suppressed = source.dice.once_in(2);
        let key: &'static [u8] = match source.dice.once_in(150) {
            true => &LONG_KEY,
            false => KEY_POOL[source.dice.below(self.keys) as usize],
        };
        let op = source.op(&self.settings, rooms, party, key);
        let (caller, op) = source.callers.usual(party, op);
        let settings = match source.dice.once_in(150) {
            true => bad_settings(&mut source.dice, &self.settings),
            false => self.settings,
        };
        let is_common = party == self.own || is_cleanup(&op);
        Step { settings, reading, call: Call { caller, key, op }, is_common }
    }

    /// A reading that does not fall.
    fn reading(&mut self) -> u64 {
        let before = self.source.now;
        self.source.reading(&self.settings).max(before)
    }

    /// The first history, of both parties.
    fn first(&mut self) -> Vec<Step> {
        let mut rooms = Rooms::empty(self.slots, self.ring);
        let length = self.source.dice.pick(&[10, 20, 40, 80]);
        // So many of twenty calls are the other party's.
        let others = self.source.dice.pick(&[1, 10, 10, 15]);
        let mut steps = Vec::new();
        for _ in 0..length {
            let is_own = self.source.dice.below(20) >= others;
            let party = if is_own { self.own } else { 3 - self.own };
            let reading = self.reading();
            let step = self.step(&rooms, party, reading);
            steps.push(played(&mut rooms, step));
        }
        steps
    }

    /// Another history with the same common calls: of the other party's there are none, few or many before each, and none is a cleanup.
    fn second(&mut self, first: &[Step]) -> Vec<Step> {
        let mut rooms = Rooms::empty(self.slots, self.ring);
        let most = self.source.dice.pick(&[0, 2, 3, 6]);
        let (mut steps, mut now) = (Vec::new(), 0);
        for common in first.iter().filter(|step| step.is_common) {
            for _ in 0..self.source.dice.below(most + 1) {
                let between = now + self.source.dice.below((common.reading - now).max(1));
                now = self.source.dice.pick(&[now, between, common.reading]);
                let step = self.step(&rooms, 3 - self.own, now);
                if !step.is_common {
                    steps.push(played(&mut rooms, step));
                }
            }
            now = common.reading;
            steps.push(played(&mut rooms, *common));
        }
        steps
    }
}

/// The step, which the rooms now have behind them.
fn played(rooms: &mut Rooms, step: Step) -> Step {
    Twin.call(&step.settings, rooms, step.reading, step.call, &mut vec![]);
    step
}

/// The counts, and the implementations over rooms besides the twin.
pub struct Apart {
    clock: ClockMode,
    others: Vec<Box<dyn Limiters>>,
    pairs: u64,
    /// Answers compared, refusals included; of these 11, and those before which the other party held another number of slots.
    pub answers: u64,
    full: u64,
    unlike: u64,
    with_others: u64,
    pub differed: u64,
    /// So many differing pairs end the run.
    most_differing: u64,
}

impl fmt::Display for Apart {
    fn fmt(&self, f: &mut fmt::Formatter) -> fmt::Result {
        let Apart { pairs, answers, full, unlike, differed, .. } = self;
        let who = who(&self.others, self.with_others);
        write!(
            f,
            "apart: {pairs} pairs of histories, {answers} answers of the one party compared (11: {full}; before \
             {unlike} the other party held another number of slots); {who}; {differed} differed"
        )
    }
}

impl Apart {
    pub fn new(clock: ClockMode, most_differing: u64) -> Self {
        Apart {
            clock,
            others: others(),
            pairs: 0,
            answers: 0,
            full: 0,
            unlike: 0,
            with_others: 0,
            differed: 0,
            most_differing,
        }
    }

    pub fn goes_on(&self) -> bool {
        self.differed < self.most_differing
    }

    fn compare(&mut self, heard: [Vec<Heard>; 2], name: &str, is_twin: bool) -> Option<String> {
        let [first, second] = heard;
        for (at, (first, second)) in first.iter().zip(&second).enumerate() {
            if (first.answer, &first.row) != (second.answer, &second.row) {
                let (first, second) = (first.answer, second.answer);
                return Some(format!("{name}, common call {at}: {first:?}, and {second:?}"));
            }
            self.answers += u64::from(is_twin);
            self.full += u64::from(is_twin && first.answer == Answer::Refused(11));
            self.unlike += u64::from(is_twin && first.beside != second.beside);
            self.with_others += u64::from(!is_twin);
        }
        None
    }

    /// The pair of a seed.
    pub fn pair(&mut self, seed: u64) {
        let mut pair = Pair::new(self.clock, seed);
        let first = pair.first();
        let second = pair.second(&first);
        self.pairs += 1;
        let hear =
            |limiters: &dyn Limiters| [&first, &second].map(|steps| heard(limiters, &pair, steps));
        let mut told = vec![("the twin", hear(&Twin), true)];
        told.extend(self.others.iter().map(|other| (other.name(), hear(&**other), false)));
        for (name, heard, is_twin) in told {
            let Some(fault) = self.compare(heard, name, is_twin) else {
                continue;
            };
            self.differed += 1;
            if self.differed <= SHOWN {
                eprintln!("differs: {fault}; judge apart {seed}{}", clock_word(self.clock));
            }
        }
    }
}

/// What the common calls of a history are told.
fn heard(limiters: &dyn Limiters, pair: &Pair, steps: &[Step]) -> Vec<Heard> {
    let mut rooms = Rooms::empty(pair.slots, pair.ring);
    let mut all = Vec::new();
    for Step { settings, reading, call, is_common } in steps {
        let (first, second) = held(rooms.of(kind(&call.op)));
        let beside = if pair.own == 1 { second } else { first };
        let mut row = vec![UNTOUCHED; if *is_common { pair.ring } else { 0 }];
        let answer = limiters.call(settings, &mut rooms, *reading, *call, &mut row);
        if *is_common {
            all.push(Heard { answer, row, beside });
        }
    }
    all
}

/// Pairs until so many answers are compared.
pub fn run(apart: &mut Apart, answers: u64, seed: u64) {
    let mut seeds = Dice::new(seed);
    while apart.answers < answers && apart.goes_on() {
        apart.pair(seeds.any());
    }
}
