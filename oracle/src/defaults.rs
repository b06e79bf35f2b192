//! The default settings (ticket 5) are the original's but for the window. With 30 s named to it, random histories are the same.

use std::fmt;

use twin::calls::{Answer, Call, Limiters, Op, Rooms, Twin};
use twin::rules::{ClockMode, Settings};

use crate::callers::{Callers, Promise};
use crate::compare::{Comparison, History};
use crate::expected::ticks;
use crate::original::Original;
use crate::random::{Course, Dice, Source, first_reading, key_pool, play, rate};
use crate::{WindowSize, others};

/// The default windows, in seconds: ticket 5's, and the original's own.
const WINDOW: u64 = 30;
const OWN_WINDOW: u64 = 10;

/// It tells C programmers the Rattle code's defaults.
const HEADER: &str = include_str!("../../include/frostaxle.h");

/// The window as it is named to the original.
fn named() -> WindowSize {
    WindowSize::seconds(WINDOW).expect("a window")
}

pub struct Defaults(pub Comparison);

impl fmt::Display for Defaults {
    fn fmt(&self, f: &mut fmt::Formatter) -> fmt::Result {
        write!(f, "defaults: get tells a count for {WINDOW} s, the original by its own window ")?;
        write!(f, "for {OWN_WINDOW} s; with {WINDOW} s named to it {}", self.0)
    }
}

impl Defaults {
    pub fn new(clock: ClockMode, most_differing: u64) -> Self {
        Defaults(Comparison { most_differing, ..Comparison::new(clock, others()) })
    }

    /// Where the windows end, the header, and random histories until so many calls are compared.
    pub fn run(&mut self, calls: u64, seed: u64) {
        let ends = [WINDOW, OWN_WINDOW].map(|window| 1000 * window * ticks(self.0.clock));
        for reading in ends.into_iter().rev().flat_map(|end| [end, end + 1]) {
            self.get(reading, ends.map(|end| Answer::Total(u64::from(reading <= end))));
        }
        let Settings { window, bucket, cache, factor, .. } = Settings::default();
        let whole = [("WINDOW", window), ("BUCKET", bucket), ("CACHE", cache)];
        let whole = whole.map(|(name, value)| format!("{name} {value}"));
        for default in whole.into_iter().chain([format!("FACTOR {factor:?}")]) {
            let is_told = HEADER.contains(&format!("#define FROSTAXLE_DEFAULT_{default}\n"));
            self.judge(is_told, &format!("the header has another default than {default}"));
        }
        let mut seeds = Dice::new(seed);
        while self.0.calls < calls && self.0.goes_on() {
            self.history(seeds.any());
        }
    }

    fn judge(&mut self, is_right: bool, fault: &str) {
        if !is_right {
            self.0.differed += 1;
            eprintln!("differs: {fault}");
        }
    }

    /// What is due after a count of 1 at reading 0: here and in the original with the window named, and in the original with its own.
    fn get(&mut self, reading: u64, due: [Answer; 2]) {
        let (clock, caller) = (self.0.clock, Promise::all(1, 1).to(1));
        let ops = [(0, Op::AbsoluteInc { rate: 1.0, count: 1 }), (reading, Op::AbsoluteGet)];
        let calls = ops.map(|(at, op)| (at, Call { caller, key: b"a", op }));
        let there = [named(), WindowSize::default()].map(|window| {
            let original = Original::with_window(window, clock);
            calls.map(|(at, call)| original.call(at, call, &mut vec![]))[1]
        });
        let here = |limiters: &dyn Limiters| {
            let mut rooms = Rooms::empty(1, 1);
            let settings = Settings { clock, ..Settings::default() };
            calls.map(|(at, call)| limiters.call(&settings, &mut rooms, at, call, &mut vec![]))[1]
        };
        let mut all = vec![here(&Twin)];
        all.extend(self.0.others.iter().map(|other| here(&**other)));
        let is_right = there == due && all.iter().all(|told| *told == due[0]);
        self.judge(is_right, &format!("get at {reading}: {all:?}, in the original {there:?}"));
    }

    /// A random history in rings that suffice.
    fn history(&mut self, seed: u64) {
        let (mut dice, keys, clock) = (Dice::new(seed), key_pool(1), self.0.clock);
        let settings = Settings { clock, ..Settings::default() };
        let ring = settings.sufficient_ring().expect("settings in their ranges");
        let mut history = History::new(settings, 4, ring as usize, &keys);
        history.original = Original::with_window(named(), clock);
        let rates = vec![rate(&mut dice, &settings), rate(&mut dice, &settings)];
        let now = first_reading(&mut dice, &settings);
        let (keys, calls) = (1 + dice.below(5), dice.pick(&[20, 80, 320]));
        let (callers, is_steady) = (Callers::alone(1, &history.rooms), dice.once_in(3));
        let (times, is_suppressed) = (vec![now], false);
        let mut source = Source { dice, rates, times, now, is_suppressed, callers, is_steady };
        play(&mut self.0, &mut history, &mut source, &Course { keys, calls, both: true });
    }
}
