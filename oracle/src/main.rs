//! The judge: the original source, unchanged, beside every implementation over lent rooms.
//! The original's files are modules of this crate, so that its private state can be read; a formatter must pass them by.

extern crate std_shim as std;

#[allow(dead_code)]
#[rustfmt::skip]
#[path = "../target/original/builder.rs"]
mod builder;
#[allow(dead_code)]
#[rustfmt::skip]
#[path = "../target/original/common.rs"]
mod common;
#[allow(dead_code)]
#[rustfmt::skip]
#[path = "../target/original/error.rs"]
mod error;

#[allow(dead_code)]
mod local;

pub(crate) use builder::RateLimiterBuilder;
pub(crate) use common::{
    BucketSize, ConditionalSetOutcome, HardLimitFactor, HistoryPreservation, RateLimit,
    RateLimitComparator, RateLimitDecision, SuppressedRateLimitSnapshot,
    SuppressionFactorCachePeriod, WindowSize,
};
pub(crate) use error::TrypemaError;

mod all_short;
mod apart;
mod broken;
mod callers;
mod compare;
mod defaults;
mod desk_check;
mod expected;
#[cfg(archive)]
mod faces;
mod input_lines;
mod lines_check;
mod loaded;
mod long;
mod original;
mod printed_lines;
mod random;
mod rate_zero;
#[cfg(archive)]
mod rattle;
mod read_back;
mod rings;
mod sample;
mod seasons;
mod short_seasons;
mod shots;
mod shots_check;
mod shots_expected;
mod shots_together;
mod state;
mod tables;
mod taken_out;
mod together;
mod trial;
mod units_check;
mod words;

use std::fmt::Display;
use std::io::Write;

use apart::Apart;
use compare::{Comparison, Shared};
use defaults::Defaults;
use input_lines::Program;
use read_back::ReadBacks;
use rings::Rings;
use shots::Shots;
use twin::calls::Limiters;
use twin::rules::ClockMode;

/// What the arguments ask for.
fn main() {
    let arguments: Vec<String> = std::env::args().skip(1).collect();
    let words: Vec<&str> = arguments.iter().map(String::as_str).collect();
    match words[..] {
        ["sample", calls, seed] => sample::print(number(calls), number(seed)),
        [program @ ("desk" | "shot-lines"), lines, seed] => {
            let program = if program == "desk" { Program::Desk } else { Program::Shots };
            let input = input_lines::input(program, number(lines), number(seed));
            std::io::stdout().write_all(&input).expect("standard output");
        }
        [one @ ("season" | "history" | "parties" | "apart" | "ring"), seed, ref mode @ ..] => {
            println!("{}", history(one, number(seed), clock(mode)));
        }
        [part @ ("shots" | "rings" | "defaults" | "read-back"), calls, seed, ref wishes @ ..]
            if wishes.iter().all(|wish| *wish == "first") =>
        {
            let most_differing = if wishes.is_empty() { 100 } else { 1 };
            compare_part(part, most_differing, number(calls), number(seed));
        }
        ["broken", rooms, seed] => break_rooms(number(rooms), number(seed)),
        [calls, seed, ref wishes @ ..]
            if wishes.iter().all(|wish| ["tally", "first", "few"].contains(wish)) =>
        {
            compare(number(calls), number(seed), wishes);
        }
        _ => panic!(
            "CALLS SEED [tally] [first] [few], history|parties|apart|season|ring SEED [nanoseconds], broken ROOMS SEED, \
             shots|rings|defaults CALLS SEED [first], read-back LINES SEED [first], sample CALLS SEED, desk LINES SEED, or shot-lines LINES SEED"
        ),
    }
}

fn number(text: &str) -> u64 {
    text.parse().expect("a whole number")
}

/// The line of one season, history or pair of histories.
fn history(one: &str, seed: u64, clock: ClockMode) -> String {
    match one {
        "season" => {
            let mut shots = Shots::new(clock);
            seasons::played(&mut shots, seed);
            shots.to_string()
        }
        "apart" => {
            let mut apart = Apart::new(clock, 1);
            apart.pair(seed);
            apart.to_string()
        }
        "ring" => {
            let mut rings = Rings::new(clock, 1);
            rings.history(seed);
            rings.to_string()
        }
        _ => {
            let shared = (one == "parties").then(Shared::default);
            let mut comparison = Comparison { shared, ..Comparison::new(clock, others()) };
            random::run_one(&mut comparison, seed);
            comparison.to_string()
        }
    }
}

/// A part of the comparison by itself.
fn compare_part(part: &str, most_differing: u64, calls: u64, seed: u64) -> ! {
    match part {
        "shots" => {
            let both = compare_shots(most_differing, calls, seed);
            show(&both);
            end(both.iter().map(Shots::differed).sum());
        }
        "rings" => {
            let both = compare_rings(most_differing, calls, seed);
            show(&both);
            end(both.iter().map(Rings::differed).sum());
        }
        "read-back" => {
            let mut lines = ReadBacks::new(most_differing);
            lines.run(calls, seed);
            println!("{lines}");
            end(lines.differed);
        }
        _ => {
            let mut both = CLOCKS.map(|clock| Defaults::new(clock, most_differing));
            both.iter_mut().for_each(|one| one.run(calls, seed));
            show(&both);
            end(both.iter().map(|Defaults(one)| one.differed).sum());
        }
    }
}

/// The window, in seconds, of checks whose rates and readings are made for it.
const SHORT_WINDOW: u64 = 10;

const CLOCKS: [ClockMode; 2] = [ClockMode::Milliseconds, ClockMode::Nanoseconds];

/// The clock mode that the last words of a command name.
fn clock(words: &[&str]) -> ClockMode {
    match words {
        [] => ClockMode::Milliseconds,
        ["nanoseconds"] => ClockMode::Nanoseconds,
        _ => panic!("nanoseconds, or nothing more"),
    }
}

/// Implementations over rooms that must agree with the twin to the word.
type Others = Vec<Box<dyn Limiters>>;

/// The Rattle code, where its archive is linked.
fn others() -> Others {
    #[cfg(archive)]
    return vec![Box::new(rattle::Rattle)];
    #[cfg(not(archive))]
    return vec![];
}

/// A line for each clock mode.
fn show(both: &[impl Display; 2]) {
    for (clock, line) in CLOCKS.iter().zip(both) {
        println!("in {}: {line}", format!("{clock:?}").to_lowercase());
    }
}

/// The process ends, well where nothing differed.
fn end(differed: u64) -> ! {
    std::process::exit(i32::from(differed > 0))
}

/// In each clock mode seasons of shots, short and random, damaged tables and refusals met together; in milliseconds lines of shots too.
fn compare_shots(most_differing: u64, calls: u64, seed: u64) -> [Shots; 2] {
    CLOCKS.map(|clock| {
        let mut shots = Shots::new(clock);
        shots.most_differing = most_differing;
        short_seasons::run(&mut shots, calls);
        seasons::run(&mut shots, calls, seed);
        if clock == ClockMode::Milliseconds {
            shots_check::run(&mut shots, calls / 50_000, seed);
        }
        tables::run(&mut shots, calls / 10, seed);
        shots
    })
}

/// In each clock mode the length that a ring must have, so many calls of histories in such rings, and zero counts in shorter ones.
fn compare_rings(most_differing: u64, calls: u64, seed: u64) -> [Rings; 2] {
    CLOCKS.map(|clock| {
        let mut rings = Rings::new(clock, most_differing);
        rings.numbers(calls / 30, seed);
        rings.run(calls, seed);
        rings
    })
}

/// In each clock mode damaged tables, damaged rooms, and every set of refusals.
fn break_rooms(rooms: u64, seed: u64) -> ! {
    let both = CLOCKS.map(|clock| {
        let mut shots = Shots::new(clock);
        tables::run(&mut shots, rooms / 10, seed);
        (shots, broken::run(clock, rooms, seed))
    });
    let differed = both.iter().map(|(shots, trials)| shots.differed() + trials.differed).sum();
    let [(shots, trials), (fine_shots, fine_trials)] = both;
    show(&[shots, fine_shots]);
    show(&[trials, fine_trials]);
    end(differed)
}

fn comparison(clock: ClockMode, wishes: &[&str]) -> Comparison {
    let mut comparison = Comparison { short: 1, ..Comparison::new(clock, others()) };
    for wish in wishes {
        match *wish {
            "tally" => comparison.tally = Some(Default::default()),
            "first" => comparison.most_differing = 1,
            _ => comparison.short = all_short::FEW,
        }
    }
    comparison
}

/// Desk inputs and units, which are in milliseconds alone.
fn compare_desk(comparison: &mut Comparison, calls: u64, seed: u64) {
    if comparison.clock == ClockMode::Milliseconds {
        desk_check::run(comparison, calls / 10_000, seed);
        units_check::run(comparison);
    }
}

/// What is compared with two parties.
struct TwoParties {
    shared: Comparison,
    apart: Apart,
}

impl TwoParties {
    fn new(clock: ClockMode, wishes: &[&str]) -> Self {
        let shared = Some(Shared::default());
        let shared = Comparison { shared, ..comparison(clock, wishes) };
        let apart = Apart::new(clock, shared.most_differing);
        TwoParties { shared, apart }
    }

    fn differed(&self) -> u64 {
        self.shared.differed + self.apart.differed
    }

    fn goes_on(&self) -> bool {
        self.shared.goes_on() && self.apart.goes_on()
    }

    /// As many calls of two parties as the run has, and a tenth as many answers of one of them beside other calls of the other.
    fn run(&mut self, calls: u64, seed: u64) {
        random::run_shared(&mut self.shared, calls, seed);
        apart::run(&mut self.apart, calls / 10, seed);
    }
}

/// The whole of a comparison, for each clock mode.
struct Compared {
    both: [Comparison; 2],
    two: [TwoParties; 2],
    rings: [Rings; 2],
    defaults: [Defaults; 2],
    /// Lines have no clock mode.
    read_backs: ReadBacks,
}

impl Compared {
    /// Where the first difference is asked for, one is enough.
    fn goes_on(&self) -> bool {
        self.both.iter().all(Comparison::goes_on)
            && self.two.iter().all(TwoParties::goes_on)
            && self.rings.iter().all(Rings::goes_on)
            && self.defaults.iter().all(|Defaults(one)| one.goes_on())
            && self.read_backs.goes_on()
    }

    /// One part in each clock mode. Nanoseconds mostly have the first difference.
    fn each(&mut self, part: impl Fn(&mut Comparison, &mut TwoParties, &mut Rings)) {
        for at in (0..self.both.len()).rev() {
            if self.goes_on() {
                part(&mut self.both[at], &mut self.two[at], &mut self.rings[at]);
            }
        }
    }

    /// The default settings in each clock mode.
    fn run_defaults(&mut self, calls: u64, seed: u64) {
        for at in 0..self.defaults.len() {
            if self.goes_on() {
                self.defaults[at].run(calls, seed);
            }
        }
    }

    fn run_read_backs(&mut self, lines: u64, seed: u64) {
        if self.goes_on() {
            self.read_backs.run(lines, seed);
        }
    }

    fn differed(&self) -> u64 {
        let both: u64 = self.both.iter().map(|one| one.differed).sum();
        let two: u64 = self.two.iter().map(TwoParties::differed).sum();
        let rings: u64 = self.rings.iter().map(Rings::differed).sum();
        let defaults: u64 = self.defaults.iter().map(|Defaults(one)| one.differed).sum();
        both + two + rings + defaults + self.read_backs.differed
    }
}

/// All parts, two parties, the length of rings, the defaults, and the shots, for each two lines; and one for lines read back.
fn compare(calls: u64, seed: u64, wishes: &[&str]) -> ! {
    let both = CLOCKS.map(|clock| comparison(clock, wishes));
    let two = CLOCKS.map(|clock| TwoParties::new(clock, wishes));
    let rings = both.each_ref().map(|one| Rings::new(one.clock, one.most_differing));
    let defaults = both.each_ref().map(|one| Defaults::new(one.clock, one.most_differing));
    let read_backs = ReadBacks::new(both[0].most_differing);
    let mut compared = Compared { both, two, rings, defaults, read_backs };
    compared.each(|one, _, _| compare_desk(one, calls, seed));
    compared.run_read_backs(calls / 10, seed);
    compared.each(|_, _, rings| rings.numbers(calls / 60, seed));
    compared.each(|_, two, _| two.run(calls, seed));
    compared.each(|one, _, _| random::run(one, calls, seed));
    compared.each(|_, _, rings| rings.run(calls / 2, seed));
    compared.run_defaults(calls / 10, seed);
    let shots = match compared.goes_on() {
        true => compare_shots(compared.both[0].most_differing, calls / 5, seed),
        false => CLOCKS.map(Shots::new),
    };
    // The short histories come last, since they are many.
    if shots.iter().all(Shots::goes_on) {
        compared.each(|one, two, _| {
            all_short::run_shared(&mut two.shared, seed);
            all_short::run(one, seed);
        });
    }
    let Compared { both, two, rings, defaults, read_backs } = &compared;
    two.iter().map(|two| &two.shared).chain(both).for_each(Comparison::show_tally);
    println!("{read_backs}");
    show(&shots);
    show(&rings.each_ref());
    show(&defaults.each_ref());
    show(&two.each_ref().map(|two| &two.apart));
    show(&two.each_ref().map(|two| &two.shared));
    show(&both.each_ref());
    end(shots.iter().map(Shots::differed).sum::<u64>() + compared.differed())
}
