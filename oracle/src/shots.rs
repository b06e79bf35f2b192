//! One call of the gateway on any words: the twin, the others and the second reading of tickets 12 and 6 must agree.

use std::fmt;

use twin::calls::{Answer, Asked, Limiters, Rooms, Twin};
use twin::rules::{ClockMode, Settings};

use crate::compare::{first_other_word, who};
use crate::expected::UNUSED;
use crate::others;
use crate::shots_expected::foreseen;
use crate::trial::Trials;

/// How many differing calls are printed.
const SHOWN: u64 = 3;

/// A gateway's table, and two rooms, of which the gateway has the suppressed one.
#[derive(Debug, PartialEq, Eq)]
pub struct Memory {
    pub table: Vec<u64>,
    pub rooms: Rooms,
}

impl Clone for Memory {
    fn clone(&self) -> Self {
        Memory { table: self.table.clone(), rooms: self.rooms.clone() }
    }

    /// Into the words that are there.
    fn clone_from(&mut self, from: &Self) {
        self.table.clone_from(&from.table);
        self.rooms.absolute.clone_from(&from.rooms.absolute);
        self.rooms.suppressed.clone_from(&from.rooms.suppressed);
    }
}

/// What a call may come to: the refusals by their numbers, then these.
pub const HELD: usize = 22;
pub const ALLOWED: usize = 23;
pub const YES: usize = 24;
pub const NO: usize = 25;
pub const DONE: usize = 26;
/// Admitted under a number that was turned away before.
pub const RESENT: usize = 27;
/// Admitted by a factor worked out at perceived rate zero.
pub const RATE_ZERO: usize = 28;
const OUTCOMES: usize = 29;
const NAMES: [&str; OUTCOMES - HELD] =
    ["held", "allowed", "yes", "no", "done", "resent", "at perceived rate zero"];

fn outcome(answer: Answer) -> usize {
    match answer {
        Answer::Refused(number) => number as usize,
        Answer::Held => HELD,
        Answer::Allowed => ALLOWED,
        Answer::Suppressed { admitted: true, .. } => YES,
        Answer::Suppressed { admitted: false, .. } => NO,
        Answer::Done => DONE,
        other => unreachable!("the gateway has no {other:?}"),
    }
}

fn name(outcome: usize) -> String {
    match outcome.checked_sub(HELD) {
        None => outcome.to_string(),
        Some(at) => NAMES[at].to_string(),
    }
}

/// The counts, and the implementations besides the twin.
pub struct Shots {
    /// The clock mode of its seasons.
    pub clock: ClockMode,
    others: Vec<Box<dyn Limiters>>,
    /// The calls on the room between shots.
    pub beside: Trials,
    pub seasons: u64,
    /// Tables that no call made.
    pub damaged: u64,
    pub calls: u64,
    with_others: u64,
    /// Calls by what they came to: of all, and of the part under way.
    told: [u64; OUTCOMES],
    part: [u64; OUTCOMES],
    differed: u64,
    /// So many differing calls end the run.
    pub most_differing: u64,
    before: Memory,
    wanted: Memory,
}

impl fmt::Display for Shots {
    fn fmt(&self, f: &mut fmt::Formatter) -> fmt::Result {
        let Shots { seasons, damaged, calls, told, .. } = self;
        write!(f, "shots: {seasons} seasons, {damaged} damaged tables, {calls} calls (")?;
        for outcome in (HELD..OUTCOMES).chain(1..HELD).filter(|outcome| told[*outcome] > 0) {
            write!(f, "{}: {}, ", name(outcome), told[outcome])?;
        }
        let (who, differed) = (who(&self.others, self.with_others), self.differed());
        write!(f, "{} on the room between); {who}; {differed} differed", self.beside.calls())
    }
}

impl Shots {
    pub fn new(clock: ClockMode) -> Self {
        let none = Memory { table: vec![], rooms: Rooms { absolute: vec![], suppressed: vec![] } };
        Shots {
            clock,
            others: others(),
            beside: Trials::new(others()),
            seasons: 0,
            damaged: 0,
            calls: 0,
            with_others: 0,
            told: [0; OUTCOMES],
            part: [0; OUTCOMES],
            differed: 0,
            most_differing: 100,
            before: none.clone(),
            wanted: none,
        }
    }

    pub fn differed(&self) -> u64 {
        self.differed + self.beside.differed
    }

    pub fn goes_on(&self) -> bool {
        self.differed() < self.most_differing
    }

    /// Counts what a call came to.
    pub fn count(&mut self, outcome: usize) {
        self.told[outcome] += 1;
        self.part[outcome] += 1;
    }

    /// A part of the run is over: each of these must have come, unless differences ended it, and what is not used must not.
    pub fn end_part(&mut self, part: &str, wanted: &[usize]) {
        let came = std::mem::replace(&mut self.part, [0; OUTCOMES]);
        if came[UNUSED as usize] > 0 {
            self.differ(format!("{part}: {} calls came to {UNUSED}", came[UNUSED as usize]));
        }
        for outcome in wanted.iter().filter(|outcome| came[**outcome] == 0) {
            if self.goes_on() {
                self.differ(format!("{part}: no call came to {}", name(*outcome)));
            }
        }
    }

    /// Notes a difference; tells whether it is to be shown.
    pub fn differ(&mut self, fault: String) -> bool {
        self.differed += 1;
        let is_shown = self.differed <= SHOWN;
        if is_shown {
            eprintln!("differs: {fault}");
        }
        is_shown
    }

    /// Puts a call to all; the memory is left as the twin leaves it.
    pub fn put(
        &mut self,
        settings: &Settings,
        memory: &mut Memory,
        reading: u64,
        asked: Asked,
    ) -> Answer {
        self.before.clone_from(memory);
        self.wanted.clone_from(memory);
        let wanted = foreseen(settings, &mut self.wanted, reading, asked);
        let Memory { table, rooms } = memory;
        let answer = Twin.ask(settings, table, &mut rooms.suppressed, reading, asked);
        self.calls += 1;
        self.count(outcome(answer));
        if wanted.at_rate_zero {
            self.count(RATE_ZERO);
        }
        let mut fault = None;
        if answer != wanted.answer || *memory != self.wanted {
            let place = other_word(&self.wanted, memory);
            fault =
                Some(format!("the twin answers {answer:?} and not {:?}; {place}", wanted.answer));
        }
        fault = fault.or_else(|| self.others_fault(settings, memory, reading, asked, answer));
        if fault.is_some_and(|fault| self.differ(fault)) {
            eprintln!("  {settings:?} t={reading} {asked:?}\n  {:?}", self.before);
        }
        answer
    }

    /// In what one of the others differs from the twin.
    fn others_fault(
        &mut self,
        settings: &Settings,
        memory: &Memory,
        reading: u64,
        asked: Asked,
        answer: Answer,
    ) -> Option<String> {
        for other in &self.others {
            self.with_others += 1;
            self.wanted.clone_from(&self.before);
            let Memory { table, rooms } = &mut self.wanted;
            let told = other.ask(settings, table, &mut rooms.suppressed, reading, asked);
            if told != answer || self.wanted != *memory {
                let (name, place) = (other.name(), other_word(memory, &self.wanted));
                return Some(format!("{name} answers {told:?}, the twin {answer:?}; {place}"));
            }
        }
        None
    }
}

/// The first word in which two memories differ.
fn other_word(wanted: &Memory, told: &Memory) -> String {
    let pairs = wanted.table.iter().zip(&told.table);
    match pairs.clone().position(|(wanted, told)| wanted != told) {
        None => first_other_word(&wanted.rooms, &told.rooms),
        Some(at) => {
            let (wanted, told) = (wanted.table[at], told.table[at]);
            format!("table word {at} is {told} and should be {wanted}")
        }
    }
}
