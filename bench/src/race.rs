//! Races: the contestants put the same calls to their own limiters and take turns at every stretch of them, so that a load on the
//! machine falls on all. Of the repetitions each stretch's least time counts.

use std::time::{Duration, Instant};

use crate::contestants::Contestant;
use crate::expired::Expired;
use crate::load::{Increment, Limiter, Load, Shape, later};

/// How many increments are timed at a time.
pub const STRETCH: usize = 2_000;

/// A load and the contestants that it is put to.
pub struct Field {
    load: Load,
    pub contestants: Vec<Box<dyn Contestant>>,
}

impl Field {
    pub fn new(shape: Shape, contestants: fn(&Load) -> Vec<Box<dyn Contestant>>) -> Self {
        let load = Load::new(shape);
        Field { contestants: contestants(&load), load }
    }

    /// How many buckets a key has in the first contestant's room, on average.
    pub fn buckets(&mut self, limiter: Limiter) -> f64 {
        let room = self.contestants[0].room(limiter).expect("the twin's room");
        let slots = twin::room::slots(room);
        let all: u64 = (0..slots).map(|at| twin::room::slot(room, at).buckets()).sum();
        all as f64 / slots as f64
    }
}

/// What is put to the contestants of a field.
struct Calls {
    filling: Vec<Increment>,
    increments: Vec<Increment>,
    /// How much later they come again.
    span: u64,
}

impl Calls {
    fn new(load: &Load, timed: usize) -> Self {
        let (filling, increments) = load.increments(timed);
        let last = increments.last().expect("an increment").reading;
        Calls { filling, increments, span: last + 100_000 * load.settings.clock.ticks() }
    }

    fn stretch(&self, at: usize) -> &[Increment] {
        self.increments.chunks(STRETCH).nth(at).expect("a stretch")
    }

    fn come_later(&mut self) {
        later(&mut self.filling, self.span);
        later(&mut self.increments, self.span);
    }
}

/// A contestant and the place of its field.
struct Entrant<'a> {
    field: usize,
    load: &'a Load,
    contestant: &'a mut dyn Contestant,
}

impl Entrant<'_> {
    /// The room is cleared and filled; gives the answers, folded.
    fn fill(&mut self, limiter: Limiter, filling: &[Increment]) -> u64 {
        self.contestant.clear(limiter, self.load, filling[0].reading);
        self.contestant.run(limiter, self.load, filling)
    }
}

fn entrants(fields: &mut [Field]) -> Vec<Entrant<'_>> {
    let mut entrants = Vec::new();
    for (field, Field { load, contestants }) in fields.iter_mut().enumerate() {
        for contestant in contestants {
            entrants.push(Entrant { field, load, contestant: contestant.as_mut() });
        }
    }
    entrants
}

/// What each contestant takes for its field's increments, in rooms that are cleared and filled first. The fields are in one race.
pub fn race(limiter: Limiter, fields: &mut [Field], timed: usize, times: usize) -> Vec<Duration> {
    let mut calls: Vec<Calls> = fields.iter().map(|field| Calls::new(&field.load, timed)).collect();
    let mut entrants = entrants(fields);
    let mut least = Least::new(entrants.len(), timed.div_ceil(STRETCH));
    for turn in 0..times {
        let fill = |entrant: &mut Entrant| entrant.fill(limiter, &calls[entrant.field].filling);
        let filled: Vec<u64> = entrants.iter_mut().map(fill).collect();
        must_agree_by_field(&entrants, &filled);
        let told = least.lap(turn, |place, at| {
            let Entrant { field, load, contestant } = &mut entrants[place];
            time(limiter, load, *contestant, calls[*field].stretch(at))
        });
        must_agree_by_field(&entrants, &told);
        calls.iter_mut().for_each(Calls::come_later);
    }
    least.sums()
}

/// What each contestant takes for calls that meet rings wholly expired. Every round begins with the same words, which are put
/// there untimed.
pub fn race_expired(
    limiter: Limiter,
    load: &Load,
    contestants: &mut [Box<dyn Contestant>],
    timed: usize,
    times: usize,
) -> Vec<Duration> {
    let expired = Expired::new(limiter, load, timed);
    let rounds: Vec<&[Increment]> = expired.rounds(load).collect();
    let mut least = Least::new(contestants.len(), rounds.len());
    for turn in 0..times {
        let told = least.lap(turn, |place, round| {
            let contestant = contestants[place].as_mut();
            expired.restore(limiter, contestant);
            time(limiter, load, contestant, rounds[round])
        });
        must_agree(contestants.iter().map(|contestant| &**contestant), &told);
        must_leave_the_same(limiter, contestants);
    }
    least.sums()
}

/// One contestant's increments, for a profiler.
pub fn alone(limiter: Limiter, load: &Load, mut contestant: Box<dyn Contestant>, timed: usize) {
    let (filling, increments) = load.increments(timed);
    let before = contestant.run(limiter, load, &filling);
    println!("{before:x} {:x}", contestant.run(limiter, load, &increments));
}

/// One contestant's calls that meet rings wholly expired, for a profiler.
pub fn alone_expired(
    limiter: Limiter,
    load: &Load,
    mut contestant: Box<dyn Contestant>,
    timed: usize,
) {
    let expired = Expired::new(limiter, load, timed);
    let told = expired.rounds(load).fold(0, |answers: u64, round| {
        expired.restore(limiter, contestant.as_mut());
        answers.rotate_left(1) ^ contestant.run(limiter, load, round)
    });
    println!("{told:x}");
}

/// Each contestant's least time for each stretch.
pub struct Least(Vec<Vec<Duration>>);

impl Least {
    pub fn new(contestants: usize, stretches: usize) -> Self {
        Least(vec![vec![Duration::MAX; stretches]; contestants])
    }

    /// All stretches once, each by every contestant; gives each contestant's answers, folded.
    pub fn lap(
        &mut self,
        turn: usize,
        mut timed: impl FnMut(usize, usize) -> (Duration, u64),
    ) -> Vec<u64> {
        let (contestants, stretches) = (self.0.len(), self.0[0].len());
        let mut answers = vec![0; contestants];
        for at in 0..stretches {
            for place in 0..contestants {
                let place = (place + at + turn) % contestants;
                let (took, told) = timed(place, at);
                let least = &mut self.0[place][at];
                *least = took.min(*least);
                answers[place] ^= told.rotate_left(at as u32);
            }
        }
        answers
    }

    pub fn sums(&self) -> Vec<Duration> {
        self.0.iter().map(|stretches| stretches.iter().sum()).collect()
    }
}

fn time(
    limiter: Limiter,
    load: &Load,
    contestant: &mut dyn Contestant,
    stretch: &[Increment],
) -> (Duration, u64) {
    let start = Instant::now();
    let told = contestant.run(limiter, load, stretch);
    (start.elapsed(), told)
}

/// In each clock an answer may have another wait, so that each field has its own.
fn must_agree_by_field(entrants: &[Entrant], answers: &[u64]) {
    let mut answers = answers;
    for field in entrants.chunk_by(|one, next| one.field == next.field) {
        let (own, others) = answers.split_at(field.len());
        must_agree(field.iter().map(|entrant| &*entrant.contestant), own);
        answers = others;
    }
}

fn must_agree<'a>(contestants: impl Iterator<Item = &'a dyn Contestant>, answers: &[u64]) {
    let decided = contestants.zip(answers).filter(|(contestant, _)| contestant.decides());
    let is_same = decided.map(|(_, answers)| answers).all(|other| *other == answers[0]);
    assert!(is_same, "the answers differ: {answers:?}");
}

fn must_leave_the_same(limiter: Limiter, contestants: &mut [Box<dyn Contestant>]) {
    let deciding = contestants.iter_mut().filter(|contestant| contestant.decides());
    let rooms: Vec<&mut [u64]> =
        deciding.filter_map(|contestant| contestant.room(limiter)).collect();
    assert!(rooms.iter().all(|room| *room == rooms[0]), "the words of the rooms differ");
}
