//! One history at a time: every answer and the whole state after every call.

use std::collections::BTreeMap;
use std::fmt;

use twin::calls::{Answer, Call, Limiters, Op, Rooms, Row, Twin};
use twin::parties::Caller;
use twin::room::{Bucket, last_reading};
use twin::rules::{ClockMode, Kind, Settings};

use crate::expected::{At, Expected, UNUSED, expected, held, holders, is_sized, kind};
use crate::original::Original;
use crate::rate_zero;
use crate::sample;
use crate::state::{self, Key};
use crate::taken_out;
use crate::words;

/// What a row holds where no bucket is put.
pub const UNTOUCHED: Bucket = Bucket { count: 11, declined: 12, time: 13 };

/// How many differing histories are printed.
const SHOWN: u64 = 3;

/// The counts, and the implementations over rooms besides the twin.
pub struct Comparison {
    /// The clock mode of its histories.
    pub clock: ClockMode,
    pub others: Vec<Box<dyn Limiters>>,
    pub histories: u64,
    /// Calls put to the original and compared.
    pub calls: u64,
    /// Calls put to the others, refused ones included.
    pub with_others: u64,
    /// Refused calls: number and unchanged rooms judged.
    pub refused: u64,
    /// Of the calls compared: the key has a bucket that is expired to the tick and does not look so at a first look.
    pub between_looks: u64,
    /// Histories whose comparison with the original ended before their last call, by the reason.
    pub taken_out: u64,
    pub at_rate_zero: u64,
    /// Two parties share the rooms of its histories, and what these calls met.
    pub shared: Option<Shared>,
    pub differed: u64,
    /// The random history under way: `judge history SEED`, with its clock mode, runs it alone.
    pub seed: Option<u64>,
    /// The sample's lines, if they are kept.
    pub record: Option<String>,
    /// Of how many short histories one is compared; 0 where none is.
    pub short: u64,
    /// So many differing histories end the run.
    pub most_differing: u64,
    /// How often each kind of call had each kind of answer, if that is kept.
    pub tally: Option<BTreeMap<String, u64>>,
}

/// What calls of two parties met.
#[derive(Clone, Copy, Default)]
pub struct Shared {
    /// All calls, refused ones included.
    pub calls: u64,
    /// Of these: both parties held slots of the room.
    both_held: u64,
    /// Refused with 11; of these a slot was free.
    full: u64,
    full_beside_free: u64,
    /// Refused with 15, and with 16.
    no_party: u64,
    broken_promise: u64,
}

impl Shared {
    fn count(&mut self, room: &[u64], answer: Answer) {
        self.calls += 1;
        if !is_sized(room) {
            return;
        }
        let (first, second) = held(room);
        self.both_held += u64::from(first > 0 && second > 0);
        match answer {
            Answer::Refused(11) => {
                self.full += 1;
                self.full_beside_free += u64::from(holders(room).any(|holder| holder == 0));
            }
            Answer::Refused(15) => self.no_party += 1,
            Answer::Refused(16) => self.broken_promise += 1,
            _ => {}
        }
    }
}

impl fmt::Display for Shared {
    fn fmt(&self, f: &mut fmt::Formatter) -> fmt::Result {
        let Shared { calls, both_held, full, full_beside_free, no_party, broken_promise } = self;
        write!(
            f,
            "{calls} calls of two parties ({both_held} where both held slots; \
             11: {full}, {full_beside_free} of them while a slot was free, 15: {no_party}, 16: {broken_promise})"
        )
    }
}

impl fmt::Display for Comparison {
    fn fmt(&self, f: &mut fmt::Formatter) -> fmt::Result {
        let Comparison { histories, calls, refused, taken_out, at_rate_zero, differed, .. } = self;
        let short = match self.short {
            0 => String::new(),
            1 => " (all short ones)".to_string(),
            some => format!(" (of the short ones 1 in {some} ONLY)"),
        };
        let ended = match self.clock {
            ClockMode::Milliseconds => "ended early by 01",
            ClockMode::Nanoseconds => "left the original at an eviction for 10 or 12",
        };
        if let Some(shared) = self.shared {
            write!(f, "{shared}, ")?;
        }
        write!(f, "{histories} histories{short}, {calls} calls compared with the original")?;
        if self.clock == ClockMode::Nanoseconds {
            write!(f, " ({} of them between the two looks)", self.between_looks)?;
        }
        write!(
            f,
            ", {refused} refusals judged, {taken_out} {ended}, \
             {at_rate_zero} left the original at perceived rate zero; {}; {differed} differed",
            who(&self.others, self.with_others)
        )
    }
}

/// What a command has for the clock mode behind its other words.
pub fn clock_word(clock: ClockMode) -> &'static str {
    match clock {
        ClockMode::Milliseconds => "",
        ClockMode::Nanoseconds => " nanoseconds",
    }
}

/// Which implementations over rooms were compared, and how many calls the others had.
pub fn who(others: &[Box<dyn Limiters>], with: u64) -> String {
    let names: Vec<&str> = others.iter().map(|other| other.name()).collect();
    match names[..] {
        [] => "the twin ALONE: no archive of the Rattle code is linked".to_string(),
        _ => format!("the twin and {}, the same {with} calls", names.join(" and ")),
    }
}

/// Why the comparison of a history with the original ends.
#[derive(Clone, Copy, PartialEq, Eq)]
enum End {
    /// Expired buckets were taken out to avoid 10 or 12, and what follows hangs on them. In milliseconds the history ends; in nanoseconds,
    /// where it does so at once, the others go on.
    TakenOut,
    /// A factor is worked out at perceived rate zero, where the original has a NaN. The others go on.
    RateZero,
}

/// Why a call differs.
struct Difference(String);

/// One call as it was given, for the print of a differing history.
struct Given<'a> {
    settings: Settings,
    reading: u64,
    call: Call<'a>,
    answer: Answer,
}

/// A history under comparison.
pub struct History<'a> {
    pub settings: Settings,
    pub keys: &'a [Key],
    pub rooms: Rooms,
    pub original: Original,
    /// After a factor at perceived rate zero, or in nanoseconds an eviction for 10 or 12: the original is asked no more.
    is_past_original: bool,
    /// From an absolute increment that took expired buckets out: they are left out of both states.
    leaves_expired_out: bool,
    given: Vec<Given<'a>>,
    before: Rooms,
    /// The read-outs' row, and its lengths by turns: half as long as the ring, and longer than it.
    row: Row,
    row_before: Row,
    row_lengths: [usize; 2],
    states: (Vec<u64>, Vec<u64>),
}

impl<'a> History<'a> {
    pub fn new(settings: Settings, slots: usize, ring: usize, keys: &'a [Key]) -> Self {
        History {
            settings,
            keys,
            rooms: Rooms::empty(slots, ring),
            original: Original::new(&settings),
            is_past_original: false,
            leaves_expired_out: false,
            given: Vec::new(),
            before: Rooms::empty(slots, ring),
            row: Row::new(),
            row_before: Row::new(),
            row_lengths: [ring.div_ceil(2), ring + 1],
            states: Default::default(),
        }
    }

    /// A history that starts from these sound rooms.
    pub fn from_rooms(settings: Settings, rooms: Rooms, keys: &'a [Key]) -> Self {
        let (slots, ring) = (rooms.absolute[0] as usize, rooms.absolute[1] as usize);
        let history = History { rooms, ..History::new(settings, slots, ring, keys) };
        for kind in [Kind::Absolute, Kind::Suppressed] {
            for key in keys {
                let (series, cached) = state::of_key(history.rooms.of(kind), key.party, &key.bytes);
                history.original.put(kind, &key.text, series, cached);
            }
        }
        history
    }

    /// Puts a call to the twin; rooms and row as they were stand beside.
    fn put(&mut self, settings: &Settings, reading: u64, call: Call<'a>) -> Answer {
        self.row.resize(self.row_lengths[self.given.len() % 2], UNTOUCHED);
        let History { rooms, before, row, row_before, .. } = self;
        before.clone_from(rooms);
        row_before.clone_from(row);
        let answer = Twin.call(settings, rooms, reading, call, row);
        self.given.push(Given { settings: *settings, reading, call, answer });
        answer
    }

    /// Whether an eviction for 10 or 12, made now or before, ends the comparison here; else it is noted.
    fn ends(&mut self, wanted: Expected, call: Call) -> bool {
        let is_absolute_cleanup =
            matches!(call.op, Op::CleanupBoth { .. } | Op::Cleanup { kind: Kind::Absolute, .. });
        if self.leaves_expired_out && is_absolute_cleanup {
            return true;
        }
        let Settings { window, bucket, clock, .. } = self.settings;
        let ends_at_once = clock == ClockMode::Nanoseconds || bucket > 1000 * window;
        if wanted.takes_out && !ends_at_once {
            self.leaves_expired_out = true;
        }
        wanted.takes_out && ends_at_once
    }

    /// The answer to the last call given.
    pub fn last_answer(&self) -> Answer {
        self.given.last().expect("a call").answer
    }

    /// The absolute room's own last reading tells what is expired there.
    fn live(&self, kind: Kind) -> Option<At<'_>> {
        let masks = self.leaves_expired_out && kind == Kind::Absolute;
        let reading = last_reading(&self.rooms.absolute);
        masks.then_some(At { settings: &self.settings, reading })
    }

    fn agrees(&mut self, kind: Kind) -> bool {
        let (mut told, mut held) = std::mem::take(&mut self.states);
        let live = self.live(kind);
        state::of_original(&self.original, kind, self.keys, live, &mut told);
        state::of_room(self.rooms.of(kind), self.keys, live, &mut held);
        let same = told == held;
        self.states = (told, held);
        same
    }
}

impl Comparison {
    pub fn new(clock: ClockMode, others: Vec<Box<dyn Limiters>>) -> Self {
        Comparison {
            clock,
            others,
            histories: 0,
            calls: 0,
            with_others: 0,
            refused: 0,
            between_looks: 0,
            taken_out: 0,
            at_rate_zero: 0,
            shared: None,
            differed: 0,
            seed: None,
            record: None,
            short: 0,
            most_differing: 100,
            tally: None,
        }
    }

    /// A history starts.
    pub fn begin(&mut self, history: &History) {
        self.histories += 1;
        if let Some(record) = &mut self.record {
            record.push_str(&sample::history_line(history));
        }
    }

    pub fn goes_on(&self) -> bool {
        self.differed < self.most_differing
    }

    /// Tells how often each kind of call had each kind of answer.
    pub fn show_tally(&self) {
        let clock = match self.clock {
            ClockMode::Milliseconds => "",
            ClockMode::Nanoseconds => ", in nanoseconds",
        };
        let parties = if self.shared.is_some() { ", of two parties" } else { "" };
        for (name, times) in self.tally.iter().flatten() {
            println!("{times:>10} {name}{parties}{clock}");
        }
    }

    fn count_kind(&mut self, op: &Op, answer: &Answer, wanted: Expected) {
        let Some(tally) = &mut self.tally else {
            return;
        };
        let first_word =
            |text: String| text.split([' ', '(']).next().unwrap_or_default().to_string();
        let call = first_word(format!("{op:?}"));
        let told = match answer {
            Answer::Refused(number) => format!("refused {number}"),
            Answer::Suppressed { factor, admitted } => {
                let factor = match f64::from_bits(*factor) {
                    0.0 => "0",
                    1.0 => "1",
                    _ => "between",
                };
                format!("Suppressed, factor {factor}, {admitted}")
            }
            answer => first_word(format!("{answer:?}")),
        };
        let added = match wanted {
            Expected { takes_out: true, .. } => ", expired taken out first",
            Expected { at_rate_zero: true, .. } => ", at perceived rate zero",
            Expected { between_looks: true, .. } => ", between the two looks",
            _ => "",
        };
        *tally.entry(format!("{:?} {call}: {told}{added}", kind(op))).or_default() += 1;
    }

    /// One call; false where the history ends.
    pub fn step<'a>(
        &mut self,
        history: &mut History<'a>,
        settings: &Settings,
        reading: u64,
        call: Call<'a>,
    ) -> bool {
        self.step_in(history, settings, reading, call, true)
    }

    /// One call on rooms that the original cannot hold: refusals and other implementations only.
    pub fn step_without_original<'a>(
        &mut self,
        history: &mut History<'a>,
        reading: u64,
        call: Call<'a>,
    ) {
        let settings = history.settings;
        self.step_in(history, &settings, reading, call, false);
    }

    fn step_in<'a>(
        &mut self,
        history: &mut History<'a>,
        settings: &Settings,
        reading: u64,
        call: Call<'a>,
        with_original: bool,
    ) -> bool {
        let wanted = expected(settings, &history.rooms, reading, call);
        // The sample leaves out what the original has no answer to.
        if self.record.is_some() && wanted.at_rate_zero {
            return true;
        }
        let answer = history.put(settings, reading, call);
        self.count_kind(&call.op, &answer, wanted);
        if let Some(shared) = &mut self.shared {
            shared.count(history.before.of(kind(&call.op)), answer);
        }
        let verdict = self
            .judge_others(history, settings, reading, call, answer)
            .and_then(|()| self.judge_refusal(history, wanted, answer))
            .and_then(|refused| match refused {
                true => Ok(None),
                false => self.judge(history, wanted, reading, call, answer, with_original),
            });
        self.conclude(history, verdict)
    }

    /// Counts what a call has come to; false where the history ends.
    fn conclude(
        &mut self,
        history: &mut History,
        verdict: Result<Option<End>, Difference>,
    ) -> bool {
        match verdict {
            Ok(None) => true,
            Ok(Some(end)) => {
                match end {
                    End::TakenOut => self.taken_out += 1,
                    End::RateZero => self.at_rate_zero += 1,
                }
                history.is_past_original = true;
                end == End::RateZero || self.clock == ClockMode::Nanoseconds
            }
            Err(difference) => {
                self.differed += 1;
                if self.differed <= SHOWN {
                    show(history, self.seed, self.shared.is_some(), &difference);
                }
                false
            }
        }
    }

    /// The others must give the twin's answer and leave the twin's words, refused or not.
    fn judge_others(
        &mut self,
        history: &History,
        settings: &Settings,
        reading: u64,
        call: Call,
        answer: Answer,
    ) -> Result<(), Difference> {
        for other in &self.others {
            self.with_others += 1;
            let mut rooms = history.before.clone();
            let mut row = history.row_before.clone();
            let told = other.call(settings, &mut rooms, reading, call, &mut row);
            if told != answer || rooms != history.rooms || row != history.row {
                let (name, place) = (other.name(), first_other_word(&history.rooms, &rooms));
                return Err(Difference(format!("{name} answers {told:?}; {place}, row {row:?}")));
            }
        }
        Ok(())
    }

    /// Whether the call is refused, as it must be; a refusal leaves rooms and row.
    fn judge_refusal(
        &mut self,
        history: &History,
        wanted: Expected,
        answer: Answer,
    ) -> Result<bool, Difference> {
        let refusal = if let Answer::Refused(number) = answer { number } else { 0 };
        if refusal != wanted.refusal || refusal == UNUSED {
            return Err(Difference(format!("refusal {} expected", wanted.refusal)));
        }
        if refusal == 0 {
            return Ok(false);
        }
        self.refused += 1;
        if history.rooms != history.before || history.row != history.row_before {
            return Err(Difference("a refusal changes words".into()));
        }
        Ok(true)
    }

    /// A call that is not refused: the twin against the original, as far as that goes; and why it goes no further.
    fn judge(
        &mut self,
        history: &mut History,
        wanted: Expected,
        reading: u64,
        call: Call,
        answer: Answer,
        with_original: bool,
    ) -> Result<Option<End>, Difference> {
        judge_by_second_reading(history, wanted, reading, call, answer)?;
        if !with_original {
            return Ok(None);
        }
        if !words::are_right(&history.before, &history.rooms, reading, call) {
            return Err(Difference(format!(
                "words that the call does not write: {:?}",
                history.rooms
            )));
        }
        if history.is_past_original {
            return Ok(None);
        }
        if wanted.at_rate_zero {
            return has_nan(history, reading, call).map(|()| Some(End::RateZero));
        }
        if history.ends(wanted, call) {
            return Ok(Some(End::TakenOut));
        }
        self.calls += 1;
        self.between_looks += u64::from(wanted.between_looks);
        judge_by_original(history, reading, call, answer)?;
        Ok(self.keep(history, reading, call, answer))
    }

    /// The sample, where it is kept, gets a line more. It holds no call whose states differ in expired buckets.
    fn keep(&mut self, history: &History, reading: u64, call: Call, answer: Answer) -> Option<End> {
        let record = self.record.as_mut()?;
        if history.leaves_expired_out {
            return Some(End::TakenOut);
        }
        let kind = kind(&call.op);
        record.push_str(&sample::call_line(&history.original, kind, reading, call, answer));
        None
    }
}

/// The first word in which two pairs of rooms differ.
pub fn first_other_word(twin: &Rooms, other: &Rooms) -> String {
    for kind in [Kind::Absolute, Kind::Suppressed] {
        let (twin, other) = (twin.of(kind), other.of(kind));
        if let Some(at) = twin.iter().zip(other).position(|(a, b)| a != b) {
            return format!("{kind:?} word {at} is {} and should be {}", other[at], twin[at]);
        }
    }
    "all words are right".to_string()
}

/// Ticket 2's answer, or that after an eviction for 10 or 12, and what the key holds after it.
fn judge_by_second_reading(
    history: &History,
    wanted: Expected,
    reading: u64,
    call: Call,
    answer: Answer,
) -> Result<(), Difference> {
    let History { settings, before, rooms, .. } = history;
    match second_fault(wanted, settings, before, rooms, reading, call, answer) {
        None => Ok(()),
        Some(fault) => Err(Difference(fault)),
    }
}

/// What is wrong with a call that the original answers otherwise or not at all, by a second reading of the rules.
pub fn second_fault(
    wanted: Expected,
    settings: &Settings,
    before: &Rooms,
    after: &Rooms,
    reading: u64,
    call: Call,
    answer: Answer,
) -> Option<String> {
    match wanted {
        Expected { at_rate_zero: true, .. } => {
            rate_zero::fault(settings, before, after, reading, call, answer)
        }
        Expected { takes_out: true, .. } => {
            taken_out::fault(settings, before, after, reading, call, answer)
        }
        _ => None,
    }
}

/// The original must have the NaN for which it is asked no more.
fn has_nan(history: &History, reading: u64, call: Call) -> Result<(), Difference> {
    let told = history.original.call(reading, call, &mut history.row_before.clone());
    match rate_zero::factor(told) {
        Some(factor) if factor.is_nan() => Ok(()),
        _ => Err(Difference(format!("the original answers {told:?}, which is no NaN"))),
    }
}

fn judge_by_original(
    history: &mut History,
    reading: u64,
    call: Call,
    answer: Answer,
) -> Result<(), Difference> {
    let mut row = history.row_before.clone();
    let told = history.original.call(reading, call, &mut row);
    let is_read_out = matches!(call.op, Op::ReadOut { .. });
    let skips = is_read_out && history.leaves_expired_out && kind(&call.op) == Kind::Absolute;
    if !skips && (told != answer || row != history.row) {
        return Err(Difference(format!("the original answers {told:?}")));
    }
    for kind in [Kind::Absolute, Kind::Suppressed] {
        if !history.agrees(kind) {
            return Err(Difference(format!("states (original, room): {:?}", history.states)));
        }
    }
    if history.leaves_expired_out {
        // Once the states are the same to the bucket again, nothing is left out any more.
        history.leaves_expired_out = false;
        history.leaves_expired_out = !history.agrees(Kind::Absolute);
    }
    Ok(())
}

fn show(history: &History, seed: Option<u64>, is_shared: bool, difference: &Difference) {
    let (slots, ring) = (history.rooms.absolute[0], history.rooms.absolute[1]);
    eprintln!("differs: {}", difference.0);
    eprintln!("  {:?}, slots {slots}, ring {ring}", history.settings);
    if let Some(seed) = seed {
        let word = if is_shared { "parties" } else { "history" };
        eprintln!("  run it alone: judge {word} {seed}{}", clock_word(history.settings.clock));
    }
    for given in &history.given {
        let Given { settings, reading, call, answer } = given;
        let note = if *settings == history.settings { "" } else { " (other settings)" };
        let Caller { party, first, second } = call.caller;
        let who = format!("party {party} of {first} and {second}");
        eprintln!("  t={reading} {who} key={:?} {:?}{note} -> {answer:?}", call.key, call.op);
    }
}
