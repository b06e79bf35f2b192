//! One call on any words: the twin, the others and the second reading of the refusals, and of a factor at perceived rate zero, must agree.

use std::collections::{BTreeMap, HashSet};
use std::fmt;
use std::hash::{DefaultHasher, Hash, Hasher};

use twin::calls::{Answer, Call, Limiters, Op, Rooms, Row, Twin};
use twin::rules::{Kind, Settings};

use crate::compare::{UNTOUCHED, first_other_word, second_fault, who};
use crate::expected::{UNUSED, expected};

/// How many differing calls are printed.
const SHOWN: u64 = 3;

/// The counts, and the implementations besides the twin.
pub struct Trials {
    others: Vec<Box<dyn Limiters>>,
    /// Rooms that no call made, and a mark of each.
    pub damaged: u64,
    marks: HashSet<u64>,
    /// Of these the long rings, by what was done to them: all, and the sound ones.
    long: BTreeMap<&'static str, (u64, u64)>,
    calls: u64,
    with_others: u64,
    /// Rooms made by the C face.
    faces: u64,
    /// Calls by the refusal they met; not refused at 0.
    by_number: [u64; 17],
    /// Of those not refused: a factor is worked out at perceived rate zero.
    at_rate_zero: u64,
    pub differed: u64,
    before: Rooms,
    told: Rooms,
}

impl fmt::Display for Trials {
    fn fmt(&self, f: &mut fmt::Formatter) -> fmt::Result {
        let Trials { damaged, marks, calls, by_number, at_rate_zero, differed, .. } = self;
        let who = who(&self.others, self.with_others);
        write!(f, "{damaged} damaged rooms ({} distinct", marks.len())?;
        let all: u64 = self.long.values().map(|(all, _)| all).sum();
        write!(f, "; {all} long rings")?;
        for (damage, (all, sound)) in &self.long {
            write!(f, ", {damage}: {all}, {sound} sound")?;
        }
        write!(f, "), {calls} calls")?;
        write!(f, " ({} not refused, {at_rate_zero} at perceived rate zero;", by_number[0])?;
        for (number, times) in by_number.iter().enumerate().skip(1) {
            write!(f, " {number}: {times}")?;
        }
        write!(f, "); {who}")?;
        if self.faces > 0 {
            write!(f, "; {} calls that make rooms", self.faces)?;
        }
        write!(f, "; {differed} differed")
    }
}

impl Trials {
    pub fn new(others: Vec<Box<dyn Limiters>>) -> Self {
        let none = Rooms { absolute: vec![], suppressed: vec![] };
        Trials {
            others,
            damaged: 0,
            marks: HashSet::new(),
            long: BTreeMap::new(),
            calls: 0,
            with_others: 0,
            faces: 0,
            by_number: [0; 17],
            at_rate_zero: 0,
            differed: 0,
            before: none.clone(),
            told: none,
        }
    }

    pub fn calls(&self) -> u64 {
        self.calls
    }

    pub fn with_others(&self) -> u64 {
        self.with_others
    }

    /// A room that no call made is about to be tried.
    pub fn count_room(&mut self, kind: Kind, room: &[u64]) {
        let mut hasher = DefaultHasher::new();
        (kind == Kind::Absolute, room).hash(&mut hasher);
        self.damaged += 1;
        self.marks.insert(hasher.finish());
    }

    /// The next room that no call made has a long ring.
    pub fn count_long(&mut self, damage: &'static str, is_sound: bool) {
        let (all, sound) = self.long.entry(damage).or_default();
        *all += 1;
        *sound += u64::from(is_sound);
    }

    /// So many other functions of the C face were called, and so many of them differed.
    #[cfg(archive)]
    pub fn count_faces(&mut self, (calls, differed): (u64, u64)) {
        self.faces += calls;
        self.differed += differed;
    }

    /// Puts a call to all; the rooms are left as the twin leaves them.
    pub fn put(
        &mut self,
        settings: &Settings,
        rooms: &mut Rooms,
        reading: u64,
        call: Call,
    ) -> Answer {
        let wanted = expected(settings, rooms, reading, call);
        self.before.clone_from(rooms);
        let untouched: Row = vec![UNTOUCHED; self.row_length(call.op)];
        let mut row = untouched.clone();
        let answer = Twin.call(settings, rooms, reading, call, &mut row);
        let refusal = if let Answer::Refused(number) = answer { number } else { 0 };
        self.calls += 1;
        self.by_number[refusal as usize] += 1;
        self.at_rate_zero += u64::from(wanted.at_rate_zero);
        let fault = if refusal != wanted.refusal || refusal == UNUSED {
            Some(format!("refusal {} expected", wanted.refusal))
        } else if refusal != 0 && (*rooms != self.before || row != untouched) {
            Some("a refusal changes words".to_string())
        } else {
            second_fault(wanted, settings, &self.before, rooms, reading, call, answer)
        };
        let fault =
            fault.or_else(|| self.others_fault(settings, rooms, reading, call, answer, &row));
        if let Some(fault) = fault {
            self.differed += 1;
            if self.differed <= SHOWN {
                eprintln!("differs: {fault}; the twin answers {answer:?}");
                eprintln!("  {settings:?} t={reading} {call:?}\n  {:?}", self.before);
            }
        }
        answer
    }

    /// How long a read-out's row is: a short one, one that most rings fit in, or now and then one that all do. No other call has one.
    fn row_length(&self, op: Op) -> usize {
        match op {
            Op::ReadOut { .. } if self.calls.is_multiple_of(16) => 513,
            Op::ReadOut { .. } if self.calls.is_multiple_of(2) => 4,
            Op::ReadOut { .. } => 40,
            _ => 0,
        }
    }

    /// In what one of the others differs from the twin.
    fn others_fault(
        &mut self,
        settings: &Settings,
        rooms: &Rooms,
        reading: u64,
        call: Call,
        answer: Answer,
        row: &Row,
    ) -> Option<String> {
        for other in &self.others {
            self.with_others += 1;
            self.told.clone_from(&self.before);
            let mut told_row: Row = vec![UNTOUCHED; row.len()];
            let told = other.call(settings, &mut self.told, reading, call, &mut told_row);
            if told != answer || self.told != *rooms || told_row != *row {
                let place = first_other_word(rooms, &self.told);
                let name = other.name();
                return Some(format!("{name} answers {told:?}; {place}, row {told_row:?}"));
            }
        }
        None
    }
}
