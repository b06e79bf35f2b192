//! The lines that desk prints, read back (ticket 1): on any line the twin, the Rattle code and a
//! second reading, which prints again what it has read, must agree.

use std::collections::BTreeMap;
use std::fmt;

use twin::calls::Answer;
use twin::desk::desk;
use twin::readback::{ReadBack, Said, read_back};
use twin::rules::Refusal;
use twin::shots::shots;

use crate::compare::who;
use crate::input_lines::{Program, input};
use crate::lines_check::{fields, lines, number};
use crate::others;
use crate::printed_lines::{Meant, changed, long, misformed, of_bytes, of_parts, other_bytes};
use crate::random::Dice;

/// A line's meaning as the C face tells it: 0 or the refusal, the case, t, two numbers of the case,
/// total and declined.
pub type Row = [u64; 7];

const BAD: Row = [14, 0, 0, 0, 0, 0, 0];

/// The readers besides the twin.
#[cfg(archive)]
const OTHERS: &[fn(&[u8]) -> Row] = &[crate::rattle::read_line];
#[cfg(not(archive))]
const OTHERS: &[fn(&[u8]) -> Row] = &[];

/// How many differing lines are printed, and how much of one.
const SHOWN: u64 = 3;
const SHOWN_BYTES: usize = 200;

/// So many lines at least, for all that must come to come.
const LEAST: u64 = 10_000;

/// A round has so many lines of each program, one long line, every byte at so many places of
/// printed ones, and so many others.
const OF_A_PROGRAM: u64 = 200;
const PLACES: usize = 2;
const OTHERS_OF_A_ROUND: u64 = 1_600;

fn row(meant: &Meant) -> Row {
    let Meant { t, answer, total, declined } = *meant;
    let (case, x, y) = match answer {
        Answer::Allowed => (1, 0, 0),
        Answer::Rejected { wait, left, .. } => (2, wait, left),
        Answer::Suppressed { factor, admitted } => (3, factor, u64::from(admitted)),
        Answer::Snapshot { factor, .. } => (5, factor, 0),
        Answer::Refused(code) => return [0, 6, t, code, 0, 0, 0],
        other => unreachable!("no line of desk has {other:?}"),
    };
    [0, case, t, x, y, total, declined]
}

/// What the twin reads.
fn twin_row(line: &[u8]) -> Row {
    let ReadBack { reading, said, total, declined } = match read_back(line) {
        Ok(read) => read,
        Err(Refusal(number)) => return [number, 0, 0, 0, 0, 0, 0],
    };
    let (case, x, y) = match said {
        Said::Allowed => (1, 0, 0),
        Said::Rejected { wait, left } => (2, wait, left),
        Said::Suppressed { factor, admitted } => (3, factor.to_bits(), u64::from(admitted)),
        Said::Value { factor } => (5, factor.to_bits(), 0),
        Said::Refused(Refusal(number)) => (6, number, 0),
    };
    [0, case, reading, x, y, total, declined]
}

/// What the texts behind the equals signs come to, whatever form the numbers have.
fn taken(line: &[u8]) -> Option<Meant> {
    let text: String = line.iter().map(|byte| char::from(*byte)).collect();
    let values: Vec<&str> =
        text.split(' ').filter_map(|field| Some(field.split_once('=')?.1)).collect();
    let [t, code, word, factor, wait, left, total, declined] = values[..] else {
        return None;
    };
    let factor = u64::from_str_radix(factor, 16).ok()?;
    let (wait, left): (u64, u64) = (wait.parse().ok()?, left.parse().ok()?);
    let (total, declined) = (total.parse().ok()?, declined.parse().ok()?);
    let answer = match word {
        "allowed" => Answer::Allowed,
        "rejected" => Answer::Rejected { window: 0, wait, left },
        "yes" => Answer::Suppressed { factor, admitted: true },
        "no" => Answer::Suppressed { factor, admitted: false },
        "value" => Answer::Snapshot { total, declined, factor },
        "refused" => Answer::Refused(code.parse().ok()?),
        _ => return None,
    };
    Some(Meant { t: t.parse().ok()?, answer, total, declined })
}

/// The second reading: what a line comes to, if that is in its ranges and prints as the line.
fn second_row(line: &[u8]) -> Row {
    let is_it = |meant: &Meant| meant.is_in_range() && meant.line().as_bytes() == line;
    taken(line).filter(is_it).map_or(BAD, |meant| row(&meant))
}

/// What is known of a line by the way it was made.
#[derive(Clone, Copy)]
enum Due {
    Reads(Row),
    ReadsWell,
    Bad,
    Either,
}

impl Due {
    fn fits(self, told: Row) -> bool {
        match self {
            Due::Reads(row) => told == row,
            Due::ReadsWell => told[0] == 0,
            Due::Bad => told == BAD,
            Due::Either => true,
        }
    }
}

/// How a line was made. Of each sort so many in a hundred must be read, and so many refused.
struct Sort {
    name: &'static str,
    read: u64,
    bad: u64,
}

const PRINTED: usize = 0;
const PAST: usize = 1;
const MISFORMED: usize = 2;
const CHANGED: usize = 3;
const OF_PARTS: usize = 4;
const OF_BYTES: usize = 5;
const LONG: usize = 6;
const OF_DESK: usize = 7;
const OF_SHOTS: usize = 8;

const SORTS: [Sort; 9] = [
    Sort { name: "printed", read: 100, bad: 0 },
    Sort { name: "past a range", read: 0, bad: 100 },
    Sort { name: "misformed", read: 0, bad: 100 },
    Sort { name: "changed", read: 4, bad: 40 },
    Sort { name: "of parts", read: 2, bad: 40 },
    Sort { name: "of any bytes", read: 0, bad: 100 },
    Sort { name: "long", read: 0, bad: 100 },
    Sort { name: "desk's", read: 100, bad: 0 },
    Sort { name: "shots'", read: 20, bad: 2 },
];

/// Whether it is a line that shots prints and desk does not: a shot held, or a number of its own.
fn is_of_shots_alone(line: &str) -> bool {
    let names = ["t", "code", "answer", "factor", "wait", "left", "total", "declined"];
    let [_, code, word, ..] = fields(line, names).expect("a printed line");
    word == "held" || number(code).expect("a number") > 14
}

/// What is told by a line that was read.
fn name(row: Row) -> String {
    match row {
        [_, 1, ..] => "allowed".to_string(),
        [_, 2, ..] => "rejected".to_string(),
        [_, 3, _, _, admitted, ..] => if admitted == 1 { "yes" } else { "no" }.to_string(),
        [_, 5, ..] => "value".to_string(),
        [_, _, _, number, ..] => number.to_string(),
    }
}

/// All of these must come.
fn all_names() -> impl Iterator<Item = String> {
    let words = ["allowed", "rejected", "yes", "no", "value"];
    words.map(str::to_string).into_iter().chain((1..=14).map(|number| number.to_string()))
}

/// The counts.
pub struct ReadBacks {
    lines: u64,
    with_others: u64,
    /// Of each sort: lines read, and lines refused.
    sorts: [(u64, u64); SORTS.len()],
    /// Lines read, by what they tell.
    told: BTreeMap<String, u64>,
    pub differed: u64,
    /// So many differing lines end the run.
    most_differing: u64,
}

impl fmt::Display for ReadBacks {
    fn fmt(&self, f: &mut fmt::Formatter) -> fmt::Result {
        let ReadBacks { lines, with_others, sorts, told, differed, .. } = self;
        write!(f, "lines read back: {lines} lines (read and 14:")?;
        for (Sort { name, .. }, (read, bad)) in SORTS.iter().zip(sorts) {
            write!(f, " {name} {read} and {bad},")?;
        }
        write!(f, " of those read")?;
        for name in all_names() {
            write!(f, " {name}: {}", told.get(&name).unwrap_or(&0))?;
        }
        write!(f, "); {}; {differed} differed", who(&others(), *with_others))
    }
}

impl ReadBacks {
    pub fn new(most_differing: u64) -> Self {
        let (sorts, told) = ([(0, 0); SORTS.len()], BTreeMap::new());
        ReadBacks { lines: 0, with_others: 0, sorts, told, differed: 0, most_differing }
    }

    pub fn goes_on(&self) -> bool {
        self.differed < self.most_differing
    }

    /// So many lines of all sorts.
    pub fn run(&mut self, lines: u64, seed: u64) {
        let mut dice = Dice::new(seed);
        let mut turns = 0..;
        while self.lines < lines.max(LEAST) && self.goes_on() {
            self.put_programs(dice.any());
            self.put(LONG, &long(&mut dice), Due::Bad);
            for line in turns.by_ref().take(PLACES).flat_map(other_bytes) {
                self.put(CHANGED, &line, Due::Either);
            }
            for _ in 0..OTHERS_OF_A_ROUND {
                self.put_other(&mut dice);
            }
        }
        if self.goes_on() {
            self.judge_shares();
        }
    }

    /// Lines that the two programs print, all of desk's and those of shots that are like them.
    fn put_programs(&mut self, seed: u64) {
        for line in lines(&desk(&input(Program::Desk, OF_A_PROGRAM, seed))) {
            self.put(OF_DESK, line.as_bytes(), Due::ReadsWell);
        }
        for line in lines(&shots(&input(Program::Shots, OF_A_PROGRAM, seed))) {
            let due = if is_of_shots_alone(&line) { Due::Bad } else { Due::ReadsWell };
            self.put(OF_SHOTS, line.as_bytes(), due);
        }
    }

    fn put_other(&mut self, dice: &mut Dice) {
        match dice.below(16) {
            0..=3 => {
                let meant = Meant::any(dice);
                self.put(PRINTED, meant.line().as_bytes(), Due::Reads(row(&meant)));
            }
            4 | 5 => self.put(PAST, Meant::past(dice).line().as_bytes(), Due::Bad),
            6..=8 => self.put(MISFORMED, misformed(dice).as_bytes(), Due::Bad),
            9..=12 => self.put(CHANGED, &changed(dice), Due::Either),
            13 | 14 => self.put(OF_PARTS, of_parts(dice).as_bytes(), Due::Either),
            _ => self.put(OF_BYTES, &of_bytes(dice), Due::Bad),
        }
    }

    /// Puts a line to all readers.
    fn put(&mut self, sort: usize, line: &[u8], due: Due) {
        let second = second_row(line);
        self.lines += 1;
        if second == BAD {
            self.sorts[sort].1 += 1;
        } else {
            self.sorts[sort].0 += 1;
            *self.told.entry(name(second)).or_default() += 1;
        }
        let twin = twin_row(line);
        let fault = match due.fits(second) {
            false => Some(format!("the second reading is {second:?}")),
            true if twin != second => Some(format!("the twin reads {twin:?}, not {second:?}")),
            true => self.others_fault(line, second),
        };
        if let Some(fault) = fault {
            let (name, bytes) = (SORTS[sort].name, line.len());
            let shown = line[..bytes.min(SHOWN_BYTES)].escape_ascii();
            self.differ(&format!("a line ({name}): {fault}: \"{shown}\" ({bytes} bytes)"));
        }
    }

    /// In what one of the others differs.
    fn others_fault(&mut self, line: &[u8], wanted: Row) -> Option<String> {
        self.with_others += OTHERS.len() as u64;
        let told = OTHERS.iter().map(|reader| reader(line)).find(|told| *told != wanted)?;
        Some(format!("the Rattle code reads {told:?}, not {wanted:?}"))
    }

    fn differ(&mut self, fault: &str) {
        self.differed += 1;
        if self.differed <= SHOWN {
            eprintln!("differs: {fault}");
        }
    }

    /// Enough lines of each sort are read, and enough refused; what may be told was.
    fn judge_shares(&mut self) {
        for (Sort { name, read, bad }, (was_read, was_bad)) in SORTS.iter().zip(self.sorts) {
            let all = was_read + was_bad;
            if all == 0 || 100 * was_read < read * all || 100 * was_bad < bad * all {
                self.differ(&format!("lines ({name}): {was_read} were read, {was_bad} refused"));
            }
        }
        for name in all_names().filter(|name| !self.told.contains_key(name)).collect::<Vec<_>>() {
            self.differ(&format!("no line that was read tells {name}"));
        }
    }
}
