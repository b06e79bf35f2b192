//! What tickets 12 and 6 say of a call of the gateway, read a second time: from a table's entries as bytes, with the limiter asked as it is,
//! but for its refusals and its answer at perceived rate zero, which are read a second time too.

use twin::calls::{Answer, Asked, Call, Limiters, Op, Twin};
use twin::gateway::Shot;
use twin::parties::Caller;
use twin::rules::Settings;

use crate::expected::{HEADER, expected, holder, set_holder, settings_fault};
use crate::loaded::packed;
use crate::rate_zero;
use crate::shots::Memory;

const ENTRY: usize = 6;
const MOST: u64 = 64;
const WORDS: usize = 5 + 64 * ENTRY;
const NUMBERS: u64 = 1 << 32;

/// What a table says of a controller.
enum Says {
    Unsound,
    Last { at: usize, number: u64 },
    New { at: usize },
}

/// The entries of a table that are in use, each with its holder, if it has the length and the header of one.
fn entries(table: &[u64]) -> Option<impl Iterator<Item = (u64, &[u64])>> {
    match table {
        [known @ 0..=MOST, 0, 0, ..] if table.len() == WORDS => {
            let all = table[HEADER..].chunks(ENTRY).enumerate();
            Some(all.map(|(at, entry)| (holder(table, at), entry)).take(*known as usize))
        }
        _ => None,
    }
}

/// Whether an entry's key is the controller's name, and zeros behind it; one that is held has no controller's.
fn is_of(holder: u64, entry: &[u64], controller: &[u8]) -> bool {
    if holder != 0 {
        return false;
    }
    let bytes = entry[2..].iter().flat_map(|word| word.to_le_bytes());
    let padded = controller.iter().copied().chain(std::iter::repeat(0)).take(32);
    controller.len() <= 32 && entry[1] == controller.len() as u64 && bytes.eq(padded)
}

fn says(table: &[u64], controller: &[u8]) -> Says {
    let Some(entries) = entries(table) else {
        return Says::Unsound;
    };
    let own: Vec<(usize, u64)> = entries
        .enumerate()
        .filter(|(_, (holder, entry))| is_of(*holder, entry, controller))
        .map(|(at, (_, entry))| (at, entry[0]))
        .collect();
    match own[..] {
        [] => Says::New { at: table[0] as usize },
        [(at, number @ 1..NUMBERS)] => Says::Last { at, number },
        _ => Says::Unsound,
    }
}

/// What a call must answer, and whether a factor is worked out at perceived rate zero.
#[derive(Clone, Copy)]
pub struct Foreseen {
    pub answer: Answer,
    pub at_rate_zero: bool,
}

impl From<Answer> for Foreseen {
    fn from(answer: Answer) -> Self {
        Foreseen { answer, at_rate_zero: false }
    }
}

/// The limiter's answer to an increment of 1, which leaves its words in the room.
fn limiter(
    settings: &Settings,
    memory: &mut Memory,
    reading: u64,
    caller: Caller,
    shot: Shot,
) -> Foreseen {
    let op = Op::SuppressedInc { rate: shot.rate, count: 1, draw: shot.draw };
    let call = Call { caller, key: shot.controller, op };
    let wanted = expected(settings, &memory.rooms, reading, call);
    if wanted.refusal != 0 {
        return Answer::Refused(wanted.refusal).into();
    }
    let answer = Twin.call(settings, &mut memory.rooms, reading, call, &mut vec![]);
    match wanted.at_rate_zero {
        true => Foreseen { answer: rate_zero::due(op), at_rate_zero: true },
        false => answer.into(),
    }
}

fn shot(
    settings: &Settings,
    memory: &mut Memory,
    reading: u64,
    caller: Caller,
    shot: Shot,
) -> Foreseen {
    let Shot { controller, number, .. } = shot;
    if number == 0 || number >= NUMBERS {
        return Answer::Refused(19).into();
    }
    let at = match says(&memory.table, controller) {
        Says::Unsound => {
            let fault = settings_fault(settings);
            return Answer::Refused(if fault == 0 { 5 } else { fault }).into();
        }
        Says::Last { number: last, .. } if last > number => return Answer::Refused(20).into(),
        Says::Last { number: last, .. } if last == number => return Answer::Held.into(),
        Says::New { at } if at == MOST as usize => return Answer::Refused(21).into(),
        Says::Last { at, .. } | Says::New { at } => at,
    };
    let foreseen = limiter(settings, memory, reading, caller, shot);
    if is_admitted(foreseen.answer) {
        let table = &mut memory.table;
        set_holder(table, at, 0);
        table[HEADER + ENTRY * at] = number;
        table[HEADER + ENTRY * at + 1..][..5].copy_from_slice(&packed(controller));
        table[0] = table[0].max(at as u64 + 1);
    }
    foreseen
}

pub fn is_admitted(answer: Answer) -> bool {
    matches!(answer, Answer::Allowed | Answer::Suppressed { admitted: true, .. })
}

/// The answer; the memory becomes what the call must leave.
pub fn foreseen(settings: &Settings, memory: &mut Memory, reading: u64, asked: Asked) -> Foreseen {
    let is_table = match asked {
        Asked::Shot(caller, given) => return shot(settings, memory, reading, caller, given),
        Asked::NewSeason => entries(&memory.table).is_some(),
        Asked::MakeTable => memory.table.len() == WORDS,
    };
    if !is_table {
        return Answer::Refused(5).into();
    }
    memory.table = vec![0; WORDS];
    Answer::Done.into()
}
