//! The twin's desk against a second reading of its lines, with every call put to the original as well.

use twin::calls::{Answer, Call, Op};
use twin::desk::desk;
use twin::parties::{Caller, SOLE};
use twin::rules::Kind;

use crate::compare::{Comparison, History};
use crate::expected::kind;
use crate::input_lines::{Program, input};
use crate::lines_check::{begun, differs, fields, key, lines, number, rate, refused, stored, told};
use crate::state::Key;

/// The rooms that desk holds.
const SLOTS: usize = 4;
const RING: usize = 298;

/// Refusals that the lines of a run must meet: each slot is another key's, and the ring is full.
const COMES: [&str; 2] = ["code=11", "code=12"];

/// So many inputs at least, for both to come.
const LEAST: u64 = 24;

fn call(line: &str) -> Option<(u64, String, Op)> {
    let names = ["t", "op", "key", "rate", "n", "draw"];
    let [t, op, name, per_minute, n, draw] = fields(line, names)?;
    let (rate, count, draw) = (rate(per_minute)?, number(n)?, number(draw)?);
    let op = match op {
        "ainc" => Op::AbsoluteInc { rate, count },
        "aget" => Op::AbsoluteGet,
        "sinc" => Op::SuppressedInc { rate, count, draw },
        "sget" => Op::SuppressedGet,
        _ => return None,
    };
    Some((number(t)?, key(name)?, op))
}

/// The key's totals as its room has them, or those that a get answers.
fn totals(history: &History, kind: Kind, key: &str, answer: Answer) -> (u64, u64) {
    match answer {
        Answer::Total(total) => (total, 0),
        Answer::Snapshot { total, declined, .. } => (total, declined),
        _ => stored(history.rooms.of(kind), key.as_bytes()),
    }
}

/// What desk should print.
fn wanted(comparison: &mut Comparison, lines: &[String], keys: &[Key]) -> String {
    let settings = match begun(lines) {
        Ok(settings) => settings,
        Err(line) => return line,
    };
    let mut history = History::new(settings, SLOTS, RING, keys);
    let caller = Caller { party: SOLE, first: SLOTS as u64, second: 0 };
    comparison.begin(&history);
    let mut out = String::new();
    let mut is_compared = true;
    for line in &lines[1..] {
        let Some((t, key, op)) = call(line) else {
            out.push_str(&refused(0, 14));
            continue;
        };
        let Some(key) = keys.iter().find(|known| known.text == key) else {
            unreachable!("a key that no line has: {key}");
        };
        let call = Call { caller, key: &key.bytes, op };
        match is_compared {
            true => is_compared = comparison.step(&mut history, &settings, t, call),
            false => comparison.step_without_original(&mut history, t, call),
        }
        let answer = history.last_answer();
        let (total, declined) = totals(&history, kind(&op), &key.text, answer);
        out.push_str(&told(t, answer, total, declined));
    }
    out
}

/// So many inputs.
pub fn run(comparison: &mut Comparison, inputs: u64, seed: u64) {
    let mut met = [false; COMES.len()];
    for at in 0..inputs.max(LEAST) {
        if !comparison.goes_on() {
            return;
        }
        let input = input(Program::Desk, 500, seed.wrapping_add(at));
        let lines = lines(&input);
        let mut names: Vec<String> = lines.iter().filter_map(|line| Some(call(line)?.1)).collect();
        names.sort();
        names.dedup();
        let keys: Vec<Key> = names.iter().map(|name| Key::new(SOLE, name.as_bytes())).collect();
        let wanted = wanted(comparison, &lines, &keys);
        for (met, code) in met.iter_mut().zip(COMES) {
            *met |= wanted.contains(code);
        }
        if let Some(fault) = differs("desk", &input, &desk(&input), &wanted) {
            comparison.differed += 1;
            eprintln!("{fault}");
        }
    }
    for (_, code) in met.iter().zip(COMES).filter(|(met, _)| !**met) {
        comparison.differed += 1;
        eprintln!("differs: no line of desk was told {code}");
    }
}
