//! Input for the programs of lines, desk and shots: good lines at the boundaries, and damaged ones.

use std::collections::BTreeMap;

use crate::random::Dice;

const TOP: u64 = 1 << 53;

fn settings_line(dice: &mut Dice, choice: &Choice) -> String {
    let window = dice.pick(&choice.windows);
    let bucket = dice.pick(&[1, 10, 100, 100, 1000, 2000, 4_294_967_296u64]);
    let factor = dice.pick(&choice.factors);
    let cache = dice.pick(&[1, 10, 100, 100, 1000, 4_294_967_296u64]);
    let line = format!("window={window} bucket={bucket} factor={factor} cache={cache}");
    match dice.below(40) {
        0 => line.replace("window=1", "window=0"),
        1 => line.replace("bucket=1", "bucket=0"),
        2 => line.replace("factor=1", "factor=0"),
        3 => line.replace("cache=1", "cache=0"),
        4 => line.replace(&format!("window={window}"), "window=33554433"),
        5 => line.replace(&format!("factor={factor}"), &format!("factor={}", TOP + 1)),
        _ => line,
    }
}

fn number(dice: &mut Dice, usual: u64) -> String {
    if !dice.once_in(60) {
        return usual.to_string();
    }
    let most = u128::from(u64::MAX);
    let odd = [
        "0".to_string(),
        TOP.to_string(),
        (TOP - 1).to_string(),
        (TOP + 1).to_string(),
        most.to_string(),
        (most + 1).to_string(),
        (most * 10 + 9).to_string(),
        format!("0{usual}"),
        "00".to_string(),
        String::new(),
        format!("+{usual}"),
        format!("{usual}a"),
    ];
    odd[dice.below(odd.len() as u64) as usize].clone()
}

fn key(dice: &mut Dice, most_keys: u64) -> String {
    match dice.below(60) {
        0 => String::new(),
        1 => "k".repeat(32),
        2 => "k".repeat(33),
        3 => "0".to_string(),
        4 => "K".to_string(),
        5 => "a=b".to_string(),
        _ => char::from(b'a' + dice.below(most_keys) as u8).to_string(),
    }
}

/// The reading of the next line, which mostly rises.
fn reading(dice: &mut Dice, now: &mut u64, most_keys: u64) -> u64 {
    let rises = [0, 0, 1, 2, 10, 50, 99, 100, 101, 500, 999, 1000, 1001, 9999, 10_000, 10_001];
    // With one key the reading mostly rises little, so that it gathers buckets.
    let is_long = most_keys > 1 || dice.once_in(100);
    *now += dice.pick(if is_long { &rises } else { &rises[..9] });
    match dice.below(50) {
        0 => now.saturating_sub(1),
        _ => *now,
    }
}

fn desk_line(dice: &mut Dice, now: &mut u64, most_keys: u64) -> String {
    let t = reading(dice, now, most_keys);
    let op = dice.pick(&["ainc", "ainc", "sinc", "sinc", "sinc", "aget", "sget"]);
    let op = if dice.once_in(100) { dice.pick(&["inc", "", "aincx", "SINC"]) } else { op };
    let rate = dice.pick(&[1, 3, 3, 6, 60, 60, 120, 600, 600, 0, TOP]);
    let count = dice.pick(&[0, 1, 1, 2, 3, 5, 8, 10, 20, 60]);
    let draw = dice.pick(&[0, 0, TOP - 1, TOP / 2, TOP / 2 - 1, TOP / 3]);
    let t = if dice.once_in(10) { number(dice, t) } else { t.to_string() };
    let key = key(dice, most_keys);
    let (rate, count, draw) = (number(dice, rate), number(dice, count), number(dice, draw));
    format!("t={t} op={op} key={key} rate={rate} n={count} draw={draw}")
}

/// The number that a controller's next shot has: mostly the one after the last that was sent, or that one again.
fn shot_number(dice: &mut Dice, sent: u64) -> u64 {
    match dice.below(24) {
        0 => dice.pick(&[0, 1, (1 << 32) - 2, (1 << 32) - 1, 1 << 32]),
        1 | 2 => 1 + dice.below(6),
        3..=8 => sent.max(1),
        9 => sent.saturating_sub(1),
        _ => sent + 1,
    }
}

/// A controller's number is kept among those sent, unless it is one at the ends.
fn shot_line(dice: &mut Dice, now: &mut u64, most_keys: u64, sent: &mut Sent) -> String {
    let t = reading(dice, now, most_keys);
    // A crowd is to be admitted, others to be turned away now and then.
    let rates = if most_keys > 5 { [60, 60, 600, 600, 600, TOP] } else { [3, 6, 12, 12, 30, 60] };
    let rate = if dice.once_in(20) { 0 } else { dice.pick(&rates) };
    let draw = dice.pick(&[0, 0, TOP - 1, TOP / 2, TOP / 2 - 1, TOP / 3]);
    let t = if dice.once_in(10) { number(dice, t) } else { t.to_string() };
    // More controllers than a table knows, first one after another.
    let crowd = 68;
    let next = if sent.len() < crowd { sent.len() } else { dice.below(crowd as u64) as usize };
    let ctl = match most_keys > 5 && !dice.once_in(8) {
        true => format!("c{next}"),
        false => key(dice, most_keys),
    };
    let last = sent.entry(ctl.clone()).or_default();
    let shot = shot_number(dice, *last);
    if shot <= *last + 1 {
        *last = shot.max(*last);
    }
    let (rate, shot, draw) = (number(dice, rate), number(dice, shot), number(dice, draw));
    format!("t={t} ctl={ctl} shot={shot} rate={rate} draw={draw}")
}

/// The greatest number that each controller has sent one after another.
type Sent = BTreeMap<String, u64>;

/// Which program the lines are for.
#[derive(Clone, Copy, PartialEq, Eq)]
pub enum Program {
    Desk,
    Shots,
}

/// What an input's keys and settings are chosen from.
struct Choice {
    keys: [u64; 4],
    windows: [u64; 8],
    factors: [u64; 8],
}

impl Program {
    /// Desk has slots for 4 keys. Shots count 1: they come between limits that are not too near.
    fn choice(self) -> Choice {
        match self {
            Program::Desk => Choice {
                keys: [1, 2, 3, 5],
                windows: [1, 1, 2, 10, 10, 10, 60, 33_554_432],
                factors: [1, 1, 2, 2, 3, 4, 1000, TOP],
            },
            Program::Shots => Choice {
                keys: [1, 3, 10, 10],
                windows: [1, 10, 10, 10, 10, 10, 60, 33_554_432],
                factors: [1, 2, 3, 3, 4, 4, 5, TOP],
            },
        }
    }
}

/// One byte gone, doubled, changed or put in, or all from it on gone.
pub fn damage(dice: &mut Dice, bytes: &mut Vec<u8>) {
    let at = dice.below(bytes.len() as u64) as usize;
    let other = dice.pick(b" =azAZ09\r\t\0-.\x7f\xff/:`{");
    match dice.below(5) {
        0 => drop(bytes.remove(at)),
        1 => bytes.insert(at, bytes[at]),
        2 => bytes[at] = other,
        3 => bytes.insert(at, other),
        _ => bytes.truncate(at),
    }
}

/// The line, now and then damaged.
fn damaged(dice: &mut Dice, line: String) -> Vec<u8> {
    let mut bytes = line.into_bytes();
    if !bytes.is_empty() && dice.once_in(30) {
        damage(dice, &mut bytes);
    }
    bytes
}

/// One input in so many fills a ring.
const FILLING: u64 = 8;

/// Its windows and buckets, by turns. The programs' rings of 298 just suffice for the first, the defaults; with the others 12 is met.
const SPANS: [(u64, u64); 3] = [(30, 100), (30, 99), (60, 100)];

/// A key's ring fills, which takes some 350 lines: increments of one limiter, or shots, come b + 1 ms after one another; now and then a line
/// more stands at the same reading.
fn filling(program: Program, lines: u64, turn: u64) -> Vec<u8> {
    let mut dice = Dice::new(turn);
    let (window, bucket) = SPANS[turn as usize % SPANS.len()];
    let usual = if turn.is_multiple_of(2) { "ainc" } else { "sinc" };
    let any = ["ainc", "sinc", "aget", "sget"];
    let (mut now, mut shot) = (0, 0);
    let mut input = format!("window={window} bucket={bucket} factor=2 cache=100\n");
    for _ in 0..lines {
        let (op, key) = match dice.once_in(8) {
            true => (dice.pick(&any), dice.pick(&["a", "b"])),
            false => {
                now += bucket + 1;
                shot += 1;
                (usual, "a")
            }
        };
        let (count, draw) = (dice.below(3), dice.below(TOP));
        input += &match program {
            Program::Desk => {
                format!("t={now} op={op} key={key} rate={TOP} n={count} draw={draw}\n")
            }
            Program::Shots => format!("t={now} ctl={key} shot={shot} rate={TOP} draw={draw}\n"),
        };
    }
    input.into_bytes()
}

/// A whole input of so many call lines.
pub fn input(program: Program, lines: u64, seed: u64) -> Vec<u8> {
    if seed.is_multiple_of(FILLING) {
        return filling(program, lines, seed / FILLING);
    }
    let mut dice = Dice::new(seed);
    if dice.once_in(50) {
        return Vec::new();
    }
    let mut now = dice.pick(&[0, 0, 0, 5, u64::MAX - 40_000_000]);
    let choice = program.choice();
    let most_keys = dice.pick(&choice.keys);
    let mut sent = Sent::new();
    let settings = settings_line(&mut dice, &choice);
    let mut input = damaged(&mut dice, settings);
    for _ in 0..lines {
        let line = match program {
            Program::Desk => desk_line(&mut dice, &mut now, most_keys),
            Program::Shots => shot_line(&mut dice, &mut now, most_keys, &mut sent),
        };
        input.push(b'\n');
        input.extend(damaged(&mut dice, line));
    }
    if !dice.once_in(3) {
        input.push(b'\n');
    }
    input
}
