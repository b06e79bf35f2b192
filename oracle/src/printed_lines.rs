//! Lines for readers of what desk prints: those that it may print, those with a value past its
//! range, misformed and changed ones, and others made of a line's parts or of any bytes.

use twin::calls::Answer;

use crate::input_lines::damage;
use crate::lines_check::told;
use crate::random::Dice;

const TOP: u64 = 1 << 53;
const ONE: u64 = 1f64.to_bits();
const NEGATIVE: u64 = 1 << 63;

/// The places of a line's fields.
const CODE: usize = 1;
const WORD: usize = 2;
const FACTOR: usize = 3;
const NUMBERS: [usize; 6] = [0, CODE, 4, 5, 6, 7];
const FIELDS: u64 = 8;

/// What a line means. The answer is a decision, a value as a snapshot's, or a refusal.
#[derive(Clone, Copy, Debug)]
pub struct Meant {
    pub t: u64,
    pub answer: Answer,
    pub total: u64,
    pub declined: u64,
}

/// Bad settings and bad lines are told at t=0.
fn is_without_reading(code: u64) -> bool {
    matches!(code, 1..=4 | 14)
}

/// Any number. Decimals of every length come often.
fn any_number(dice: &mut Dice) -> u64 {
    let power = 10u64.pow(dice.below(20) as u32);
    let (any, shift) = (dice.any(), dice.below(64));
    dice.pick(&[0, 1, u64::MAX, u64::MAX - 1, power, power - 1, any, any >> shift, any >> shift])
}

fn totals(dice: &mut Dice) -> (u64, u64) {
    let any = dice.below(TOP + 1) >> dice.below(54);
    let total = dice.pick(&[0, 1, TOP - 1, TOP, any, any, any, any]);
    let part = dice.below(total + 1);
    (total, dice.pick(&[0, total, part, part]))
}

/// The bits of a factor: the ends, their neighbours, usual ones and any, which are mostly tiny.
fn factor(dice: &mut Dice) -> u64 {
    let usual = (dice.below(TOP + 1) as f64 / TOP as f64).to_bits();
    let any = dice.below(ONE + 1);
    dice.pick(&[0, 1, ONE, ONE - 1, 0.5f64.to_bits(), usual, usual, usual, any])
}

/// An answer that is no refusal.
fn answer(dice: &mut Dice) -> Answer {
    let (window, factor) = (dice.any(), factor(dice));
    match dice.below(5) {
        0 => Answer::Allowed,
        1 => Answer::Rejected { window, wait: any_number(dice), left: any_number(dice) },
        2 => Answer::Suppressed { factor, admitted: true },
        3 => Answer::Suppressed { factor, admitted: false },
        _ => Answer::Snapshot { total: 0, declined: 0, factor },
    }
}

/// The answer with another factor, where it has one; else a no with it.
fn with_factor(answer: Answer, factor: u64) -> Answer {
    match answer {
        Answer::Suppressed { admitted, .. } => Answer::Suppressed { factor, admitted },
        Answer::Snapshot { total, declined, .. } => Answer::Snapshot { total, declined, factor },
        _ => Answer::Suppressed { factor, admitted: false },
    }
}

impl Meant {
    /// Anything that ticket 1 has a line for.
    pub fn any(dice: &mut Dice) -> Self {
        if !dice.once_in(4) {
            let (total, declined) = totals(dice);
            return Meant { t: any_number(dice), answer: answer(dice), total, declined };
        }
        let code = 1 + dice.below(14);
        let t = if is_without_reading(code) { 0 } else { any_number(dice) };
        Meant { t, answer: Answer::Refused(code), total: 0, declined: 0 }
    }

    /// The same with one value past its range, by one or by far.
    pub fn past(dice: &mut Dice) -> Self {
        let (t, answer, (total, declined)) = (any_number(dice), answer(dice), totals(dice));
        let meant = Meant { t, answer, total, declined };
        let far = dice.any() >> dice.below(64);
        let by = dice.pick(&[1, 1, 1, far]).clamp(1, u64::MAX - TOP);
        match dice.below(6) {
            0 => Meant { total: TOP + by, ..meant },
            1 => Meant { declined: total + by, ..meant },
            2 => Meant { answer: with_factor(answer, past_factor(dice)), ..meant },
            3 => {
                let code = dice.pick(&[0, 15, 16, 17, 18, 19, 20, 21, 99, 14 + by]);
                Meant { t: dice.pick(&[0, t]), answer: Answer::Refused(code), ..meant }
            }
            4 => {
                let code = dice.pick(&[1, 2, 3, 4, 14, 14]);
                Meant { t: by, answer: Answer::Refused(code), ..meant }
            }
            _ => Meant { answer: Answer::Held, ..meant },
        }
    }

    /// Whether it is within the ranges of ticket 1. A refusal prints no totals.
    pub fn is_in_range(&self) -> bool {
        let Meant { t, answer, total, declined } = *self;
        let is_told = match answer {
            Answer::Refused(code) => {
                (1..=14).contains(&code) && (t == 0 || !is_without_reading(code))
            }
            Answer::Suppressed { factor, .. } | Answer::Snapshot { factor, .. } => factor <= ONE,
            Answer::Allowed | Answer::Rejected { .. } => true,
            _ => false,
        };
        is_told && declined <= total && total <= TOP
    }

    /// What desk prints for it, without the newline.
    pub fn line(&self) -> String {
        let mut line = told(self.t, self.answer, self.total, self.declined);
        line.pop();
        line
    }
}

/// The bits of what is no factor: over 1, negative, or no number.
fn past_factor(dice: &mut Dice) -> u64 {
    let (over, below) = (ONE + 1 + dice.below(NEGATIVE - ONE - 1), NEGATIVE + dice.below(NEGATIVE));
    let (double, negative) = (2f64.to_bits(), factor(dice) | NEGATIVE);
    let (none, endless) = (f64::NAN.to_bits(), f64::INFINITY.to_bits());
    dice.pick(&[ONE + 1, ONE + 1, NEGATIVE, NEGATIVE, double, negative, over, below, none, endless])
}

fn fields(line: &str) -> Vec<String> {
    line.split(' ').map(str::to_string).collect()
}

/// The line with another value in the field at a place.
fn with_value(line: &str, at: usize, change: impl FnOnce(&str) -> String) -> String {
    let mut fields = fields(line);
    let (name, value) = fields[at].split_once('=').expect("a field");
    fields[at] = format!("{name}={}", change(value));
    fields.join(" ")
}

/// A change of a printed line, after which it is none.
type Misform = fn(&mut Dice, &str) -> String;

const MISFORMS: [Misform; 12] = [
    zeros_before,
    in_capitals,
    past_64_bits,
    more_at_an_end,
    more_at_an_end,
    other_space,
    other_fields,
    other_name,
    no_word,
    no_code,
    no_number,
    other_length,
];

fn zeros_before(dice: &mut Dice, line: &str) -> String {
    let at = dice.pick(&NUMBERS);
    let zeros = dice.pick(&["0", "0", "0", "00", "00000000000000000000"]);
    with_value(line, at, |value| format!("{zeros}{value}"))
}

/// Mostly the factor's digits. One that has no letter gets some.
fn in_capitals(dice: &mut Dice, line: &str) -> String {
    let at = dice.pick(&[WORD, FACTOR, FACTOR, FACTOR]);
    with_value(line, at, |value| match value.to_uppercase() {
        same if same == value => "3FEFFFFFFFFFFFFF".to_string(),
        capitals => capitals,
    })
}

/// A number that is the same modulo 2^64, that is 2^64, or that is longer; a factor's modulo 2^64.
fn past_64_bits(dice: &mut Dice, line: &str) -> String {
    if dice.once_in(8) {
        return with_value(line, FACTOR, |value| format!("1{value}"));
    }
    let (at, way) = (dice.pick(&NUMBERS), dice.below(4));
    let wraps = u128::from(u64::MAX) + 1;
    with_value(line, at, |value| match way {
        0 => wraps.to_string(),
        1 => (wraps + value.parse::<u128>().expect("a number")).to_string(),
        2 => format!("1{value:0>20}"),
        _ => format!("99999999999999999999{value}"),
    })
}

fn more_at_an_end(dice: &mut Dice, line: &str) -> String {
    let more = dice.pick(&[" ", " ", "\r", "\r", "\n", "\n", "\r\n", "  ", "\t", "\0", "\u{b}"]);
    if dice.once_in(4) { format!("{more}{line}") } else { format!("{line}{more}") }
}

fn other_space(dice: &mut Dice, line: &str) -> String {
    let at = dice.below(FIELDS - 1) as usize;
    let space = dice.pick(&["", "  ", "  ", "   ", "\t", "\n", "\r", ","]);
    let fields = fields(line);
    let (before, behind) = fields.split_at(at + 1);
    format!("{}{space}{}", before.join(" "), behind.join(" "))
}

/// Two fields swapped, one left out, or one twice.
fn other_fields(dice: &mut Dice, line: &str) -> String {
    let mut fields = fields(line);
    let at = dice.below(FIELDS) as usize;
    let other = (at + 1 + dice.below(FIELDS - 1) as usize) % fields.len();
    match dice.below(4) {
        0 => drop(fields.remove(at)),
        1 => fields.insert(other, fields[at].clone()),
        _ => fields.swap(at, other),
    }
    fields.join(" ")
}

fn other_name(dice: &mut Dice, line: &str) -> String {
    let mut fields = fields(line);
    let field = &mut fields[dice.below(FIELDS) as usize];
    let (name, value) = field.split_once('=').expect("a field");
    let capitals = name.to_uppercase();
    let name = dice.pick(&["", "x", "answers", capitals.as_str()]);
    let equals = dice.pick(&["=", "=", "", "==", ":"]);
    *field = format!("{name}{equals}{value}");
    fields.join(" ")
}

/// A word that is no answer of desk's.
fn no_word(dice: &mut Dice, line: &str) -> String {
    let longer = dice.pick(&["s", "=", "0"]);
    let word = dice.pick(&["held", "held", "held", "", "allow", "maybe", "reject", "refuse", "y"]);
    let is_longer = dice.once_in(4);
    with_value(line, WORD, |value| match is_longer {
        true => format!("{value}{longer}"),
        false => word.to_string(),
    })
}

/// A code that desk never prints.
fn no_code(dice: &mut Dice, line: &str) -> String {
    let code = dice.pick(&[15, 15, 16, 17, 18, 19, 20, 21, 22, 99, 114, u64::MAX]);
    with_value(line, CODE, |_| code.to_string())
}

fn no_number(dice: &mut Dice, line: &str) -> String {
    let (at, way) = (dice.pick(&NUMBERS), dice.below(8));
    with_value(line, at, |value| match way {
        0 => String::new(),
        1 => format!("+{value}"),
        2 => format!("-{value}"),
        3 => format!("{value}.0"),
        4 => format!("{value}a"),
        5 => format!("0x{value}"),
        6 => format!("{value}_0"),
        _ => format!("{value}\u{b2}"),
    })
}

/// A factor of another number of digits.
fn other_length(dice: &mut Dice, line: &str) -> String {
    let kept = dice.below(16) as usize;
    let way = dice.below(4);
    with_value(line, FACTOR, |value| match way {
        0 => format!("{value}0"),
        1 => format!("0{value}"),
        2 => value[..kept].to_string(),
        _ => value[16 - kept..].to_string(),
    })
}

/// A printed line misformed.
pub fn misformed(dice: &mut Dice) -> String {
    let line = Meant::any(dice).line();
    let misform = dice.pick(&MISFORMS);
    misform(dice, &line)
}

/// A change of a printed line, after which it may be another one.
type Change = fn(&mut Dice, &mut Vec<u8>);

const CHANGES: [Change; 9] =
    [damage, damage, damage, any_byte, neighbour, neighbour, other_value, other_value, other_end];

fn place(dice: &mut Dice, line: &[u8]) -> usize {
    dice.below(line.len() as u64) as usize
}

fn any_byte(dice: &mut Dice, line: &mut Vec<u8>) {
    let at = place(dice, line);
    line[at] = dice.any() as u8;
}

/// A digit becomes the byte before or behind it, one of the factor's too.
fn neighbour(dice: &mut Dice, line: &mut Vec<u8>) {
    let name = b"factor=";
    let named = line.windows(name.len()).position(|part| part == name).expect("a factor");
    let factor = named + name.len()..named + name.len() + 16;
    let is_digit = |at: &usize| line[*at].is_ascii_digit() || factor.contains(at);
    let digits: Vec<usize> = (0..line.len()).filter(is_digit).collect();
    let at = dice.pick(&digits);
    line[at] = if dice.once_in(2) { line[at] + 1 } else { line[at] - 1 };
}

/// The value of one field becomes another line's, another answer's word, or a number at an edge.
fn other_value(dice: &mut Dice, line: &mut Vec<u8>) {
    let text = String::from_utf8(std::mem::take(line)).expect("a printed line");
    let number = any_number(dice);
    let words = ["allowed", "rejected", "yes", "no", "value", "refused"];
    let other = match dice.below(4) {
        0 => with_value(&text, WORD, |_| dice.pick(&words).to_string()),
        1 => with_value(&text, CODE, |_| dice.below(16).to_string()),
        2 => with_value(&text, dice.pick(&NUMBERS), |_| {
            dice.pick(&[0, 1, 2, TOP - 1, TOP, TOP + 1, number]).to_string()
        }),
        _ => {
            let mut mixed = fields(&text);
            let at = dice.below(FIELDS) as usize;
            mixed[at] = fields(&Meant::any(dice).line())[at].clone();
            mixed.join(" ")
        }
    };
    *line = other.into_bytes();
}

/// The line goes on otherwise from a place: as another one does behind its place, or by some bytes.
fn other_end(dice: &mut Dice, line: &mut Vec<u8>) {
    let at = place(dice, line);
    match dice.below(4) {
        0 => {
            let other = Meant::any(dice).line();
            line.truncate(at);
            line.extend(&other.as_bytes()[at.min(other.len())..]);
        }
        1 => line.extend((0..=dice.below(4)).map(|_| dice.pick(b"0123456789 \r\n"))),
        2 => line.extend((0..=dice.below(4)).map(|_| dice.any() as u8)),
        _ => line.push(dice.pick(b"0123456789")),
    }
}

/// A printed line with a change, now and then with two.
pub fn changed(dice: &mut Dice) -> Vec<u8> {
    let mut line = Meant::any(dice).line().into_bytes();
    let change = dice.pick(&CHANGES);
    change(dice, &mut line);
    if dice.once_in(4) && !line.is_empty() {
        damage(dice, &mut line);
    }
    line
}

/// A line of each answer, and of a refusal with a reading and one without.
const EXAMPLES: [Meant; 7] = [
    example(1700, Answer::Allowed),
    example(1700, Answer::Rejected { window: 10, wait: 7000, left: 6 }),
    example(1700, Answer::Suppressed { factor: 0.5f64.to_bits(), admitted: true }),
    example(1700, Answer::Suppressed { factor: 0.3f64.to_bits(), admitted: false }),
    example(1700, Answer::Snapshot { total: 15, declined: 5, factor: ONE }),
    example(1700, Answer::Refused(11)),
    example(0, Answer::Refused(14)),
];

const fn example(t: u64, answer: Answer) -> Meant {
    Meant { t, answer, total: 15, declined: 5 }
}

/// One of these lines with each byte there is at one place; line and place by turns.
pub fn other_bytes(turn: usize) -> impl Iterator<Item = Vec<u8>> {
    let line = EXAMPLES[turn % EXAMPLES.len()].line().into_bytes();
    let at = turn / EXAMPLES.len() % line.len();
    (0..=u8::MAX).map(move |byte| {
        let mut line = line.clone();
        line[at] = byte;
        line
    })
}

/// What stands in a line: the names in their order, with the spaces before them, and values that
/// desk prints with some answer or other, or never.
const PARTS: [(&str, &[&str]); 8] = [
    ("t=", &["0", "0", "5", "1700", "18446744073709551615", "18446744073709551616"]),
    (" code=", &["0", "0", "0", "0", "0", "0", "1", "6", "13", "14", "15"]),
    (" answer=", &["allowed", "rejected", "yes", "no", "value", "refused", "held"]),
    (" factor=", &[NONE, NONE, NONE, "3fe0000000000000", "3ff0000000000000", "3ff0000000000001"]),
    (" wait=", &["0", "0", "0", "0", "0", "7000"]),
    (" left=", &["0", "0", "0", "0", "0", "6"]),
    (" total=", &["0", "15", "15", "9007199254740992", "9007199254740993"]),
    (" declined=", &["0", "0", "0", "0", "15", "16", "9007199254740992"]),
];

/// The factor that does not apply.
const NONE: &str = "0000000000000000";

fn any_part(dice: &mut Dice) -> &'static str {
    let (name, values) = dice.pick(&PARTS);
    match dice.below(5) {
        0 | 1 => name,
        2 | 3 => dice.pick(values),
        _ => dice.pick(&[" ", "=", "0", "9", "f"]),
    }
}

/// The parts of a line in their order, or in none.
pub fn of_parts(dice: &mut Dice) -> String {
    if dice.once_in(4) {
        return (0..dice.below(25)).map(|_| any_part(dice)).collect();
    }
    let mut line = String::new();
    for (name, values) in PARTS {
        line += if dice.once_in(100) { any_part(dice) } else { name };
        line += if dice.once_in(50) { any_part(dice) } else { dice.pick(values) };
    }
    line
}

/// Bytes of any kind, or of those that lines have; now and then none.
pub fn of_bytes(dice: &mut Dice) -> Vec<u8> {
    let is_any = dice.once_in(2);
    let alphabet = b"0123456789abcdefghijklmnopqrstuvwxyz ==  00";
    let one = |dice: &mut Dice| if is_any { dice.any() as u8 } else { dice.pick(alphabet) };
    (0..dice.below(120)).map(|_| one(dice)).collect()
}

/// A line of tens of thousands of bytes: one value grown, the line many times, or any bytes.
pub fn long(dice: &mut Dice) -> Vec<u8> {
    let (line, many) = (Meant::any(dice).line(), 10_000 + dice.below(50_000) as usize);
    let at = dice.below(FIELDS) as usize;
    let digit = dice.pick(&["0", "1", "9", "a", " ", "f"]);
    match dice.below(5) {
        0 => with_value(&line, at, |value| digit.repeat(many) + value).into_bytes(),
        1 => with_value(&line, at, |value| value.to_string() + &digit.repeat(many)).into_bytes(),
        2 => line.repeat(many / line.len()).into_bytes(),
        3 => vec![line.as_str(); many / line.len()].join(" ").into_bytes(),
        _ => (0..many).map(|_| dice.any() as u8).collect(),
    }
}
