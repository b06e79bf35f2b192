//! The twin's shots against a second reading of its lines, with every shot put to all.

use twin::calls::Asked;
use twin::gateway::{Shot, empty_table};
use twin::parties::{Caller, SOLE};
use twin::shots::shots as program;

use crate::input_lines::{Program, input};
use crate::lines_check::{begun, differs, fields, key, lines, number, rate, refused, stored, told};
use crate::seasons::rooms;
use crate::shots::{ALLOWED, HELD, Memory, NO, Shots, YES};

/// What the lines of a run must come to.
const COMES: [usize; 8] = [HELD, ALLOWED, YES, NO, 12, 19, 20, 21];

/// How many lines an input has.
const LINES: u64 = 400;

/// So many inputs at least, for all of that to come.
const LEAST: u64 = 24;

/// A line's reading, controller, number, rate and draw.
fn call(line: &str) -> Option<(u64, String, u64, f64, u64)> {
    let [t, ctl, shot, per_minute, draw] = fields(line, ["t", "ctl", "shot", "rate", "draw"])?;
    Some((number(t)?, key(ctl)?, number(shot)?, rate(per_minute)?, number(draw)?))
}

/// What shots should print.
fn wanted(shots: &mut Shots, lines: &[String]) -> String {
    let settings = match begun(lines) {
        Ok(settings) => settings,
        Err(line) => return line,
    };
    let mut memory = Memory { table: empty_table(), rooms: rooms(64, 298) };
    let caller = Caller { party: SOLE, first: 64, second: 0 };
    let mut out = String::new();
    for line in &lines[1..] {
        let Some((t, name, number, rate, draw)) = call(line) else {
            out.push_str(&refused(0, 14));
            continue;
        };
        let shot = Shot { controller: name.as_bytes(), number, rate, draw };
        let answer = shots.put(&settings, &mut memory, t, Asked::Shot(caller, shot));
        let (total, declined) = stored(&memory.rooms.suppressed, name.as_bytes());
        out.push_str(&told(t, answer, total, declined));
    }
    out
}

/// So many inputs.
pub fn run(shots: &mut Shots, inputs: u64, seed: u64) {
    for at in 0..inputs.max(LEAST) {
        if !shots.goes_on() {
            return;
        }
        let input = input(Program::Shots, LINES, seed.wrapping_add(at));
        let wanted = wanted(shots, &lines(&input));
        if let Some(fault) = differs("shots", &input, &program(&input), &wanted) {
            shots.differ(fault);
        }
    }
    shots.end_part("lines", &COMES);
}
