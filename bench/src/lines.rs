//! What reading back a line costs that desk prints, beside what desk takes for such a line.

use std::fs::File;
use std::path::Path;
use std::process::{Command, Stdio};
use std::time::{Duration, Instant};

use twin::desk::desk;
use twin::readback::{ReadBack, Said, read_back};
use twin::rules::Refusal;

use crate::ARCHIVE;
use crate::load::Random;
use crate::race::{Least, STRETCH};

/// A line's meaning in the order of the C face, the same for each reader.
type Row = [u64; 7];

/// Reads lines one after another; gives their rows, folded.
type Reader = fn(&[&[u8]]) -> u64;

const READERS: &[(&str, Reader)] = &[
    ("twin", read_by_twin),
    #[cfg(archive)]
    (ARCHIVE, archive::read),
];

fn folded(rows: u64, row: Row) -> u64 {
    row.into_iter().fold(rows, |folded, word| folded.rotate_left(5) ^ word)
}

fn read_by_twin(lines: &[&[u8]]) -> u64 {
    lines.iter().fold(0, |rows, line| {
        let ReadBack { reading, said, total, declined } = read_back(line).expect("a printed line");
        let (case, x, y) = match said {
            Said::Allowed => (1, 0, 0),
            Said::Rejected { wait, left } => (2, wait, left),
            Said::Suppressed { factor, admitted } => (3, factor.to_bits(), u64::from(admitted)),
            Said::Value { factor } => (5, factor.to_bits(), 0),
            Said::Refused(Refusal(number)) => (6, number, 0),
        };
        folded(rows, [0, case, reading, x, y, total, declined])
    })
}

/// The archive of the proved reader, by its C face.
#[cfg(archive)]
mod archive {
    use super::{Row, folded};

    unsafe extern "C" {
        fn frostaxle_read_line(line: *const u8, bytes: usize, row: *mut u64) -> u64;
    }

    pub fn read(lines: &[&[u8]]) -> u64 {
        let mut row: Row = [0; 7];
        lines.iter().fold(0, |rows, line| {
            let code = unsafe { frostaxle_read_line(line.as_ptr(), line.len(), row.as_mut_ptr()) };
            assert_eq!(code, 0, "a printed line");
            folded(rows, row)
        })
    }
}

/// The keys of the input, each with its rate per minute: some are mostly let through, others not.
const KEYS: [(&str, u64); 4] = [("boat7", 90), ("boat12", 180), ("lock3", 270), ("station4", 360)];

/// A fifth key, for which desk has no slot.
const ONE_MORE: &str = "boat13";

/// Calls of both limiters at rising readings. One line in ten is refused, with 14, 6, 8 or 11.
fn input(lines: usize) -> String {
    let mut random = Random::new();
    let mut input = "window=10 bucket=100 factor=2 cache=100\n".to_string();
    let mut now = 0;
    for _ in 0..lines {
        now += random.below(50);
        let op = ["ainc", "ainc", "sinc", "sinc", "sinc", "aget", "sget"][random.below(7) as usize];
        let (key, rate) = KEYS[random.below(KEYS.len() as u64) as usize];
        let (count, draw) = (1 + random.below(4), random.below(1 << 53));
        input += &match random.below(40) {
            0 => format!("t={now} op={op} key={key} rate={rate}\n"),
            1 => format!("t={} op={op} key={key} rate={rate} n=1 draw=0\n", now / 2),
            2 => format!("t={now} op=ainc key={key} rate=0 n=1 draw=0\n"),
            3 => format!("t={now} op=sinc key={ONE_MORE} rate={rate} n=1 draw={draw}\n"),
            _ => format!("t={now} op={op} key={key} rate={rate} n={count} draw={draw}\n"),
        };
    }
    input
}

/// How many lines in a hundred have each answer.
fn shares(lines: &[&[u8]]) -> String {
    let shares = ["allowed", "rejected", "yes", "no", "value", "refused"].map(|word| {
        let field = format!(" answer={word} ");
        let has = |line: &&&[u8]| line.windows(field.len()).any(|part| part == field.as_bytes());
        let many = lines.iter().filter(has).count();
        assert!(many > 0, "no line has the answer {word}");
        format!("{word} {:.1}", 100.0 * many as f64 / lines.len() as f64)
    });
    shares.join(", ")
}

fn timed(deed: impl FnOnce()) -> Duration {
    let start = Instant::now();
    deed();
    start.elapsed()
}

/// The program at a path, from a file to where its output goes.
fn program(path: &str, input: &Path, output: Stdio) -> Command {
    let mut command = Command::new(path);
    command.stdin(File::open(input).expect("the input")).stdout(output);
    command
}

/// The least time that the program takes for the whole input, if it prints the same lines.
fn time_program(path: &str, input: &str, printed: &[u8], times: usize) -> Duration {
    let file = std::env::current_exe().expect("a program").with_file_name("lines.input");
    std::fs::write(&file, input).expect("a place for the input");
    let told = program(path, &file, Stdio::piped()).output().expect("DESK's program");
    assert!(told.stdout == printed, "{path} prints other lines than the twin's desk");
    let least = (0..times).map(|_| {
        timed(|| {
            let status = program(path, &file, Stdio::null()).status();
            assert!(status.expect("DESK's program").success(), "{path} failed");
        })
    });
    let least = least.min().expect("a time");
    std::fs::remove_file(&file).expect("the input's file");
    least
}

/// The time of each reader for all lines. They take turns at every stretch.
fn race(lines: &[&[u8]], times: usize) -> Vec<Duration> {
    let stretches: Vec<&[&[u8]]> = lines.chunks(STRETCH).collect();
    let mut least = Least::new(READERS.len(), stretches.len());
    for turn in 0..times {
        let told = least.lap(turn, |place, at| {
            let (_, read) = READERS[place];
            let start = Instant::now();
            let rows = read(stretches[at]);
            (start.elapsed(), rows)
        });
        assert!(told.iter().all(|rows| *rows == told[0]), "the readings differ: {told:?}");
    }
    least.sums()
}

fn heading(lines: &[&[u8]], times: usize) {
    println!(
        "\nnanoseconds for reading back a line that desk prints, and the ratio to the twin; then"
    );
    println!(
        "what desk takes for a line, to read its call, to decide it and to print it: the twin's in"
    );
    println!(
        "this process, and the program that DESK names, from a file to /dev/null; at the end of"
    );
    println!("the line the archive's ratios to these");
    let (many, shares) = (lines.len(), shares(lines));
    let length = lines.iter().map(|line| line.len()).sum::<usize>() as f64 / many as f64;
    println!("{many} lines of {length:.1} bytes, in a hundred {shares}; least of {times}\n");
}

/// One row: each reader, the twin's desk in this process, and the desk program that DESK names.
pub fn table(many: usize, times: usize) {
    let input = input(many);
    let printed = desk(input.as_bytes());
    let lines: Vec<&[u8]> = printed.trim_ascii_end().split(|byte| *byte == b'\n').collect();
    assert_eq!(lines.len(), many, "a line for each call");
    heading(&lines, times);
    let readers = READERS.iter().map(|(name, _)| *name).zip(race(&lines, times)).collect();
    let own = (0..times).map(|_| timed(|| drop(desk(input.as_bytes())))).min();
    let mut desks = vec![("twin's desk", own.expect("a time"))];
    if let Some(path) = std::env::var("DESK").ok().filter(|path| !path.is_empty()) {
        desks.push(("DESK's", time_program(&path, &input, &printed, times)));
    }
    print_row(readers, &desks, many);
}

/// The names, and below them the times.
fn print_row(readers: Vec<(&str, Duration)>, desks: &[(&str, Duration)], many: usize) {
    let archive = readers.iter().find(|(name, _)| *name == ARCHIVE).copied();
    let (_, twin) = readers[0];
    let each = [readers, desks.to_vec()].concat();
    each.iter().for_each(|(name, _)| print!("{name:>15}"));
    for (desk, _) in desks.iter().filter(|_| archive.is_some()) {
        print!("{:>22}", format!("{ARCHIVE}/{desk}"));
    }
    println!();
    for (_, took) in each {
        let nanoseconds = took.as_secs_f64() * 1e9 / many as f64;
        print!("  {nanoseconds:7.1} {:5.2}", took.div_duration_f64(twin));
    }
    for (_, desk) in desks {
        archive.iter().for_each(|(_, took)| print!("{:22.2}", took.div_duration_f64(*desk)));
    }
    println!();
}
