//! Times a call of each contestant, in one process, for both limiters; docs/SPEED.md says what of.

mod contestants;
mod expired;
mod lines;
mod load;
mod race;
mod shots;

use std::time::Duration;

use contestants::{Contestant, all, named, of_shots, of_shots_alone, over_rooms};
use load::{Call, Clock, Deed, Limiter, Load, Parties, Shape};
use race::{Field, alone, alone_expired, race, race_expired};

const KEYS: usize = 40;

const ARCHIVE: &str = "archive";

const USAGE: &str = "[INCREMENTS REPETITIONS] | shots SHOTS REPETITIONS | expired CALLS REPETITIONS | \
    clocks INCREMENTS REPETITIONS | parties INCREMENTS REPETITIONS | lines [LINES REPETITIONS] | \
    one CONTESTANT [nanoseconds] LIMITER BUCKETS INCREMENTS | \
    one CONTESTANT [nanoseconds] one-party|two-parties LIMITER KEYS BUCKETS INCREMENTS | \
    one CONTESTANT [nanoseconds] rising|held|last CONTROLLERS BUCKETS SHOTS | \
    one CONTESTANT [nanoseconds] expired LIMITER CALL BUCKETS CALLS";

fn main() {
    let arguments: Vec<String> = std::env::args().skip(1).collect();
    let words: Vec<&str> = arguments.iter().map(String::as_str).collect();
    match words[..] {
        [] => tables(1_000_000, 5),
        ["shots", timed, times] => shot_tables(number(timed), number(times)),
        ["expired", timed, times] => expired_table(number(timed), number(times)),
        ["clocks", timed, times] => clock_tables(number(timed), number(times)),
        ["parties", timed, times] => party_tables(number(timed), number(times)),
        ["lines"] => lines::table(1_000_000, 5),
        ["lines", timed, times] => lines::table(number(timed), number(times)),
        [timed, times] => tables(number(timed), number(times)),
        ["one", name, "nanoseconds", ref what @ .., timed] => {
            one(Clock::Nanoseconds, name, what, number(timed))
        }
        ["one", name, ref what @ .., timed] => one(Clock::Milliseconds, name, what, number(timed)),
        _ => panic!("{USAGE}"),
    }
}

fn number(text: &str) -> usize {
    text.parse().expect("a whole number")
}

fn limiter(name: &str) -> Limiter {
    let limiter = Limiter::BOTH.into_iter().find(|other| other.name() == name);
    limiter.expect("absolute or suppressed")
}

/// One contestant alone, for a profiler.
fn one(clock: Clock, name: &str, what: &[&str], timed: usize) {
    let full = |keys: usize, live: &str| Shape { clock, ..Shape::full(keys, number(live) as u64) };
    match *what {
        [of, live] => {
            let load = Load::new(full(KEYS, live));
            alone(limiter(of), &load, named(name, &load, all(&load)), timed);
        }
        [whose @ ("one-party" | "two-parties"), of, keys, live] => {
            let parties = if whose == "one-party" { Parties::One } else { Parties::Two };
            let load = Load::new(Shape { parties, ..full(number(keys), live) });
            alone(limiter(of), &load, named(name, &load, all(&load)), timed);
        }
        [deed @ ("rising" | "held" | "last"), keys, live] => {
            let deed = match deed {
                "rising" => Deed::Shots,
                "held" => Deed::Held,
                _ => Deed::HeldLast,
            };
            let load = Load::new(Shape { deed, ..full(number(keys), live) });
            alone(Limiter::Suppressed, &load, named(name, &load, of_shots(&load)), timed);
        }
        ["expired", of, call, live] => {
            let limiter = limiter(of);
            let call = Call::ALL.into_iter().find(|other| other.name(limiter) == call);
            let deed = Deed::Expired(call.expect("a call of this limiter"));
            let load = Load::new(Shape { deed, ..full(KEYS, live) });
            alone_expired(limiter, &load, named(name, &load, over_rooms(&load)), timed);
        }
        _ => panic!("{USAGE}"),
    }
}

fn tables(timed: usize, times: usize) {
    println!("nanoseconds for an increment, and the ratio to the twin; at the end of a line the");
    println!(
        "archive's ratio to the trusting twin and to `bare`, which for the same keys in the same"
    );
    println!("order reads all words of the slot's body and does nothing else");
    println!("windows in seconds, bucket sizes in milliseconds");
    println!("{timed} increments in mixed order, rooms cleared and filled first, least of {times}");
    for limiter in Limiter::BOTH {
        heading(&format!("{}, {KEYS} keys, rings full", limiter.name()));
        for live in [10, 100, 298, 512] {
            row(limiter, Shape::full(KEYS, live), timed, times);
        }
    }
    let fewer = timed / 4;
    for limiter in Limiter::BOTH {
        heading(&format!("{}, by buckets, {fewer} increments", limiter.name()));
        for live in [10, 50, 100, 200, 298, 512] {
            row(limiter, Shape::full(KEYS, live), fewer, times);
        }
        row(limiter, Shape { ring: 512, ..Shape::full(KEYS, 100) }, fewer, times);
    }
    for limiter in Limiter::BOTH {
        heading(&format!("{}, by keys, {fewer} increments", limiter.name()));
        for live in [10, 100] {
            for keys in [1, 8, 40, 64] {
                row(limiter, Shape::full(keys, live), fewer, times);
            }
        }
    }
    shot_tables(timed, times);
    expired_table(fewer, times);
    lines::table(timed, times);
}

/// What the shots' tables time, and what it is called behind a contestant's name.
const DEEDS: [(Deed, &str); 3] =
    [(Deed::Shots, ""), (Deed::Held, ", held"), (Deed::HeldLast, ", held last")];

/// A shot beside the same increment, and shots that are held; one row for each number of controllers and each ring.
fn shot_tables(timed: usize, times: usize) {
    println!(
        "\nnanoseconds for increments of 1 of the suppressed limiter, and for the same as shots"
    );
    println!(
        "whose numbers rise; for shots that are held, which take a walk over the table's keys and"
    );
    println!(
        "no more: of all controllers in mixed order, and of the one in the table's last entry; at"
    );
    println!(
        "the end of a line the shot's ratio to the twin's, and to an increment and such a walk in"
    );
    println!("mixed order together");
    println!("{timed} of each, rooms cleared and filled first, least of {times}");
    let mut named = false;
    for (keys, live) in [40, 64].into_iter().flat_map(|keys| [10, 100].map(|live| (keys, live))) {
        let each = shot_row(keys, live, timed, times);
        if !named {
            let names: Vec<&str> = each.iter().map(|(name, _)| name.as_str()).collect();
            println!("\ncontrollers  ring  {}", names.join("  "));
            named = true;
        }
        print!("{keys:11}  {live:4}");
        for (name, took) in &each {
            print!("  {took:width$.1}", width = name.len());
        }
        let of = |name: &str| each.iter().find(|(other, _)| other == name).map(|(_, took)| *took);
        if let (Some(shot), Some(increment)) = (of("archive-shot"), of(ARCHIVE)) {
            let (twin, walk) = (of("twin-shot"), of("archive-shot, held"));
            let (twin, walk) = (twin.unwrap_or_default(), walk.unwrap_or_default());
            print!("  {:5.2}  {:5.2}", shot / twin, shot / (increment + walk));
        }
        println!();
    }
}

/// Each contestant's name at each deed, and its time.
fn shot_row(keys: usize, live: u64, timed: usize, times: usize) -> Vec<(String, f64)> {
    let mut each = Vec::new();
    for (deed, called) in DEEDS {
        let contestants = if deed == Deed::Shots { of_shots } else { of_shots_alone };
        let mut field = Field::new(Shape { deed, ..Shape::full(keys, live) }, contestants);
        let took = race(Limiter::Suppressed, std::slice::from_mut(&mut field), timed, times);
        each.extend(field.contestants.iter().zip(took).map(|(contestant, took)| {
            let nanoseconds = took.as_secs_f64() * 1e9 / timed as f64;
            (format!("{}{called}", contestant.name()), nanoseconds)
        }));
    }
    each
}

/// A call that finds a key's ring full and wholly expired; one row for each call and each ring.
fn expired_table(timed: usize, times: usize) {
    let timed = timed.next_multiple_of(KEYS);
    println!(
        "\na ring that has wholly expired: nanoseconds for a call that finds its key's ring full and"
    );
    println!("the newest bucket an hour old, and the ratio to the twin");
    println!("{timed} calls in mixed order, all rings filled again after {KEYS}, least of {times}");
    print!("\n{:10}  {:22}  ring", "limiter", "call");
    print_names(&over_rooms(&Load::new(Shape::full(1, 10))));
    for limiter in Limiter::BOTH {
        for call in Call::ALL {
            for live in [10, 100, 512] {
                expired_row(limiter, call, live, timed, times);
            }
        }
    }
}

fn expired_row(limiter: Limiter, call: Call, live: u64, timed: usize, times: usize) {
    let load = Load::new(Shape { deed: Deed::Expired(call), ..Shape::full(KEYS, live) });
    let mut contestants = over_rooms(&load);
    let took = race_expired(limiter, &load, &mut contestants, timed, times);
    print!("{:10}  {:22}  {live:4}", limiter.name(), call.name(limiter));
    print_times(&contestants, &took, timed);
}

/// Whose times the archive's are compared with, besides the twin's.
const BESIDES: [&str; 2] = ["trusting", "bare"];

fn heading(what: &str) {
    println!("\n{what}");
    print!("keys  ring  window  bucket  buckets held");
    print_names(&all(&Load::new(Shape::full(1, 10))));
}

fn print_names(contestants: &[Box<dyn Contestant>]) {
    for contestant in contestants {
        print!("{:>15}", contestant.name());
    }
    if contestants.iter().any(|contestant| contestant.name() == ARCHIVE) {
        for name in BESIDES {
            print!("{:>18}", format!("{ARCHIVE}/{name}"));
        }
    }
    println!();
}

/// Times each contestant and prints a line.
fn row(limiter: Limiter, shape: Shape, timed: usize, times: usize) {
    let mut field = Field::new(shape, all);
    let took = race(limiter, std::slice::from_mut(&mut field), timed, times);
    let Shape { keys, ring, window, bucket, .. } = shape;
    let buckets = field.buckets(limiter);
    print!("{keys:4}  {ring:4}  {window:6}  {bucket:6}  {buckets:12.1}");
    print_times(&field.contestants, &took, timed);
}

/// The rest of a line: nanoseconds for one of those that were timed, and ratios.
fn print_times(contestants: &[Box<dyn Contestant>], took: &[Duration], timed: usize) {
    let each: Vec<f64> = took.iter().map(|took| took.as_secs_f64() * 1e9 / timed as f64).collect();
    for nanoseconds in &each {
        print!("  {nanoseconds:7.1} {:5.2}", nanoseconds / each[0]);
    }
    let of = |name: &str| {
        let place = contestants.iter().position(|contestant| contestant.name() == name);
        place.map(|place| each[place])
    };
    if let Some(archive) = of(ARCHIVE) {
        for other in BESIDES.into_iter().filter_map(of) {
            print!("{:18.2}", archive / other);
        }
    }
    println!();
}

/// Increments in either clock, all in one race; one row for each ring.
fn clock_tables(timed: usize, times: usize) {
    println!(
        "nanoseconds for an increment, with readings in milliseconds and in nanoseconds, and the"
    );
    println!(
        "ratio of the second to the first; the same increments, in nanoseconds at readings that"
    );
    println!("have parts of a millisecond");
    println!("{timed} increments in mixed order, rooms cleared and filled first, least of {times}");
    for limiter in Limiter::BOTH {
        println!("\n{}, {KEYS} keys, rings full", limiter.name());
        print!("ring  buckets held");
        for contestant in all(&Load::new(Shape::full(1, 10))) {
            print!("{:>24}", contestant.name());
        }
        println!();
        for live in [10, 100, 298, 512] {
            clock_row(limiter, live, timed, times);
        }
    }
}

fn clock_row(limiter: Limiter, live: u64, timed: usize, times: usize) {
    let shape = |clock| Shape { clock, ..Shape::full(KEYS, live) };
    let mut fields = Clock::BOTH.map(|clock| Field::new(shape(clock), all));
    let took = race(limiter, &mut fields, timed, times);
    let [held, fine] = fields.each_mut().map(|field| field.buckets(limiter));
    print!("{live:4}  {held:5.1}, {fine:5.1}");
    let (took, fine) = took.split_at(took.len() / 2);
    for (took, fine) in took.iter().zip(fine) {
        let [took, fine] = [took, fine].map(|took| took.as_secs_f64() * 1e9 / timed as f64);
        print!("  {took:7.1} {fine:7.1} {:6.3}", fine / took);
    }
    println!();
}

/// Increments of one party's keys and of the same keys split between two, all in one race; one row for each number of keys and each ring.
fn party_tables(timed: usize, times: usize) {
    println!(
        "nanoseconds for an increment, of keys that one party has, which is promised every slot, and"
    );
    println!(
        "of the same keys split between two, each promised a slot for each of its own; the ratio of"
    );
    println!("the second to the first; at the end of a line the archive's ratios to the twin");
    println!("{timed} increments in mixed order, rooms cleared and filled first, least of {times}");
    for limiter in Limiter::BOTH {
        println!("\n{}, rings full", limiter.name());
        print!("keys  ring  buckets held");
        for contestant in all(&Load::new(Shape::full(1, 10))) {
            print!("{:>24}", contestant.name());
        }
        println!();
        for (keys, live) in [40, 64].into_iter().flat_map(|keys| [10, 100].map(|live| (keys, live)))
        {
            party_row(limiter, keys, live, timed, times);
        }
    }
}

fn party_row(limiter: Limiter, keys: usize, live: u64, timed: usize, times: usize) {
    let shape = |parties| Shape { parties, ..Shape::full(keys, live) };
    let mut fields = Parties::BOTH.map(|parties| Field::new(shape(parties), all));
    let took = race(limiter, &mut fields, timed, times);
    let [held, of_two] = fields.each_mut().map(|field| field.buckets(limiter));
    print!("{keys:4}  {live:4}  {held:5.1}, {of_two:5.1}");
    let each: Vec<f64> = took.iter().map(|took| took.as_secs_f64() * 1e9 / timed as f64).collect();
    let (one, two) = each.split_at(each.len() / 2);
    for (one, two) in one.iter().zip(two) {
        print!("  {one:7.1} {two:7.1} {:6.3}", two / one);
    }
    let archive = fields[0].contestants.iter().position(|other| other.name() == ARCHIVE);
    if let Some(at) = archive {
        print!("  {:5.2} {:5.2}", one[at] / one[0], two[at] / two[0]);
    }
    println!();
}
