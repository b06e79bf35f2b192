//! A gateway admits a controller's shots: 3 in a second. A shot that is told no waits as long as it was told, and asks
//! again. After that twenty shots go to the suppressed limiter, whose factor rises between its two limits; the draws
//! come from a small generator. Then shots are numbered, and every other answer is lost on its way back. At last the lock
//! keepers come into the survey's room.
use frostaxle::{Absolute, Decision, Gateway, Party, Promises, Provider, Refusal, Room, Settings, Shot, Table};
use std::thread;
use std::time::{Duration, Instant};

const CONTROLLER: &[u8] = b"ctl7";

/// The reading: milliseconds since the start.
struct Clock(Instant);

impl Clock {
    fn reading(&self) -> u64 {
        self.0.elapsed().as_millis() as u64
    }
}

/// A random source for the example alone (xorshift); its upper 53 bits are the draw.
struct Draws(u64);

impl Draws {
    fn next(&mut self) -> u64 {
        self.0 ^= self.0 << 13;
        self.0 ^= self.0 >> 7;
        self.0 ^= self.0 << 17;
        self.0 >> 11
    }
}

/// Sends one shot until it is admitted.
fn send(gateway: &mut Provider, clock: &Clock, shot: u32) -> Result<(), Refusal> {
    loop {
        let decision = gateway.absolute().inc(clock.reading(), CONTROLLER, 3.0, 1)?;
        match decision.ask_again_after() {
            None => {
                println!("shot {shot}: admitted");
                return Ok(());
            }
            Some(wait) => {
                println!("shot {shot}: not now, asking again in {} ms", wait.as_millis());
                thread::sleep(wait);
            }
        }
    }
}

/// Sends one numbered shot until the controller hears that it is in. Every other answer is lost on its way back.
fn send_numbered(gateway: &mut Gateway, clock: &Clock, draws: &mut Draws, number: u64) -> Result<(), Refusal> {
    for heard in [false, true].into_iter().cycle() {
        let shot = gateway.shot(clock.reading(), CONTROLLER, number, 1.0, draws.next())?;
        let word = match shot {
            Shot::Held => "held, it was admitted before",
            shot if shot.is_admitted() => "admitted",
            _ => "not now",
        };
        println!("shot {number} by its number: {word}{}", if heard { "" } else { "; the answer is lost" });
        if heard && shot.is_admitted() {
            break;
        }
        // it hears nothing, or a no: the same shot under the same number
        thread::sleep(Duration::from_millis(400));
    }
    Ok(())
}

/// Of 3 slots 2 are promised to the survey, the first party, and 1 to the lock keepers: neither takes the other's.
fn two_parties(settings: Settings, clock: &Clock) -> Result<(), Refusal> {
    let promises = Promises { first: 2, second: 1 };
    let mut limiter = Absolute::new(settings, Room::for_settings(3, settings)?).promises(promises);
    for gate in [b"gate1", b"gate2"] {
        let name = String::from_utf8_lossy(gate);
        match limiter.party(Party::Second).inc(clock.reading(), gate, 3.0, 1) {
            Err(refusal) => println!("the lock keepers' {name}: {refusal}"),
            Ok(decision) => println!("the lock keepers' {name}: {decision:?}"),
        }
    }
    // the same name under the other party is another key
    let decision = limiter.inc(clock.reading(), b"gate1", 3.0, 1)?;
    limiter.party(Party::Second).clear(clock.reading())?;
    let total = limiter.get(clock.reading(), b"gate1")?;
    println!("the survey's gate1: {decision:?}, and after the lock keepers' clear {total} counted");
    Ok(())
}

fn main() -> Result<(), Refusal> {
    let settings = Settings { window_seconds: 1, cache_millis: 10, hard_limit_factor: 2.0, ..Settings::default() };
    // rings that are long enough for these settings: no call is refused because one is full
    let room = Room::for_settings(8, settings)?;
    println!("rooms for 8 keys, with rings of {} buckets", settings.sufficient_ring()?);
    let mut gateway = Provider::new(settings, room.clone(), room.clone());
    let clock = Clock(Instant::now());
    for shot in 1..=5 {
        send(&mut gateway, &clock, shot)?;
    }

    let mut draws = Draws(0x9e37_79b9_7f4a_7c15);
    for shot in 1..=20 {
        thread::sleep(Duration::from_millis(20));
        let decision = gateway.suppressed().inc(clock.reading(), CONTROLLER, 8.0, 1, draws.next())?;
        if let Decision::Suppressed { suppression_factor, is_allowed } = decision {
            let word = if is_allowed { "admitted" } else { "declined" };
            println!("shot {shot} at the suppressed limiter: {word} at factor {suppression_factor:.2}");
        }
    }

    // what is refused is told by its number, and changes nothing
    match gateway.absolute().inc(clock.reading(), &[b'x'; 33], 3.0, 1) {
        Err(refusal) => println!("a key of 33 bytes: {refusal}"),
        Ok(decision) => println!("a key of 33 bytes: {decision:?}"),
    }
    gateway.cleanup(clock.reading(), 60_000)?;

    let mut gateway = Gateway::new(settings, Table::new(), room);
    for number in 1..=3 {
        send_numbered(&mut gateway, &clock, &mut draws, number)?;
    }
    let counted = gateway.suppressed().get(clock.reading(), CONTROLLER)?;
    println!("in the last second: {} counted, {} of them turned away", counted.total, counted.total_declined);
    two_parties(settings, &clock)
}
