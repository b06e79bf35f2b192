//! Two parties in one room, through the archive.
use frostaxle::{
    Absolute, Bucket, Comparator, Decision, Gateway, Party, Preservation, Promises, Provider, Refusal, Room, Settings,
    Shot, Suppressed, Table,
};
use std::borrow::BorrowMut;

const KEY: &[u8] = b"ctl7";

/// Of three slots, two are promised to the first party and one to the second.
const PROMISES: Promises = Promises { first: 2, second: 1 };

const BOTH: [Party; 2] = [Party::First, Party::Second];

/// Where the two words stand that tell who holds which slots, and where the directory begins.
const FIRSTS: usize = 3;
const SECONDS: usize = 4;
const ENTRIES: usize = 5;

fn promises(first: u64, second: u64) -> Promises {
    Promises { first, second }
}

fn room() -> Room {
    Room::new(3, 4).unwrap()
}

/// The hard limit is twice the soft one. The readings and limits here are for a window of 10 s, which is not the
/// default.
fn settings() -> Settings {
    Settings { window_seconds: 10, hard_limit_factor: 2.0, ..Settings::default() }
}

fn absolute() -> Absolute {
    Absolute::new(settings(), room()).promises(PROMISES)
}

fn suppressed() -> Suppressed {
    Suppressed::new(settings(), room()).promises(PROMISES)
}

/// The key of both parties counted: 3 of the first and 5 of the second, which then holds all that it is promised.
fn counted() -> (Absolute, Suppressed) {
    let (mut one, mut other) = (absolute(), suppressed());
    for (party, count) in [(Party::First, 3), (Party::Second, 5)] {
        assert_eq!(one.party(party).inc(0, KEY, 1.0, count), Ok(Decision::Allowed));
        assert_eq!(other.party(party).inc(0, KEY, 1.0, count, 0), Ok(Decision::Allowed));
    }
    (one, other)
}

/// Who holds each of the three slots, by its bit in each of the two words: 0 nobody, 1 the first party, 2 the second, 3 neither.
fn holders(room: &Room) -> [u64; 3] {
    let (firsts, seconds) = (room.words()[FIRSTS], room.words()[SECONDS]);
    [0, 1, 2].map(|slot| (firsts >> slot & 1) + 2 * (seconds >> slot & 1))
}

/// A room with another word in this place.
fn changed(room: &Room, at: usize, word: u64) -> Room {
    let mut words = room.words().to_vec();
    words[at] = word;
    Room::from_words(words)
}

/// The refusal of each call with a reading, if it is refused, in turn.
fn told_by_absolute<R: BorrowMut<Room>>(limiter: &mut Absolute<R>, key: &[u8]) -> Vec<Option<Refusal>> {
    let (always, newest) = (Comparator::Always, Preservation::Newest);
    vec![
        limiter.inc(0, key, 1.0, 1).err(),
        limiter.is_allowed(0, key).err(),
        limiter.get(0, key).err(),
        limiter.set_rate_limit(0, key, 1.0).err(),
        limiter.set_if(0, key, 1.0, 1, always).err(),
        limiter.set_if_preserve_history(0, key, 1.0, 2, always, newest).err(),
        limiter.cleanup(0, 1_000).err(),
        limiter.delete(0, key).err(),
        limiter.clear(0).err(),
    ]
}

fn told_by_suppressed<R: BorrowMut<Room>>(limiter: &mut Suppressed<R>, key: &[u8]) -> Vec<Option<Refusal>> {
    let (always, newest) = (Comparator::Always, Preservation::Newest);
    vec![
        limiter.inc(0, key, 1.0, 1, 0).err(),
        limiter.get(0, key).err(),
        limiter.get_suppression_factor(0, key).err(),
        limiter.set_rate_limit(0, key, 1.0).err(),
        limiter.set_if(0, key, 1.0, 1, always).err(),
        limiter.set_if_preserve_history(0, key, 1.0, 2, always, newest).err(),
        limiter.cleanup(0, 1_000).err(),
        limiter.delete(0, key).err(),
        limiter.clear(0).err(),
    ]
}

/// Every call with a reading says this, of either party, on either room, and a shot too; nothing changes.
fn all_say(absolute: &Room, suppressed: &Room, promises: Promises, refusal: Refusal) {
    for party in BOTH {
        let (mut one, mut other) = (absolute.clone(), suppressed.clone());
        let mut limiter = Absolute::new(settings(), &mut one).promises(promises);
        assert_eq!(told_by_absolute(&mut limiter.party(party), KEY), vec![Some(refusal); 9]);
        let mut limiter = Suppressed::new(settings(), &mut other).promises(promises);
        assert_eq!(told_by_suppressed(&mut limiter.party(party), KEY), vec![Some(refusal); 9]);
        assert_eq!((&one, &other), (absolute, suppressed));
        let mut gateway = Gateway::new(settings(), Table::new(), other).promises(promises);
        assert_eq!(gateway.party(party).shot(0, KEY, 1, 1.0, 0), Err(refusal));
        assert_eq!((gateway.table(), gateway.room()), (&Table::new(), suppressed));
    }
}

// ---- keys

#[test]
fn the_same_bytes_are_two_keys() {
    let (mut one, mut other) = counted();
    for (party, count) in [(Party::First, 3), (Party::Second, 5)] {
        let bucket = Bucket { count, declined: 0, time: 0 };
        assert_eq!(one.party(party).get(0, KEY), Ok(count));
        assert_eq!(one.party(party).buckets(KEY), Ok(vec![bucket]));
        assert_eq!(other.party(party).get(0, KEY).unwrap().total, count);
        assert_eq!(other.party(party).buckets(KEY), Ok(vec![bucket]));
    }
    // without a word it is the first's
    assert_eq!((one.get(0, KEY), other.get(0, KEY).unwrap().total), (Ok(3), 3));
    // a limit of one's own, and a delete of one's own
    assert_eq!(one.party(Party::Second).set_rate_limit(0, KEY, 0.5), Ok(Some(1.0)));
    assert!(!one.party(Party::Second).is_allowed(0, KEY).unwrap().is_admitted());
    assert_eq!(one.is_allowed(0, KEY), Ok(Decision::Allowed));
    assert_eq!(one.delete(0, KEY), Ok(Some(3)));
    assert_eq!((one.get(0, KEY), one.party(Party::Second).get(0, KEY)), (Ok(0), Ok(5)));
    assert_eq!(other.party(Party::Second).delete(0, KEY), Ok(Some(5)));
    assert_eq!((other.get(0, KEY).unwrap().total, other.party(Party::Second).delete(0, KEY)), (3, Ok(None)));
}

/// A slot is its holder's, who has its bit: bit 0 of a word is slot 0's. What frees it writes nothing else.
#[test]
fn the_words_of_a_room() {
    let (mut one, _) = counted();
    assert_eq!((one.room().words()[FIRSTS], one.room().words()[SECONDS]), (0b001, 0b010));
    let entry = [1, 4, u64::from_le_bytes(*b"ctl7\0\0\0\0"), 0, 0, 0];
    assert_eq!(one.room().words()[ENTRIES..][..12], [entry, entry].concat());
    let stood = one.room().clone();
    one.delete(0, KEY).unwrap();
    assert_eq!(one.room(), &changed(&stood, FIRSTS, 0));
    // the lowest free slot is taken
    one.inc(0, b"boat", 1.0, 1).unwrap();
    assert_eq!(holders(one.room()), [1, 2, 0]);
}

/// A limiter may be lent its room, and a gateway its table and room.
#[test]
fn lent_rooms() {
    let (mut room, mut table) = (room(), Table::new());
    let mut limiter = Suppressed::new(settings(), &mut room).promises(PROMISES);
    limiter.party(Party::Second).party(Party::First).inc(0, KEY, 1.0, 3, 0).unwrap();
    assert_eq!(limiter.get(0, KEY).unwrap().total, 3);
    let mut gateway = Gateway::new(settings(), &mut table, &mut room).promises(PROMISES);
    assert_eq!(gateway.shot(0, KEY, 1, 1.0, 0), Ok(Shot::Allowed));
    assert_eq!((table.words()[0], holders(&room)), (1, [1, 0, 0]));
}

// ---- clear and cleanup

#[test]
fn a_clear_takes_the_callers_keys() {
    for (party, left) in [(Party::First, [0, 2, 0]), (Party::Second, [1, 0, 0])] {
        let (mut one, mut other) = counted();
        one.party(party).clear(0).unwrap();
        other.party(party).clear(0).unwrap();
        assert_eq!((holders(one.room()), holders(other.room())), (left, left));
        for of in BOTH {
            let total = if of == party { 0 } else { [3, 5][of as usize] };
            assert_eq!(one.party(of).get(0, KEY), Ok(total));
            assert_eq!(other.party(of).get(0, KEY).unwrap().total, total);
        }
    }
}

/// Whichever calls, what is stale goes of both, and what is not stays of both.
#[test]
fn a_cleanup_serves_both() {
    for party in BOTH {
        let (mut one, mut other) = counted();
        one.inc(400, b"boat", 1.0, 1).unwrap();
        other.inc(400, b"boat", 1.0, 1, 0).unwrap();
        one.party(party).cleanup(500, 500).unwrap();
        other.party(party).cleanup(500, 500).unwrap();
        assert_eq!((holders(one.room()), holders(other.room())), ([1, 2, 1], [1, 2, 1]));
        one.party(party).cleanup(501, 500).unwrap();
        other.party(party).cleanup(501, 500).unwrap();
        assert_eq!((holders(one.room()), holders(other.room())), ([0, 0, 1], [0, 0, 1]));
        assert_eq!((one.party(Party::Second).get(501, KEY), one.get(501, b"boat")), (Ok(0), Ok(1)));
    }
}

/// The second party's in one room, the first's in the other.
#[test]
fn both_rooms_of_both() {
    let mut provider = Provider::new(settings(), room(), room()).promises(PROMISES, promises(1, 0));
    provider.absolute().party(Party::Second).inc(0, KEY, 1.0, 1).unwrap();
    provider.suppressed().inc(0, KEY, 1.0, 1, 0).unwrap();
    assert_eq!(provider.cleanup(501, 500), Ok(()));
    assert_eq!(holders(provider.absolute().room()), [0, 0, 0]);
    assert_eq!(holders(provider.suppressed().room()), [0, 0, 0]);
}

// ---- a slot that is needed

#[test]
fn no_more_than_promised() {
    let (mut one, mut other) = counted();
    let (rooms, always) = ((one.room().clone(), other.room().clone()), Comparator::Always);
    let refused = Refusal::NoFreeSlot;
    // a slot is free, and it is not the second's
    let mut locks = one.party(Party::Second);
    assert_eq!(locks.inc(0, b"new", 1.0, 1), Err(refused));
    assert_eq!(locks.set_if(0, b"new", 1.0, 1, always), Err(refused));
    let set = locks.set_if_preserve_history(0, b"new", 1.0, 1, always, Preservation::Newest);
    assert_eq!(set, Err(refused));
    let mut locks = other.party(Party::Second);
    assert_eq!(locks.inc(0, b"new", 1.0, 1, 0), Err(refused));
    assert_eq!(locks.get_suppression_factor(0, b"new"), Err(refused));
    assert_eq!(locks.set_if(0, b"new", 1.0, 1, always), Err(refused));
    assert_eq!((one.room(), other.room()), (&rooms.0, &rooms.1));
    // what needs none is answered
    let mut locks = one.party(Party::Second);
    assert_eq!((locks.is_allowed(0, b"new"), locks.get(0, b"new")), (Ok(Decision::Allowed), Ok(0)));
    assert!(locks.set_if(0, b"new", 1.0, 0, always).unwrap().matched);
    assert_eq!(locks.inc(0, KEY, 1.0, 1), Ok(Decision::Allowed));
    // one that it frees it may take again
    locks.delete(0, KEY).unwrap();
    assert_eq!(locks.inc(0, b"new", 1.0, 1), Ok(Decision::Allowed));
    // the first's are there for it
    assert_eq!(one.inc(0, b"boat", 1.0, 1), Ok(Decision::Allowed));
    assert_eq!(one.inc(0, b"boat9", 1.0, 1), Err(refused));
}

/// A promise of 0 is no slot; and slots that are promised to none stay free.
#[test]
fn promised_nothing() {
    let mut limiter = absolute().promises(promises(1, 0));
    assert_eq!(limiter.party(Party::Second).inc(0, KEY, 1.0, 1), Err(Refusal::NoFreeSlot));
    assert_eq!(limiter.inc(0, KEY, 1.0, 1), Ok(Decision::Allowed));
    assert_eq!(limiter.inc(0, b"boat", 1.0, 1), Err(Refusal::NoFreeSlot));
    let mut limiter = absolute().promises(promises(0, 0));
    for party in BOTH {
        assert_eq!(limiter.party(party).inc(0, KEY, 1.0, 1), Err(Refusal::NoFreeSlot));
        assert_eq!(limiter.party(party).get(0, KEY), Ok(0));
    }
}

/// Without a word of promises the first party has every slot.
#[test]
fn one_party() {
    let mut limiter = Absolute::new(settings(), room());
    assert_eq!(limiter.party(Party::Second).inc(0, KEY, 1.0, 1), Err(Refusal::NoFreeSlot));
    for key in [b"a", b"b", b"c"] {
        assert_eq!(limiter.inc(0, key, 1.0, 1), Ok(Decision::Allowed));
    }
    assert_eq!(limiter.inc(0, KEY, 1.0, 1), Err(Refusal::NoFreeSlot));
    // a room that the other party has used wants a promise for it
    let (one, _) = counted();
    let mut limiter = Absolute::new(settings(), one.into_room());
    assert_eq!(limiter.get(0, KEY), Err(Refusal::BadPromise));
    assert_eq!(limiter.promises(PROMISES).get(0, KEY), Ok(3));
}

// ---- promises that cannot be kept

#[test]
fn promises_over_the_room() {
    let (one, other) = counted();
    let most = u64::MAX;
    for (first, second) in [(2, 2), (3, 1), (1, 3), (4, 0), (0, 4), (most, 1), (1, most), (most, most), (most - 1, 3)] {
        all_say(one.room(), other.room(), promises(first, second), Refusal::BadPromise);
    }
    let mut limiter = one.promises(promises(1, 2));
    assert_eq!(limiter.get(0, KEY), Ok(3));
}

/// 16 by what either party holds, for the calls of both.
#[test]
fn holding_more_than_promised() {
    let (one, other) = counted();
    for (first, second) in [(0, 1), (1, 0), (0, 0), (3, 0), (0, 3)] {
        all_say(one.room(), other.room(), promises(first, second), Refusal::BadPromise);
    }
    // the read-out takes no slot
    let one = one.promises(promises(0, 0));
    assert_eq!(one.buckets(KEY).unwrap().len(), 1);
    let mut one = one.promises(promises(1, 1));
    assert_eq!(told_by_absolute(&mut one, KEY), vec![None; 9]);
    // the first holds none now
    assert_eq!(one.promises(promises(0, 1)).party(Party::Second).get(0, KEY), Ok(5));
}

/// After the key's length and before the rate.
#[test]
fn their_place_among_the_refusals() {
    let (one, other) = counted();
    let mut limiter = other.promises(promises(4, 0));
    assert_eq!(limiter.inc(0, &[0; 33], 0.0, 1, u64::MAX), Err(Refusal::LongKey));
    assert_eq!(limiter.inc(0, KEY, 0.0, 1, u64::MAX), Err(Refusal::BadPromise));
    assert_eq!(limiter.set_if(0, b"new", 0.0, u64::MAX, Comparator::Always), Err(Refusal::BadPromise));
    let mut limiter = limiter.promises(PROMISES);
    assert_eq!(limiter.inc(0, KEY, 0.0, 1, u64::MAX), Err(Refusal::BadRate));
    assert_eq!(limiter.inc(0, KEY, 1.0, 1, u64::MAX), Err(Refusal::BadDraw));
    // the count of a new key before its slot
    assert_eq!(limiter.party(Party::Second).inc(0, b"new", 1.0, u64::MAX, 0), Err(Refusal::TotalTooLarge));
    limiter.get(9, KEY).unwrap();
    let mut limiter = limiter.promises(promises(4, 0));
    assert_eq!(limiter.get(8, KEY), Err(Refusal::ClockWentBack));
    assert_eq!((limiter.clear(8), limiter.cleanup(8, 0)), (Err(Refusal::ClockWentBack), Err(Refusal::ClockWentBack)));
    let strange = changed(one.room(), FIRSTS, 0b011);
    let mut limiter = Absolute::new(settings(), strange).promises(promises(4, 0));
    assert_eq!(limiter.inc(0, &[0; 33], 0.0, 1), Err(Refusal::BadRoom));
}

/// 16 where either room meets it, after 5 and 6 of either; then neither is cleaned.
#[test]
fn promises_of_both_rooms() {
    let (one, other) = counted();
    let (one, other) = (one.into_room(), other.into_room());
    let provider = |absolute: &Room| Provider::new(settings(), absolute.clone(), other.clone());
    let (bad, refused) = (promises(2, 2), Err(Refusal::BadPromise));
    for (absolute, suppressed) in [(bad, PROMISES), (PROMISES, bad), (promises(0, 1), PROMISES), (bad, bad)] {
        let mut provider = provider(&one).promises(absolute, suppressed);
        assert_eq!(provider.cleanup(501, 500), refused);
        assert_eq!(provider.absolute().room(), &one);
        assert_eq!(provider.suppressed().room(), &other);
    }
    // 6 of one before 16 of the other, and 5 before both
    let mut late = provider(&changed(&one, 2, 9)).promises(PROMISES, bad);
    assert_eq!(late.cleanup(8, 0), Err(Refusal::ClockWentBack));
    let mut strange = provider(&changed(&changed(&one, 2, 9), SECONDS, 0b011)).promises(bad, bad);
    assert_eq!(strange.cleanup(8, 0), Err(Refusal::BadRoom));
    let mut cleaned = provider(&one).promises(PROMISES, promises(1, 2));
    assert_eq!(cleaned.cleanup(501, 500), Ok(()));
}

// ---- slots that are neither party's

#[test]
fn held_by_neither() {
    let (one, other) = counted();
    let (all, high) = (u64::MAX, 1 << 63);
    // the first slot, the second, the third, some of them, all
    let both =
        [(1, 3), (3, 2), (5, 6), (6, 6), (7, 4), (3, 3), (7, 7), (all, 2), (1, all), (all, all), (high | 1, high | 3)];
    for (firsts, seconds) in both {
        let strange = |room: &Room| changed(&changed(room, FIRSTS, firsts), SECONDS, seconds);
        let (absolute, suppressed) = (strange(one.room()), strange(other.room()));
        assert!(holders(&absolute).contains(&3));
        all_say(&absolute, &suppressed, PROMISES, Refusal::BadRoom);
        assert_eq!(Absolute::new(settings(), absolute).buckets(b"none"), Err(Refusal::BadRoom));
        assert_eq!(Suppressed::new(settings(), suppressed).buckets(b"none"), Err(Refusal::BadRoom));
    }
}

/// Of slots that the room does not have nothing is looked at, nor of those that nobody holds.
#[test]
fn words_that_say_nothing() {
    let (one, _) = counted();
    // of slots 3 to 63 all bits of one word and some of the other
    let (firsts, seconds) = (u64::MAX << 3, 1 << 3 | 1 << 31 | 1 << 32 | 1 << 63);
    let beyond = changed(&changed(one.room(), FIRSTS, firsts | 0b001), SECONDS, seconds | 0b010);
    let free = changed(&changed(&beyond, ENTRIES + 12, 9), ENTRIES + 13, 99);
    let mut limiter = Absolute::new(settings(), free).promises(PROMISES);
    assert_eq!(limiter.cleanup(0, 0), Ok(()));
    assert_eq!(limiter.inc(0, b"boat", 1.0, 1), Ok(Decision::Allowed));
    assert_eq!(limiter.room().words()[ENTRIES + 12..][..2], [1, 4]);
    // the lowest free slot is taken, and the bits beyond stay
    let words = limiter.room().words();
    assert_eq!((words[FIRSTS], words[SECONDS]), (firsts | 0b101, seconds | 0b010));
    assert_eq!(limiter.clear(0), Ok(()));
    assert_eq!(limiter.party(Party::Second).clear(0), Ok(()));
    assert_eq!((limiter.room().words()[FIRSTS], limiter.room().words()[SECONDS]), (firsts, seconds));
}

/// Held, and of no use: the key's own calls and a cleanup meet it, those of the other party's key do not.
#[test]
fn held_for_nothing() {
    let (one, other) = counted();
    for use_word in [0, 4, u64::MAX] {
        let mut limiter = Absolute::new(settings(), changed(one.room(), ENTRIES, use_word)).promises(PROMISES);
        assert_eq!((limiter.get(0, KEY), limiter.buckets(KEY)), (Err(Refusal::BadRoom), Err(Refusal::BadRoom)));
        assert_eq!(limiter.party(Party::Second).get(0, KEY), Ok(5));
        assert_eq!(limiter.party(Party::Second).cleanup(0, 0), Err(Refusal::BadRoom));
        assert_eq!(limiter.clear(0), Ok(()));
        assert_eq!((limiter.get(0, KEY), limiter.cleanup(0, 0)), (Ok(0), Ok(())));
        let mut limiter = Suppressed::new(settings(), changed(other.room(), ENTRIES, use_word)).promises(PROMISES);
        assert_eq!(limiter.get_suppression_factor(0, KEY), Err(Refusal::BadRoom));
        assert_eq!(limiter.party(Party::Second).get(0, KEY).unwrap().total, 5);
    }
}

// ---- what the other party does

/// What the second party may do between two calls of the first.
type Doings = fn(&mut Suppressed<&mut Room>, u64);

/// Takes what it can get, under the first's names too, and is refused the rest.
fn crowds(locks: &mut Suppressed<&mut Room>, reading: u64) {
    for key in [KEY, b"boat", b"gate1", b"gate2"] {
        let _ = locks.inc(reading, key, 9.0, 40, reading);
        let _ = locks.get_suppression_factor(reading, key);
        let _ = locks.set_if(reading, key, 1.0, 1 << 54, Comparator::Always);
        let _ = locks.inc(reading, key, f64::NAN, 1, 0);
    }
}

fn clears(locks: &mut Suppressed<&mut Room>, reading: u64) {
    crowds(locks, reading);
    locks.clear(reading).unwrap();
}

/// The answers of the first party to the same calls, with the same cleanups.
fn answers(between: Doings) -> Vec<String> {
    let mut limiter = suppressed();
    let mut told = Vec::new();
    for reading in (0..24_000).step_by(400) {
        between(&mut limiter.party(Party::Second), reading);
        let key = [KEY, b"boat", b"boat8"][reading as usize / 400 % 3];
        told.push(format!("{:?}", limiter.inc(reading, key, 1.0, 6, 1 << 52)));
        between(&mut limiter.party(Party::Second), reading);
        told.push(format!("{:?}", limiter.get(reading + 1, key)));
        told.push(format!("{:?}", limiter.get_suppression_factor(reading + 150, b"boat9")));
        if reading % 6_000 == 0 {
            told.push(format!("{:?}", limiter.delete(reading + 150, key)));
        }
        if reading % 10_000 == 0 {
            between(&mut limiter.party(Party::Second), reading + 200);
            limiter.cleanup(reading + 200, 3_000).unwrap();
        }
    }
    told
}

#[test]
fn the_other_party_alters_nothing() {
    let alone = answers(|_, _| ());
    for word in ["Err(NoFreeSlot)", "Ok(Allowed)", "is_allowed: true", "is_allowed: false"] {
        assert!(alone.iter().any(|told| told.contains(word)), "{word}");
    }
    assert_eq!(answers(crowds), alone);
    assert_eq!(answers(clears), alone);
}

// ---- shots

#[test]
fn shots_by_party() {
    let mut gateway = Gateway::new(settings(), Table::new(), room()).promises(PROMISES);
    assert_eq!(gateway.shot(0, b"boat7", 1, 1.0, 0), Ok(Shot::Allowed));
    assert_eq!(gateway.party(Party::Second).shot(0, b"gate1", 1, 1.0, 0), Ok(Shot::Allowed));
    assert_eq!(holders(gateway.room()), [1, 2, 0]);
    for (party, boat, gate) in [(Party::First, 1, 0), (Party::Second, 0, 1)] {
        let mut of = gateway.party(party);
        assert_eq!(of.suppressed().get(0, b"boat7").unwrap().total, boat);
        assert_eq!(of.suppressed().get(0, b"gate1").unwrap().total, gate);
    }
    // it holds what it is promised; the shot is not remembered
    let table = gateway.table().clone();
    assert_eq!(gateway.party(Party::Second).shot(0, b"gate2", 1, 1.0, 0), Err(Refusal::NoFreeSlot));
    assert_eq!(gateway.table(), &table);
    assert_eq!(gateway.party(Party::Second).new_season(), Ok(()));
    assert_eq!(gateway.table(), &Table::new());
}

/// The table knows a controller by its bytes, whichever party sends the shot; the room counts it for the sender.
#[test]
fn one_table() {
    let mut gateway = Gateway::new(settings(), Table::new(), room()).promises(PROMISES);
    assert_eq!(gateway.shot(0, KEY, 5, 1.0, 0), Ok(Shot::Allowed));
    let mut locks = gateway.party(Party::Second);
    assert_eq!(locks.shot(0, KEY, 5, 1.0, 0), Ok(Shot::Held));
    assert_eq!(locks.shot(0, KEY, 4, 1.0, 0), Err(Refusal::OldNumber));
    assert_eq!(locks.shot(0, KEY, 6, 1.0, 0), Ok(Shot::Allowed));
    assert_eq!(locks.suppressed().get(0, KEY).unwrap().total, 1);
    assert_eq!(gateway.suppressed().get(0, KEY).unwrap().total, 1);
    assert_eq!(gateway.shot(0, KEY, 6, 1.0, 0), Ok(Shot::Held));
    assert_eq!(gateway.table().words()[0], 1);
}

/// Promises are the limiter's to judge: after a shot's own refusals, and not of one that is held.
#[test]
fn promises_of_a_shot() {
    let mut gateway = Gateway::new(settings(), Table::new(), room()).promises(PROMISES);
    assert_eq!(gateway.shot(0, KEY, 5, 1.0, 0), Ok(Shot::Allowed));
    let mut gateway = gateway.promises(promises(4, 0));
    assert_eq!(gateway.shot(0, KEY, 0, 1.0, 0), Err(Refusal::BadNumber));
    assert_eq!(gateway.shot(0, KEY, 4, 1.0, 0), Err(Refusal::OldNumber));
    assert_eq!(gateway.shot(0, KEY, 5, 1.0, 0), Ok(Shot::Held));
    assert_eq!(gateway.shot(0, KEY, 6, 0.0, 0), Err(Refusal::BadPromise));
    assert_eq!(gateway.shot(0, &[0; 33], 6, 0.0, 0), Err(Refusal::LongKey));
    assert_eq!(gateway.promises(promises(0, 3)).shot(0, KEY, 6, 1.0, 0), Err(Refusal::BadPromise));
}

/// 389 words; a room of so many is none.
#[test]
fn the_length_of_a_table() {
    assert_eq!((Table::WORDS, Table::new().words().len()), (389, 389));
    assert_eq!(Room::words_for(24, 1), Some(389));
    let (table, room) = (Table::from_words(Room::new(24, 1).unwrap().into_words()), room());
    let mut gateway = Gateway::new(settings(), table, room);
    assert_eq!(gateway.shot(0, KEY, 1, 1.0, 0), Err(Refusal::BadRoom));
    assert_eq!(gateway.new_season(), Err(Refusal::BadRoom));
}
