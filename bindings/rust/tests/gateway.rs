//! Shots by their numbers, through the archive.
use frostaxle::{Comparator, Gateway, Refusal, Room, Settings, Shot, Table};

const CONTROLLER: &[u8] = b"ctl7";
const MOST: u64 = (1 << 32) - 1;

/// Where a table's entries begin, six words each.
const ENTRIES: usize = 5;

/// One shot in 10 s soft, two hard.
const RATE: f64 = 0.1;

/// The readings and limits here are for a window of 10 s, which is not the default.
fn ten_seconds() -> Settings {
    Settings { window_seconds: 10, ..Settings::default() }
}

/// A gateway whose hard limit is twice the soft one.
fn over(table: Table, room: Room) -> Gateway {
    Gateway::new(Settings { hard_limit_factor: 2.0, ..ten_seconds() }, table, room)
}

fn gateway() -> Gateway {
    over(Table::new(), Room::new(64, 4).unwrap())
}

fn key(controller: u64) -> [u8; 8] {
    controller.to_le_bytes()
}

/// A gateway that has shot 5 of each of these controllers.
fn with(controllers: u64) -> Gateway {
    let mut gateway = gateway();
    for controller in 0..controllers {
        assert_eq!(gateway.shot(0, &key(controller), 5, RATE, 0), Ok(Shot::Allowed));
    }
    gateway
}

/// Refused with this, and every word of table and room stays.
fn refuses(gateway: &mut Gateway, reading: u64, controller: &[u8], number: u64, rate: f64, draw: u64, with: Refusal) {
    let (table, room) = (gateway.table().clone(), gateway.room().clone());
    assert_eq!(gateway.shot(reading, controller, number, rate, draw), Err(with));
    assert_eq!((gateway.table(), gateway.room()), (&table, &room));
}

/// Held, and every word of table and room stays.
fn holds(gateway: &mut Gateway, controller: &[u8], number: u64) {
    let (table, room) = (gateway.table().clone(), gateway.room().clone());
    assert_eq!(gateway.shot(9, controller, number, RATE, 0), Ok(Shot::Held));
    assert_eq!((gateway.table(), gateway.room()), (&table, &room));
}

fn damaged(words: &[u64], at: usize, word: u64) -> Table {
    let mut words = words.to_vec();
    words[at] = word;
    Table::from_words(words)
}

// ---- tables

#[test]
fn an_empty_table() {
    assert_eq!(Table::new().words(), [0; Table::WORDS]);
    assert_eq!(Table::default(), Table::new());
    assert_eq!(Table::from_words(vec![0; 389]).into_words(), Table::new().into_words());
}

#[test]
fn the_words_of_a_table() {
    let mut gateway = gateway();
    gateway.shot(0, b"a", 7, RATE, 0).unwrap();
    gateway.shot(0, &[b'b'; 32], MOST, RATE, 0).unwrap();
    let words = gateway.into_parts().0.into_words();
    assert_eq!(words[..3], [2, 0, 0]);
    // nobody holds an entry
    assert_eq!(words[3..ENTRIES], [0; 2]);
    assert_eq!(words[ENTRIES..][..6], [7, 1, u64::from(b'a'), 0, 0, 0]);
    assert_eq!(words[ENTRIES + 6..][..2], [MOST, 32]);
    assert!(words[ENTRIES + 12..].iter().all(|&word| word == 0));
}

#[test]
fn words_are_read_back() {
    let (table, room) = with(3).into_parts();
    let mut again = over(Table::from_words(table.into_words()), Room::from_words(room.into_words()));
    holds(&mut again, &key(2), 5);
    // the room may be lost: what is held stands in the table alone
    let table = again.into_parts().0;
    let mut again = over(table, Room::new(1, 1).unwrap());
    holds(&mut again, &key(2), 5);
}

// ---- shots

#[test]
fn a_lost_answer() {
    let mut gateway = gateway();
    assert_eq!(gateway.shot(0, CONTROLLER, 1, RATE, 0), Ok(Shot::Allowed));
    holds(&mut gateway, CONTROLLER, 1);
    holds(&mut gateway, CONTROLLER, 1);
    assert_eq!(gateway.suppressed().get(9, CONTROLLER).unwrap().total, 1);
    // numbers may be left out
    assert_eq!(gateway.shot(9, CONTROLLER, MOST, RATE, 0), Ok(Shot::Allowed));
    holds(&mut gateway, CONTROLLER, MOST);
}

/// Nothing is looked at for it but number, controller and table.
#[test]
fn held_whatever_else() {
    let table = with(1).into_parts().0;
    let nothing = Settings { window_seconds: 0, bucket_millis: 0, cache_millis: 0, ..Settings::default() };
    let settings = Settings { hard_limit_factor: f64::NAN, ..nothing };
    let mut gateway = Gateway::new(settings, table, Room::from_words(vec![1, 2]));
    assert_eq!(gateway.shot(0, &key(0), 5, f64::NAN, u64::MAX), Ok(Shot::Held));
    refuses(&mut gateway, 0, &key(0), 4, f64::NAN, u64::MAX, Refusal::OldNumber);
    refuses(&mut gateway, 0, &key(0), 6, f64::NAN, u64::MAX, Refusal::BadWindow);
}

#[test]
fn turned_away_and_sent_again() {
    let mut gateway = gateway();
    assert_eq!(gateway.shot(0, CONTROLLER, 1, RATE, 0), Ok(Shot::Allowed));
    assert_eq!(gateway.shot(0, CONTROLLER, 2, RATE, 0), Ok(Shot::Allowed));
    let table = gateway.table().clone();
    let no = Shot::Suppressed { suppression_factor: 1.0, is_allowed: false };
    assert_eq!(gateway.shot(1, CONTROLLER, 3, RATE, 0), Ok(no));
    assert_eq!(gateway.shot(2, CONTROLLER, 3, RATE, 0), Ok(no));
    assert!(!no.is_admitted());
    // it is counted, and not remembered
    assert_eq!(gateway.suppressed().get(2, CONTROLLER).unwrap().total_declined, 2);
    assert_eq!(gateway.table(), &table);
    holds(&mut gateway, CONTROLLER, 2);
    assert_eq!(gateway.shot(10_003, CONTROLLER, 3, RATE, 0), Ok(Shot::Allowed));
    holds(&mut gateway, CONTROLLER, 3);
    refuses(&mut gateway, 10_003, CONTROLLER, 2, RATE, 0, Refusal::OldNumber);
}

/// A link test counts 0 in the room: the slow controller's first shot after it is admitted, and remembered.
#[test]
fn after_a_link_test() {
    let four = Settings { hard_limit_factor: 4.0, ..ten_seconds() };
    let mut gateway = Gateway::new(four, Table::new(), Room::new(1, 4).unwrap());
    gateway.suppressed().inc(0, CONTROLLER, 0.05, 0, 0).unwrap();
    let yes = Shot::Suppressed { suppression_factor: 0.0, is_allowed: true };
    assert_eq!(gateway.shot(1, CONTROLLER, 1, 0.05, (1 << 53) - 1), Ok(yes));
    holds(&mut gateway, CONTROLLER, 1);
}

/// A yes between the limits is remembered as any other.
#[test]
fn the_draw_decides() {
    for (draw, is_allowed) in [(0, true), ((1 << 53) - 1, false)] {
        let mut gateway = gateway();
        // one a second: 10 soft, 20 hard
        for number in 1..=10 {
            assert_eq!(gateway.shot(0, CONTROLLER, number, 1.0, 0), Ok(Shot::Allowed));
        }
        let factor = gateway.suppressed().get_suppression_factor(1, CONTROLLER).unwrap();
        assert!(0.0 < factor && factor < 1.0);
        let shot = gateway.shot(1, CONTROLLER, 11, 1.0, draw).unwrap();
        assert_eq!(shot, Shot::Suppressed { suppression_factor: factor, is_allowed });
        assert_eq!(shot.is_admitted(), is_allowed);
        holds(&mut gateway, CONTROLLER, if is_allowed { 11 } else { 10 });
    }
}

#[test]
fn a_new_season() {
    let mut gateway = with(64);
    assert_eq!(gateway.new_season(), Ok(()));
    assert_eq!(gateway.table(), &Table::new());
    // the room stays: 5 was counted there
    assert_eq!(gateway.suppressed().get(1, &key(0)).unwrap().total, 1);
    assert_eq!(gateway.shot(1, &key(0), 5, RATE, 0), Ok(Shot::Allowed));
    assert_eq!(gateway.suppressed().get(1, &key(0)).unwrap().total, 2);
}

/// No call of the limiter touches the table.
#[test]
fn what_is_held_stays() {
    let mut gateway = with(2);
    let table = gateway.table().clone();
    gateway.suppressed().delete(1, &key(0)).unwrap();
    gateway.suppressed().set_if(1, &key(1), RATE, 9, Comparator::Always).unwrap();
    gateway.suppressed().cleanup(100_000, 0).unwrap();
    gateway.suppressed().clear(100_000).unwrap();
    assert_eq!(gateway.suppressed().get(100_000, &key(0)).unwrap().total, 0);
    assert_eq!(gateway.table(), &table);
    holds(&mut gateway, &key(0), 5);
    holds(&mut gateway, &key(1), 5);
}

// ---- refusals

#[test]
fn numbers_out_of_range() {
    let mut gateway = with(64);
    for number in [0, MOST + 1, u64::MAX] {
        refuses(&mut gateway, 0, &key(0), number, RATE, 0, Refusal::BadNumber);
        refuses(&mut gateway, 0, &key(64), number, RATE, 0, Refusal::BadNumber);
    }
    // also with what is no table
    let mut gateway = over(Table::from_words(vec![]), Room::from_words(vec![]));
    refuses(&mut gateway, 0, CONTROLLER, 0, RATE, 0, Refusal::BadNumber);
}

#[test]
fn numbers_below_the_last_admitted() {
    let mut gateway = with(1);
    for number in 1..5 {
        refuses(&mut gateway, 0, &key(0), number, RATE, 0, Refusal::OldNumber);
    }
    // another controller has its own
    assert_eq!(gateway.shot(0, &key(1), 1, RATE, 0), Ok(Shot::Allowed));
}

#[test]
fn sixty_five_controllers() {
    let mut gateway = with(64);
    refuses(&mut gateway, 0, &key(64), 1, RATE, 0, Refusal::TableFull);
    // a cleanup makes place in the room, and none in the table
    gateway.suppressed().cleanup(100_000, 0).unwrap();
    refuses(&mut gateway, 100_000, &key(64), 1, RATE, 0, Refusal::TableFull);
    // a key that is too long is not in the table
    refuses(&mut gateway, 100_000, &[0; 33], 1, RATE, 0, Refusal::TableFull);
    holds(&mut gateway, &key(63), 5);
    assert_eq!(gateway.shot(100_000, &key(63), 6, RATE, 0), Ok(Shot::Allowed));
    gateway.new_season().unwrap();
    assert_eq!(gateway.shot(100_000, &key(64), 1, RATE, 0), Ok(Shot::Allowed));
}

/// What an increment refuses, a shot refuses; it is not remembered, and may be sent again.
#[test]
fn the_limiters_refusals() {
    let mut gateway = with(1);
    gateway.suppressed().get(9, b"").unwrap();
    refuses(&mut gateway, 8, &key(0), 6, RATE, 0, Refusal::ClockWentBack);
    refuses(&mut gateway, 9, &[0; 33], 6, RATE, 0, Refusal::LongKey);
    refuses(&mut gateway, 9, &key(0), 6, 0.0, 0, Refusal::BadRate);
    refuses(&mut gateway, 9, &key(0), 6, RATE, 1 << 53, Refusal::BadDraw);
    assert_eq!(gateway.shot(9, &key(0), 6, RATE, 0), Ok(Shot::Allowed));
    let mut crowded = over(Table::new(), Room::new(1, 1).unwrap());
    assert_eq!(crowded.shot(0, b"a", 1, RATE, 0), Ok(Shot::Allowed));
    refuses(&mut crowded, 0, b"b", 1, RATE, 0, Refusal::NoFreeSlot);
    refuses(&mut crowded, 101, b"a", 2, RATE, 0, Refusal::RingFull);
    holds(&mut crowded, b"a", 1);
}

/// 5 in its place, and nothing changes; an unsound table holds nothing.
#[test]
fn damaged_tables() {
    let (table, room) = with(3).into_parts();
    let words = table.into_words();
    let mut tables = vec![
        Table::from_words(vec![]),
        Table::from_words(words[..388].to_vec()),
        Table::from_words([&words[..], &[0]].concat()),
    ];
    // too many controllers; a room's ring, or its reading
    tables.extend([(0, 65), (0, u64::MAX), (1, 1), (2, 1)].map(|(at, word)| damaged(&words, at, word)));
    for table in tables {
        let mut gateway = over(table.clone(), room.clone());
        for number in [1, 5, 6] {
            refuses(&mut gateway, 0, &key(0), number, RATE, 0, Refusal::BadRoom);
        }
        assert_eq!(gateway.new_season(), Err(Refusal::BadRoom));
        assert_eq!(gateway.table(), &table);
        // settings are judged before it
        let settings = Settings { hard_limit_factor: 0.0, ..ten_seconds() };
        let mut gateway = Gateway::new(settings, table, room.clone());
        refuses(&mut gateway, 0, &key(0), 5, RATE, 0, Refusal::BadFactor);
    }
}

/// A damaged entry is met by its own controller alone.
#[test]
fn damaged_entries() {
    let (table, room) = with(3).into_parts();
    let words = table.into_words();
    let (header, entries) = words.split_at(ENTRIES);
    let twice = [header, &entries[..6], &entries[..6], &entries[12..]].concat();
    // no number; one that is too large; the key standing twice
    for table in [damaged(&words, ENTRIES, 0), damaged(&words, ENTRIES, MOST + 1), Table::from_words(twice)] {
        let mut gateway = over(table, room.clone());
        refuses(&mut gateway, 0, &key(0), 5, RATE, 0, Refusal::BadRoom);
        refuses(&mut gateway, 0, &key(0), 4, RATE, 0, Refusal::BadRoom);
        holds(&mut gateway, &key(2), 5);
        assert_eq!(gateway.new_season(), Ok(()));
        assert_eq!(gateway.table(), &Table::new());
    }
}

#[test]
fn a_damaged_room() {
    let mut gateway = over(Table::new(), Room::from_words(vec![1, 1]));
    refuses(&mut gateway, 0, CONTROLLER, 1, RATE, 0, Refusal::BadRoom);
    // rooms and tables are not taken for each other
    let (table, room) = with(1).into_parts();
    let mut gateway = over(Table::from_words(room.into_words()), Room::from_words(table.into_words()));
    refuses(&mut gateway, 0, &key(0), 6, RATE, 0, Refusal::BadRoom);
    assert_eq!(gateway.new_season(), Err(Refusal::BadRoom));
}
