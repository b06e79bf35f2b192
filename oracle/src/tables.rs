//! Tables that no call made: good ones with words changed, controllers that stand twice, wrong lengths, and random words; with rooms that
//! are damaged too. Then every set of refusals together.

use twin::calls::Asked;
use twin::gateway::Shot;
use twin::rules::{Kind, Settings};

use crate::expected::{ENTRY, HEADER, HOLDERS, holder, set_holder};
use crate::loaded::{damage, holder_words};
use crate::random::{Dice, bad_rate, bad_settings, rate};
use crate::seasons::{Season, extreme_number, played};
use crate::shots::{ALLOWED, DONE, HELD, Memory, NO, Shots, YES};
use crate::shots_together;

const TOP: u64 = 1 << 53;
const NUMBERS: u64 = 1 << 32;

/// What the damaged tables of a run must come to.
const COMES: [usize; 19] =
    [HELD, ALLOWED, YES, NO, DONE, 1, 2, 3, 4, 5, 6, 7, 8, 9, 15, 16, 19, 20, 21];

/// So many tables at least, for all of that to come.
const LEAST: u64 = 6_000;

/// What the calls on one season's tables are drawn from.
struct Scene<'a> {
    dice: &'a mut Dice,
    shots: &'a mut Shots,
    season: &'a Season,
}

/// The controller that an entry shows.
fn shown(entry: &[u64]) -> Vec<u8> {
    let bytes = entry[2..].iter().flat_map(|word| word.to_le_bytes());
    bytes.take(entry[1].min(32) as usize).collect()
}

impl Scene<'_> {
    fn controller(&mut self, own: &[u8]) -> Vec<u8> {
        let pool = &self.season.controllers;
        match self.dice.below(24) {
            0 => vec![b'k'; self.dice.pick(&[33, 40, 1000])],
            1 => b"nobody".to_vec(),
            2..=4 => pool[self.dice.below(pool.len() as u64) as usize].bytes.clone(),
            _ => own.to_vec(),
        }
    }

    /// A number beside the one that stands in the entry, or one at the ends.
    fn number(&mut self, last: u64) -> u64 {
        match self.dice.below(12) {
            0 => extreme_number(self.dice),
            1 => 1 + self.dice.below(4),
            2 => NUMBERS - 1,
            3 | 4 => last,
            5 | 6 => last.wrapping_sub(1),
            _ => last.wrapping_add(1),
        }
    }

    fn reading(&mut self, last: u64) -> u64 {
        let Settings { bucket, clock, .. } = self.season.settings;
        match self.dice.below(24) {
            0 => last.saturating_sub(1),
            1 => self.dice.pick(&[0, u64::MAX]),
            _ => {
                let rise = self.dice.pick(&[0, 0, 1, bucket, bucket + 1, 60_000]);
                last.saturating_add(self.dice.ticks(clock, rise))
            }
        }
    }

    /// The season's room, mostly as it is.
    fn memory(&mut self, table: &[u64]) -> Memory {
        let mut memory = Memory { table: table.to_vec(), rooms: self.season.memory.rooms.clone() };
        if self.dice.once_in(5) {
            damage(self.dice, &mut memory.rooms.suppressed);
        }
        // A table in the room's place.
        if self.dice.once_in(200) {
            memory.rooms.suppressed = table.to_vec();
        }
        memory
    }

    fn settings(&mut self) -> Settings {
        match self.dice.once_in(40) {
            true => bad_settings(self.dice, &self.season.settings),
            false => self.season.settings,
        }
    }

    /// A shot of the controller, whose number stands beside `last`.
    fn shoot(&mut self, memory: &mut Memory, own: &[u8], last: u64) {
        let (settings, controller) = (self.settings(), self.controller(own));
        let number = self.number(last);
        let reading = self.reading(self.season.memory.rooms.suppressed[2]);
        let good_rate = rate(self.dice, &self.season.settings);
        let rate = if self.dice.once_in(40) { bad_rate(self.dice) } else { good_rate };
        let within = self.dice.below(TOP);
        let draw = self.dice.pick(&[0, within, within, within, within, TOP - 1, TOP, u64::MAX]);
        let shot = Shot { controller: &controller, number, rate, draw };
        let mut callers = self.season.callers();
        let party = callers.party(self.dice);
        let caller = callers.given(self.dice, &memory.rooms, Kind::Suppressed).to(party);
        self.shots.put(&settings, memory, reading, Asked::Shot(caller, shot));
    }

    /// Shots, a new season and a table made anew, each on the words as they are, or now and then one after another.
    fn try_all(&mut self, table: &[u64], own: &[u8], last: u64) {
        self.shots.damaged += 1;
        let mut memory = self.memory(table);
        let in_a_row = self.dice.once_in(8);
        for _ in 0..4 {
            self.shoot(&mut memory, own, last);
            if !in_a_row {
                memory = self.memory(table);
            }
        }
        for asked in [Asked::NewSeason, Asked::MakeTable] {
            let reading = self.dice.any();
            self.shots.put(&self.season.settings, &mut memory, reading, asked);
            if !in_a_row {
                memory.table.clear();
                memory.table.extend(table);
            }
        }
    }

    /// The same, asked for the controller of an entry as it was or as it shows now.
    fn try_entry(&mut self, good: &[u64], table: &[u64], at: usize) {
        let from = if self.dice.once_in(2) { good } else { table };
        let entry = &from[HEADER + ENTRY * at..][..ENTRY];
        let last = if self.dice.once_in(2) { entry[0] } else { good[HEADER + ENTRY * at] };
        self.try_all(table, &shown(entry), last);
    }
}

/// What a word of a table is changed to; one of holders' bits to other bits.
fn values(table: &[u64], at: usize) -> Vec<u64> {
    if (HOLDERS..HEADER).contains(&at) {
        return holder_words(table, at, table[0].clamp(1, 64) as usize);
    }
    let old = table[at];
    let mut values = vec![
        0,
        1,
        2,
        old.wrapping_add(1),
        old.wrapping_sub(1),
        old ^ 1 << 40,
        32,
        33,
        63,
        64,
        65,
        NUMBERS - 1,
        NUMBERS,
        NUMBERS + 1,
        1 << 63,
        u64::MAX,
    ];
    values.retain(|value| *value != old);
    values.sort_unstable();
    values.dedup();
    values
}

/// Which entries are damaged: those in use, or some of many, and the next free one.
fn entries(dice: &mut Dice, table: &[u64]) -> Vec<usize> {
    let known = table[0] as usize;
    let all = 0..(known + 1).min(64);
    match known {
        ..=6 => all.collect(),
        _ => (0..6).map(|_| dice.below(all.end as u64) as usize).chain([0, all.end - 1]).collect(),
    }
}

/// One word changed, in the header and in entries, to each value.
fn one_word(scene: &mut Scene, good: &[u64]) {
    let entries = entries(scene.dice, good);
    let words = |entry: &usize| {
        let start = HEADER + ENTRY * entry;
        start..start + ENTRY
    };
    let mut table = good.to_vec();
    for at in (0..HEADER).chain(entries.iter().flat_map(words)) {
        for value in values(good, at) {
            table[at] = value;
            let entry = match at {
                0..HEADER => scene.dice.pick(&entries),
                _ => (at - HEADER) / ENTRY,
            };
            scene.try_entry(good, &table, entry);
        }
        table[at] = good[at];
    }
}

/// One entry's holder changed, to each other; some four times.
fn one_holder(scene: &mut Scene, good: &[u64]) {
    for entry in entries(scene.dice, good) {
        let others = (0..4).filter(|other| *other != holder(good, entry));
        for other in others.cycle().take(12) {
            let mut table = good.to_vec();
            set_holder(&mut table, entry, other);
            scene.try_entry(good, &table, entry);
        }
    }
}

/// Two or three words changed, in the header, in the addressed entry or in others.
fn more_words(scene: &mut Scene, good: &[u64]) {
    for _ in 0..100 {
        let mut table = good.to_vec();
        let known = good[0].max(1);
        let own = scene.dice.below(known) as usize;
        for _ in 0..2 + scene.dice.below(2) {
            let entry = if scene.dice.once_in(2) { own } else { scene.dice.below(known) as usize };
            let at = match scene.dice.below(8) {
                0 | 1 => scene.dice.below(HEADER as u64) as usize,
                2 => {
                    set_holder(&mut table, entry, scene.dice.below(4));
                    continue;
                }
                _ => HEADER + ENTRY * entry + scene.dice.below(ENTRY as u64) as usize,
            };
            table[at] = scene.dice.pick(&values(good, at));
        }
        scene.try_entry(good, &table, own);
    }
}

/// An entry's key stands in another one too: in use, or free; also with a number at fault in either.
fn twice(scene: &mut Scene, good: &[u64]) {
    for _ in 0..40 {
        let mut table = good.to_vec();
        let end = (good[0] + 1).min(64);
        let (own, other) = (scene.dice.below(end) as usize, scene.dice.below(end) as usize);
        let start = HEADER + ENTRY * own;
        table.copy_within(start + 1..start + ENTRY, HEADER + ENTRY * other + 1);
        if scene.dice.once_in(4) {
            let entry = scene.dice.pick(&[own, other]);
            table[HEADER + ENTRY * entry] = extreme_number(scene.dice);
        }
        // Of the two one that is held has no controller's key.
        if scene.dice.once_in(4) {
            let entry = scene.dice.pick(&[own, other]);
            set_holder(&mut table, entry, scene.dice.below(4));
        }
        scene.try_entry(good, &table, own);
    }
}

/// Other lengths under the same words, a room's words, and others.
fn lengths(scene: &mut Scene, good: &[u64]) {
    let room = scene.season.memory.rooms.suppressed.clone();
    let longer: Vec<u64> = good.iter().copied().chain([0; 62]).collect();
    let own = shown(&good[HEADER..][..ENTRY]);
    for length in [0, 1, 2, 3, 4, 5, 9, 67, 383, 387, 388, 390, 395, 451] {
        scene.try_all(&longer[..length], &own, good[HEADER]);
    }
    scene.try_all(&room, &own, good[HEADER]);
    let mut front = room.clone();
    front.resize(good.len(), 0);
    scene.try_all(&front, &own, good[HEADER]);
    scene.try_all(good, &own, good[HEADER]);
}

/// Random words, mostly behind a table's header.
fn wild(scene: &mut Scene, length: usize) {
    for _ in 0..20 {
        let dice = &mut *scene.dice;
        let mut table: Vec<u64> =
            (0..length).map(|_| if dice.once_in(2) { dice.any() } else { dice.below(3) }).collect();
        if !dice.once_in(4) {
            let known = dice.pick(&[0, 1, 2, 63, 64, 64, 65]);
            table[..HOLDERS].copy_from_slice(&[known, 0, 0]);
        }
        if !dice.once_in(4) {
            table[HOLDERS..HEADER].fill(0);
        }
        let own = shown(&table[HEADER + ENTRY * dice.below(64) as usize..][..ENTRY]);
        let last = dice.pick(&[0, 1, 2, 3]);
        scene.try_all(&table, &own, last);
    }
}

/// So many damaged tables, and every set of refusals together.
pub fn run(shots: &mut Shots, tables: u64, seed: u64) {
    let mut dice = Dice::new(seed);
    let end = shots.damaged + tables.max(LEAST);
    while shots.damaged < end && shots.goes_on() {
        let season = played(shots, dice.any());
        let mut scene = Scene { dice: &mut dice, shots, season: &season };
        let good = &season.memory.table;
        one_word(&mut scene, good);
        one_holder(&mut scene, good);
        more_words(&mut scene, good);
        twice(&mut scene, good);
        lengths(&mut scene, good);
        wild(&mut scene, good.len());
    }
    shots.end_part("damaged tables", &COMES);
    shots_together::run(shots, &mut dice);
}
