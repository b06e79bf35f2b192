//! The archive's functions as `include/frostaxle.h` has them. A slice goes as its pointer and its length.

/// An answer: a refusal's number or 0, the case, and three values.
pub type Row = [u64; 5];

/// What a line says: 14 or 0, the case, the reading, two values and two totals.
pub type LineRow = [u64; 7];

#[link(name = "abi", kind = "static")]
extern "C" {
    pub fn frostaxle_room_words(slots: u64, ring: u64) -> usize;

    pub fn frostaxle_sufficient_ring(
        window: u64,
        bucket: u64,
        cache: u64,
        factor: f64,
        clock: u64,
        row: *mut Row,
    ) -> u64;

    pub fn frostaxle_make(room: *mut u64, room_len: usize, slots: u64, ring: u64) -> u64;

    pub fn frostaxle_absolute_bucket(
        window: u64,
        bucket: u64,
        cache: u64,
        factor: f64,
        clock: u64,
        room: *const u64,
        room_len: usize,
        party: u64,
        key: *const u8,
        key_len: usize,
        at: usize,
        row: *mut Row,
    ) -> u64;

    pub fn frostaxle_suppressed_bucket(
        window: u64,
        bucket: u64,
        cache: u64,
        factor: f64,
        clock: u64,
        room: *const u64,
        room_len: usize,
        party: u64,
        key: *const u8,
        key_len: usize,
        at: usize,
        row: *mut Row,
    ) -> u64;

    pub fn frostaxle_provider_cleanup(
        window: u64,
        bucket: u64,
        cache: u64,
        factor: f64,
        clock: u64,
        absolute: *mut u64,
        absolute_len: usize,
        suppressed: *mut u64,
        suppressed_len: usize,
        reading: u64,
        party: u64,
        absolute_first: u64,
        absolute_second: u64,
        suppressed_first: u64,
        suppressed_second: u64,
        stale: u64,
        row: *mut Row,
    ) -> u64;

    pub fn frostaxle_gateway_make_table(table: *mut u64, table_len: usize) -> u64;

    pub fn frostaxle_gateway_shot(
        window: u64,
        bucket: u64,
        cache: u64,
        factor: f64,
        clock: u64,
        table: *mut u64,
        table_len: usize,
        room: *mut u64,
        room_len: usize,
        reading: u64,
        party: u64,
        first: u64,
        second: u64,
        controller: *const u8,
        controller_len: usize,
        number: u64,
        rate: f64,
        draw: u64,
        row: *mut Row,
    ) -> u64;

    pub fn frostaxle_gateway_new_season(table: *mut u64, table_len: usize, row: *mut Row) -> u64;

    pub fn frostaxle_read_line(line: *const u8, line_len: usize, row: *mut LineRow) -> u64;
}

/// Declares faces that differ only in what follows the settings, the room, the reading and the caller.
macro_rules! faces {
    ($($name:ident($($own:ident: $type:ty),*);)*) => {
        #[link(name = "abi", kind = "static")]
        extern "C" {
            $(pub fn $name(
                window: u64,
                bucket: u64,
                cache: u64,
                factor: f64,
                clock: u64,
                room: *mut u64,
                room_len: usize,
                reading: u64,
                party: u64,
                first: u64,
                second: u64,
                $($own: $type,)*
                row: *mut Row,
            ) -> u64;)*
        }
    };
}

faces! {
    frostaxle_absolute_inc(key: *const u8, key_len: usize, rate: f64, count: u64);
    frostaxle_absolute_is_allowed(key: *const u8, key_len: usize);
    frostaxle_absolute_get(key: *const u8, key_len: usize);
    frostaxle_absolute_set_rate_limit(key: *const u8, key_len: usize, rate: f64);
    frostaxle_absolute_delete(key: *const u8, key_len: usize);
    frostaxle_absolute_clear();
    frostaxle_absolute_set_if(key: *const u8, key_len: usize, rate: f64, count: u64, comparator: u64, operand: u64);
    frostaxle_absolute_set_if_preserve_history(key: *const u8, key_len: usize, rate: f64, count: u64, comparator: u64, operand: u64, preservation: u64);
    frostaxle_absolute_cleanup(stale: u64);
    frostaxle_suppressed_inc(key: *const u8, key_len: usize, rate: f64, count: u64, draw: u64);
    frostaxle_suppressed_get(key: *const u8, key_len: usize);
    frostaxle_suppressed_get_suppression_factor(key: *const u8, key_len: usize);
    frostaxle_suppressed_set_rate_limit(key: *const u8, key_len: usize, rate: f64);
    frostaxle_suppressed_delete(key: *const u8, key_len: usize);
    frostaxle_suppressed_clear();
    frostaxle_suppressed_set_if(key: *const u8, key_len: usize, rate: f64, count: u64, comparator: u64, operand: u64);
    frostaxle_suppressed_set_if_preserve_history(key: *const u8, key_len: usize, rate: f64, count: u64, comparator: u64, operand: u64, preservation: u64);
    frostaxle_suppressed_cleanup(stale: u64);
}

#[cfg(test)]
mod tests {
    use super::*;

    /// An empty room of one slot, with a ring of one bucket.
    fn made() -> [u64; 21] {
        let mut room = [7; 21];
        // SAFETY: the pointer and the length are those of a live slice.
        assert_eq!(unsafe { frostaxle_make(room.as_mut_ptr(), room.len(), 1, 1) }, 0);
        room
    }

    /// Numbers that name nothing are 14 where nothing is refused that can be judged without them, and the room stays. The safe
    /// types cannot say them.
    #[test]
    fn no_call() {
        let mut room = made();
        let made = room;
        let mut row = [9_u64; 5];
        let name = [0_u8; 40];
        let many = u64::MAX;
        let calls = [
            (10, 1, 1, 1, 1.0, 1, 14),
            (10, 1, 1, 1, 1.0, many, 10),
            (10, 1, 1, 1, 0.0, many, 8),
            (10, 1, 1, 2, 0.0, many, 16),
            (10, 1, 3, 2, 0.0, many, 15),
            (10, 40, 3, 2, 0.0, many, 7),
            (0, 40, 3, 2, 0.0, many, 1),
        ];
        for (window, key_len, party, first, rate, count, refusal) in calls {
            for (comparator, preservation) in [(5, 0), (u64::MAX, 1), (0, 2), (4, u64::MAX)] {
                // SAFETY: the pointers and lengths are those of live slices that do not overlap.
                let number = unsafe {
                    frostaxle_absolute_set_if_preserve_history(
                        window,
                        100,
                        100,
                        1.0,
                        0,
                        room.as_mut_ptr(),
                        room.len(),
                        0,
                        party,
                        first,
                        0,
                        name.as_ptr(),
                        key_len,
                        rate,
                        count,
                        comparator,
                        0,
                        preservation,
                        &mut row,
                    )
                };
                assert_eq!((number, row, room), (refusal, [refusal, 0, 0, 0, 0], made));
            }
            // SAFETY: as above.
            let number = unsafe {
                frostaxle_suppressed_set_if(
                    window,
                    100,
                    100,
                    1.0,
                    0,
                    room.as_mut_ptr(),
                    room.len(),
                    0,
                    party,
                    first,
                    0,
                    name.as_ptr(),
                    key_len,
                    rate,
                    count,
                    5,
                    0,
                    &mut row,
                )
            };
            assert_eq!((number, row, room), (refusal, [refusal, 0, 0, 0, 0], made));
        }
    }

    const HALF: u64 = 0.5_f64.to_bits();

    /// A line of each case and one that does not read, with their rows.
    const LINES: [(&[u8], LineRow); 7] = [
        (b"t=1 code=0 answer=allowed factor=0000000000000000 wait=0 left=0 total=6 declined=5", [0, 1, 1, 0, 0, 6, 5]),
        (b"t=2 code=0 answer=rejected factor=0000000000000000 wait=3 left=4 total=6 declined=5", [0, 2, 2, 3, 4, 6, 5]),
        (b"t=3 code=0 answer=yes factor=3fe0000000000000 wait=0 left=0 total=6 declined=5", [0, 3, 3, HALF, 1, 6, 5]),
        (b"t=4 code=0 answer=no factor=3fe0000000000000 wait=0 left=0 total=6 declined=5", [0, 3, 4, HALF, 0, 6, 5]),
        (b"t=5 code=0 answer=value factor=3fe0000000000000 wait=0 left=0 total=6 declined=5", [0, 5, 5, HALF, 0, 6, 5]),
        (
            b"t=6 code=13 answer=refused factor=0000000000000000 wait=0 left=0 total=0 declined=0",
            [0, 6, 6, 13, 0, 0, 0],
        ),
        (
            b"t=7 code=14 answer=refused factor=0000000000000000 wait=0 left=0 total=0 declined=0",
            [14, 0, 0, 0, 0, 0, 0],
        ),
    ];

    /// The row of a line is written whole, whatever it held, and its first word is given back.
    #[test]
    fn rows_of_lines() {
        for (line, words) in LINES {
            let mut row = [9; 7];
            // SAFETY: the pointer and the length are those of a live slice, which `row` does not overlap.
            let number = unsafe { frostaxle_read_line(line.as_ptr(), line.len(), &mut row) };
            assert_eq!((number, row), (words[0], words));
        }
    }

    /// Clock 0 is milliseconds, any other number nanoseconds. The safe types say 0 and 1.
    #[test]
    fn clocks() {
        for (clock, live) in [(0, 0), (1, 3), (2, 3), (u64::MAX, 3)] {
            let mut room = made();
            let (at, len) = (room.as_mut_ptr(), room.len());
            let key = b"ctl7";
            let mut row = [9_u64; 5];
            // SAFETY: the pointers and lengths are those of live slices that do not overlap.
            unsafe {
                frostaxle_absolute_inc(
                    10,
                    100,
                    100,
                    1.0,
                    clock,
                    at,
                    len,
                    0,
                    1,
                    1,
                    0,
                    key.as_ptr(),
                    4,
                    1.0,
                    3,
                    &mut row,
                );
                assert_eq!(row, [0, 1, 0, 0, 0]);
                // just past the window in milliseconds, and far from its end in nanoseconds
                frostaxle_absolute_get(10, 100, 100, 1.0, clock, at, len, 10_001, 1, 1, 0, key.as_ptr(), 4, &mut row);
            }
            assert_eq!(row, [0, 1, live, 0, 0]);
        }
    }

    /// The row is written whole, its first word is given too, and no clock alters the number.
    #[test]
    fn sufficient_rings() {
        for clock in [0, 1, 2, u64::MAX] {
            for (window, row) in [(10, [0, 1, 100, 0, 0]), (30, [0, 1, 298, 0, 0]), (0, [1, 0, 0, 0, 0])] {
                let mut given = [9_u64; 5];
                // SAFETY: the row is lent to this call alone.
                let number = unsafe { frostaxle_sufficient_ring(window, 100, 100, 1.0, clock, &mut given) };
                assert_eq!((number, given), (row[0], row));
            }
        }
    }

    /// A party other than 1 and 2 is 15, before 16 and 8, and the words stay. The safe types cannot say one.
    #[test]
    fn no_party() {
        let (mut room, mut table, key) = (made(), [0_u64; 389], b"ctl7".as_ptr());
        let made = (room, table);
        for party in [0, 3, 128, u64::MAX] {
            let mut rows = [[9_u64; 5]; 5];
            let [inc, clear, cleanup, bucket, shot] = &mut rows;
            let (at, len) = (room.as_mut_ptr(), room.len());
            let (table_at, table_len) = (table.as_mut_ptr(), table.len());
            // SAFETY: the pointers and lengths are those of live slices that do not overlap.
            unsafe {
                frostaxle_suppressed_inc(10, 100, 100, 1.0, 0, at, len, 0, party, 2, 0, key, 4, 0.0, 1, 0, inc);
                frostaxle_suppressed_clear(10, 100, 100, 1.0, 0, at, len, 0, party, 2, 0, clear);
                frostaxle_suppressed_cleanup(10, 100, 100, 1.0, 0, at, len, 0, party, 2, 0, 0, cleanup);
                frostaxle_suppressed_bucket(10, 100, 100, 1.0, 0, at, len, party, key, 4, 0, bucket);
                frostaxle_gateway_shot(
                    10, 100, 100, 1.0, 0, table_at, table_len, at, len, 0, party, 2, 0, key, 4, 1, 0.0, 0, shot,
                );
            }
            assert_eq!((rows, (room, table)), ([[15, 0, 0, 0, 0]; 5], made));
        }
    }

    /// The same of both rooms at once.
    #[test]
    fn no_party_of_both() {
        let (mut absolute, mut suppressed) = (made(), made());
        let mut row = [9_u64; 5];
        // SAFETY: the pointers and lengths are those of live slices that do not overlap.
        let mut cleanup = |party: u64, first: u64, second: u64| unsafe {
            let (one, other) = (absolute.as_mut_ptr(), suppressed.as_mut_ptr());
            frostaxle_provider_cleanup(
                10, 100, 100, 1.0, 0, one, 21, other, 21, 0, party, first, 0, second, 0, 0, &mut row,
            )
        };
        assert_eq!([cleanup(3, 2, 1), cleanup(0, 1, 2), cleanup(3, 1, 1)], [15, 15, 15]);
        assert_eq!([cleanup(1, 2, 1), cleanup(2, 1, 2), cleanup(2, 1, 1)], [16, 16, 0]);
    }

    /// A key that is too long goes before the party, and a shot's number before all.
    #[test]
    fn before_the_party() {
        let (mut room, mut table, name) = (made(), [0_u64; 389], [0_u8; 40]);
        let (at, len) = (room.as_mut_ptr(), room.len());
        let (table_at, table_len, key) = (table.as_mut_ptr(), table.len(), name.as_ptr());
        let mut rows = [[9_u64; 5]; 2];
        let [bucket, shot] = &mut rows;
        // SAFETY: the pointers and lengths are those of live slices that do not overlap.
        unsafe {
            frostaxle_absolute_bucket(10, 100, 100, 1.0, 0, at, len, 3, key, 40, 0, bucket);
            frostaxle_gateway_shot(
                10, 100, 100, 1.0, 0, table_at, table_len, at, len, 0, 3, 2, 0, key, 40, 0, 1.0, 0, shot,
            );
        }
        assert_eq!(rows, [[7, 0, 0, 0, 0], [19, 0, 0, 0, 0]]);
    }

    /// Words become an empty table where they are 389, whatever they held; others stay.
    #[test]
    fn tables() {
        for len in [0, 1, 387, 388, 389, 390, 451] {
            let mut words = vec![7_u64; len];
            // SAFETY: the pointer and the length are those of a live slice.
            let number = unsafe { frostaxle_gateway_make_table(words.as_mut_ptr(), words.len()) };
            let (expected, word) = if len == 389 { (0, 0) } else { (5, 7) };
            assert_eq!((number, words), (expected, vec![word; len]));
        }
    }
}
