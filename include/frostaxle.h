/*
 * Frostaxle: two rate limiters over memory that you lend.
 *
 * The absolute limiter lets a key through while its total in the window is below its limit, and says how long to wait
 * when it is not. The suppressed limiter lets a growing share of calls go between a soft and a hard limit, by a random
 * draw that you hand in. A gateway in front of a suppressed limiter knows a controller's shot by its number, so that a
 * shot that is sent again because its answer was lost is not admitted twice. Two parties may share a limiter's room,
 * and neither can take the other's place in it. What the program `desk` prints can be read back, line by line.
 *
 * Every call ends with its answer or with one of the numbered refusals, on any arguments and any words in the lent
 * memory; a refused call changes nothing but the answer row. There is no allocation, no lock, no clock, no global
 * state, no callback: time and randomness come in as arguments.
 *
 * Build:   ./archive                                         makes target/staticlib/libabi.a (x86-64 Linux)
 *          cc -Iinclude program.c target/staticlib/libabi.a
 * Example: examples/c/gateway.c
 *
 *
 * ROOMS
 *
 * A room is an array of uint64_t that holds everything one limiter knows: one array for an absolute limiter, another for
 * a suppressed one. It has `slots` slots (1 to 64), one to a key, each with a ring of `ring` buckets (1 to 512). Its
 * length in words is exactly
 *
 *     5 + slots * (6 + 7 + 3 * ring)
 *
 * which FROSTAXLE_ROOM_WORDS and frostaxle_room_words() work out. frostaxle_make() makes an empty room of it. The words
 * are plain numbers without pointers: you may copy a room, write it to a file, map it from one, or keep it in shared
 * memory. Words that are damaged are found by the call that meets them (refusal 5). A stored room belongs to the library
 * that wrote it: where docs/CHANGES.md says that words moved, make a new one, since an old one may be read as something else.
 *
 * How long must a ring be? An increment or a shot that must add a bucket to a full ring is refused with 12. Rings of
 *
 *     1000 * window / (bucket + 1) + 1
 *
 * buckets, cut to a whole number, are long enough: 298 for the defaults, 1 where a bucket is as long as the window or
 * longer, the same with both clocks. frostaxle_sufficient_ring() works it out, FROSTAXLE_SUFFICIENT_RING does for an
 * array's size. This is promised for a room's whole life: if it was made empty with rings of at least so many buckets,
 * and every call on it came with the settings that the number is for, no call of either party is refused with 12. With
 * one bucket less some may be. Where the number is over 512 no room has such rings: take longer buckets or a shorter
 * window, or live with 12, which lasts at most until the key's oldest bucket is out of the window.
 *
 * You own all memory. Nothing is kept after a call returns: no pointer that you pass is remembered.
 *
 * Threads: calls on different rooms may run at the same time. On one room or table, one call at a time; put a lock of
 * your own around it if threads share one. frostaxle_provider_cleanup uses both of its rooms, frostaxle_gateway_shot
 * its table and its room. Two parties in one room are no exception.
 *
 * Pointers: none may be NULL, also where its length is 0. Rooms, tables and rows are aligned as uint64_t. The room (or
 * the two rooms, or table and room), the key and the answer row of one call must not overlap, nor a line and its row.
 *
 *
 * PARTIES
 *
 * Two parties, 1 and 2, may share one room. Every call says whose it is (party) and how many of the room's slots each
 * of them is promised (first to party 1, second to party 2), together at most `slots`. With one party pass 1, slots,
 * 0: it has the whole room.
 *
 * A key belongs to the party that sends it: the same bytes under the other party are another key, with a limit, counts
 * and a factor of its own. A new key gets a slot while its party holds fewer than it is promised; one is then always
 * free. When the party holds as many as it is promised, a new key is refused with 11, though other slots may be free.
 * clear forgets the keys of the caller's party only. cleanup serves both, whoever calls it.
 *
 * While the promises given stay the same, nothing that the other party does alters a decision, a total or a refusal 11
 * of yours: not how many keys it has, nor its clears, deletes, sets and refused calls. So agree on the promises as on
 * the settings, and pass the same ones in every call of either party. Two things stay common: the cleanups, and the
 * clock, since a reading may not be below the last of either party (refusal 6).
 *
 * Promises may be changed between two calls. Where they pass the room's slots together, or either party holds more
 * than it is promised, the calls of both are refused with 16: let the one that holds too much delete keys first.
 *
 *
 * THE GATEWAY'S TABLE
 *
 * A table is an array of FROSTAXLE_TABLE_WORDS uint64_t that holds the last admitted shot number of up to 64
 * controllers. frostaxle_gateway_make_table() makes an empty one, which is 389 zeros. No table is a room. It may be
 * copied and stored as a room may, and damage is found by the call that meets it (refusal 5).
 *
 * Only frostaxle_gateway_shot() writes numbers into it, and only frostaxle_gateway_new_season() takes them out: no
 * other call is handed a table, so no cleanup, clear, delete or set touches what is held. Keep it where it outlasts the
 * program: of a controller whose number is forgotten, a shot may be admitted a second time.
 *
 * A controller numbers its shots from 1 upwards. One that hears nothing sends the same shot again under the same
 * number: if it was admitted, it is HELD, and the survey has the point once. HELD changes nothing, and is told by
 * number, controller and table alone: settings, room, reading, party, promises, rate and draw are not looked at. A
 * shot that is turned away (SUPPRESSED with row[3] 0, or a refusal) is not remembered: it may be sent again under its
 * number, until a later one of its controller is admitted.
 *
 * A table has no parties: a controller is its bytes, whoever sends the shot, and the room counts the shot under the
 * sender's key. Where both parties may have a controller of the same name, or more than 64 together, use a table each.
 *
 *
 * ARGUMENTS, in the order that every call has them
 *
 *   window    seconds, 1 to 33554432                     how far back counts are added up
 *   bucket    milliseconds, 1 to 4294967296              counts this close to the newest bucket's start join it
 *   cache     milliseconds, 1 to 4294967296              how long a suppressed key's factor is used again
 *   factor    finite, at least 1                         hard limit = factor * soft limit (suppressed limiter)
 *   clock     0 is milliseconds, any other nanoseconds   what a tick of the reading is, see below
 *   table, table_len                                     a gateway's table, and 389
 *   room, room_len                                       the lent words and how many they are
 *   reading   ticks of the clock, any start you like     your clock; in one room it may stand still but not go back
 *   party     1 or 2                                     whose call it is, see PARTIES
 *   first     with second at most the room's slots       how many slots party 1 is promised
 *   second    with first at most the room's slots        how many slots party 2 is promised
 *   key, key_len                                         0 to 32 bytes of any value
 *   controller, controller_len                           the same: the key whose shots are numbered
 *   number    1 to 2^32 - 1                              which shot of its controller it is
 *   rate      per second, finite, at least 2^-900        limit = rate * window (times factor, suppressed)
 *   count     how much is counted, or the new total of a set
 *   draw      0 to 2^53 - 1, evenly drawn                randomness of one suppressed increment
 *   comparator, operand                                  guard of a set against the key's live total, see below
 *   preservation                                         which end of the buckets a set keeps, see below
 *   stale     milliseconds                               how old a key's newest bucket may be at a cleanup
 *   line, line_len                                       any number of bytes of any value, see LINES OF DESK
 *   row       five words that receive the answer, seven for a line
 *
 * window, bucket, cache, factor and clock are a room's settings: pass the same five for the room's whole life. The
 * first four are judged by every call of both limiters; every clock is one. The defaults are in FROSTAXLE_DEFAULT_...
 *
 * A key's limit is stored at its first increment (or set) and stays: a later increment's rate is judged, but does not
 * change it. frostaxle_..._set_rate_limit and the sets do.
 *
 *
 * THE CLOCK
 *
 * FROSTAXLE_MILLISECONDS or FROSTAXLE_NANOSECONDS: the ticks in which readings are given and compared (refusal 6), and
 * in which a room keeps bucket starts, the time of a cached factor and the last reading. The rest is the same in both:
 * window in seconds; bucket, cache, stale and the wait of a rejection in milliseconds. 2^64 ns are some 584 years.
 *
 * In nanoseconds a bucket is expired when its age, to the nanosecond, is over the window. This goes for live totals
 * (get, delete, the sets) and for what an eviction takes out. By the age cut to whole milliseconds goes whether an
 * increment, is_allowed and get_suppression_factor find the oldest bucket expired, and so evict at all; and joining a
 * bucket, using a cached factor, the last second, cleanup and the wait. So with a window of 10 s an increment that comes
 * 10,000.4 ms after a bucket's start leaves it, and get would take it out.
 *
 * A room does not store its clock. To hand it to a call with the other one is a mistake that no refusal tells, unless
 * the reading (6) or the words (5) happen to.
 *
 *
 * THE ANSWER ROW
 *
 * Every call returns row[0]. row is written whole by every call.
 *
 *   row[0]    0, or the number of the refusal; then row[1] to row[4] are 0, and room and table are as they were
 *   row[1]    which case of the answer, from 1 (FROSTAXLE_ALLOWED, ...)
 *   row[2..4] the case's values; those that it does not have are 0
 *
 *   call                     row[1]            row[2]              row[3]              row[4]
 *   sufficient_ring          1 VALUE           buckets             -                   -
 *   inc, is_allowed          1 ALLOWED         -                   -                   -
 *                            2 REJECTED        window, seconds     wait, ms            oldest bucket's count
 *     (suppressed inc only)  3 SUPPRESSED      factor, bits        1 admitted, 0 not   -
 *   absolute_get             1 VALUE           live total          -                   -
 *   suppressed_get           1 VALUE           live total          declined of it      factor, bits
 *   get_suppression_factor   1 VALUE           factor, bits        -                   -
 *   set_rate_limit           1 VALUE           the old rate, bits  -                   -
 *                            2 UNKNOWN key     -                   -                   -
 *   delete                   1 VALUE           what the key had    -                   -
 *                            2 UNKNOWN key     -                   -                   -
 *   set_if, set_if_preserve  1 VALUE           1 matched, 0 not    total before        total after
 *   clear, cleanup           1 DONE            -                   -                   -
 *   gateway_shot             1 ALLOWED         -                   -                   -
 *                            3 SUPPRESSED      factor, bits        1 admitted, 0 not   -
 *                            4 HELD            -                   -                   -
 *   gateway_new_season       1 DONE            -                   -                   -
 *   bucket                   1 VALUE           count               declined of it      its start, ticks
 *                            2 UNKNOWN place   -                   -                   -
 *
 * "bits" are those of a double; frostaxle_double() turns them back. REJECTED: after the wait the oldest bucket, which
 * holds row[4], is at the window's edge, and one millisecond later it is out, so ask again at wait + 1, in milliseconds
 * whatever the clock. SUPPRESSED with row[3] 0 is a no, counted as declined; with 1 it is a yes.
 *
 *
 * LINES OF DESK
 *
 * The program `desk` prints one answer a line. frostaxle_read_line() reads such a line back, given without its newline:
 *
 *     t=1700 code=0 answer=no factor=3fe0000000000000 wait=0 left=0 total=15 declined=5
 *
 * A line reads exactly when some reading, some answer or refusal 1 to 14, and some totals print as it. It has that one
 * meaning, and the meaning prints as the same bytes. Any other line is refused with 14, whatever its bytes and however
 * many they are.
 *
 * Numbers are decimal without leading zeros, the factor has 16 hex digits with small letters, one space stands between
 * two fields and none at either end. t, wait and left are any uint64_t, total is at most 2^53, declined at most total,
 * and the factor 0 to 1 with its sign clear. What does not apply is 0, and of a refusal all that follows `answer`.
 * Refusals 1 to 4 and 14 have t=0: they are told of lines without a reading. 13 reads, though no call gives it any
 * more. `held` and numbers over 14, which `desk` does not print, do not read.
 *
 * The row of a line has FROSTAXLE_LINE_WORDS words, and is written whole:
 *
 *   row[0]    0, or 14; then row[1] to row[6] are 0
 *   row[1]    which case of the answer
 *   row[2]    t
 *   row[3..4] the case's values; those that it does not have are 0
 *   row[5..6] total and declined, both 0 of a refusal
 *
 *   answer=                  row[1]            row[3]              row[4]
 *   allowed                  1 ALLOWED         -                   -
 *   rejected                 2 REJECTED        wait, ms            left, the oldest bucket's count
 *   yes, no                  3 SUPPRESSED      factor, bits        1 yes, 0 no
 *   value                    5 LINE_VALUE      factor, bits        -
 *   refused                  6 LINE_REFUSED    code, 1 to 14       -
 *
 * Two things are in no line: a rejection's window, and which of the two limiters a value is of.
 */
#ifndef FROSTAXLE_H
#define FROSTAXLE_H

#include <stddef.h>
#include <stdint.h>
#include <string.h>

#ifdef __cplusplus
extern "C" {
#endif

/*
 * Refusals. The first whose condition holds is given, in this order: 1 to 7, 15, 16, 8 to 12, 14; for a shot 19, 20
 * and 21 go before all of them. 13 is not used: it was a factor worked out at perceived rate zero, which is 0 now. It
 * will not be used again.
 */
enum {
    FROSTAXLE_OK = 0,
    FROSTAXLE_BAD_WINDOW = 1,        /* window out of its range */
    FROSTAXLE_BAD_BUCKET = 2,        /* bucket out of its range */
    FROSTAXLE_BAD_CACHE = 3,         /* cache period out of its range */
    FROSTAXLE_BAD_FACTOR = 4,        /* factor not finite, or below 1 */
    FROSTAXLE_BAD_ROOM = 5,          /* the lengths of room or table are wrong, or what is addressed in it is unsound,
                                        or any slot of the room in use is neither party's, for every call on it */
    FROSTAXLE_CLOCK_WENT_BACK = 6,   /* reading below that of an earlier call that was not refused */
    FROSTAXLE_LONG_KEY = 7,          /* key over 32 bytes */
    FROSTAXLE_BAD_RATE = 8,          /* rate not finite, or below 2^-900, also for a known key */
    FROSTAXLE_BAD_DRAW = 9,          /* draw over 2^53 - 1 */
    FROSTAXLE_TOTAL_TOO_LARGE = 10,  /* the key's total would pass 2^53, or a set's count does */
    FROSTAXLE_NO_FREE_SLOT = 11,     /* a slot is needed and the party already holds its promised number: clean up,
                                        promise it more, or make a larger room */
    FROSTAXLE_RING_FULL = 12,        /* a bucket must be added to a full ring: take longer rings, or longer buckets. A
                                        room made empty with rings of frostaxle_sufficient_ring() buckets, or longer
                                        ones, never meets it while its settings stay the same (a reading that falls is
                                        refused with 6 and does no harm); with rings of one bucket less it may */
    FROSTAXLE_NO_CALL = 14,          /* comparator or preservation is none of the numbers below, and 1 to 8, 10, 15 and
                                        16 are not met; or a line is none that `desk` prints. As a line's own code: what
                                        `desk` was given is no settings line, or no call */
    FROSTAXLE_BAD_PARTY = 15,        /* party is neither 1 nor 2 */
    FROSTAXLE_BAD_PROMISE = 16,      /* first and second together pass the room's slots, or party 1 holds more slots
                                        than first, or party 2 more than second */
    FROSTAXLE_BAD_NUMBER = 19,       /* a shot's number is 0 or over 2^32 - 1 */
    FROSTAXLE_OLD_NUMBER = 20,       /* a shot's number is below the last admitted of its controller */
    FROSTAXLE_TABLE_FULL = 21        /* the controller is not in the table, which has 64 */
};

/* row[1] */
enum {
    FROSTAXLE_ALLOWED = 1,
    FROSTAXLE_REJECTED = 2,
    FROSTAXLE_SUPPRESSED = 3,
    FROSTAXLE_HELD = 4, /* admitted before */
    FROSTAXLE_VALUE = 1,
    FROSTAXLE_UNKNOWN = 2,
    FROSTAXLE_DONE = 1,
    FROSTAXLE_LINE_VALUE = 5,  /* of a line, where 1 is ALLOWED */
    FROSTAXLE_LINE_REFUSED = 6 /* of a line that tells a refusal */
};

/* comparator: the set happens if the key's live total is .. */
enum {
    FROSTAXLE_ALWAYS = 0, /* anything; the operand is not looked at */
    FROSTAXLE_EQ = 1,     /* equal to the operand */
    FROSTAXLE_LT = 2,     /* below it */
    FROSTAXLE_GT = 3,     /* above it */
    FROSTAXLE_NE = 4      /* not equal to it */
};

/* clock */
enum {
    FROSTAXLE_MILLISECONDS = 0,
    FROSTAXLE_NANOSECONDS = 1 /* as is any number but 0 */
};

/* preservation */
enum {
    FROSTAXLE_PRESERVE_NEWEST = 0, /* a surplus goes to the newest bucket, a shortage is taken from the oldest */
    FROSTAXLE_PRESERVE_OLDEST = 1  /* the other way round */
};

/*
 * Settings for a new room. The window was 10 before: a room that was kept from then goes on with 10, which its caller
 * names.
 */
#define FROSTAXLE_DEFAULT_WINDOW 30
#define FROSTAXLE_DEFAULT_BUCKET 100
#define FROSTAXLE_DEFAULT_CACHE 100
#define FROSTAXLE_DEFAULT_FACTOR 1.0
#define FROSTAXLE_DEFAULT_CLOCK FROSTAXLE_MILLISECONDS

#define FROSTAXLE_ROW_WORDS 5

/* The length of a line's row. */
#define FROSTAXLE_LINE_WORDS 7

/* The length of a gateway's table. */
#define FROSTAXLE_TABLE_WORDS 389

/* The length of a room, for an array's size. slots and ring in range are yours to see to; frostaxle_make() judges them. */
#define FROSTAXLE_ROOM_WORDS(slots, ring) (5 + (slots) * (6 + 7 + 3 * (ring)))

/* How many buckets a ring must have, for an array's size. frostaxle_sufficient_ring() judges window and bucket too. */
#define FROSTAXLE_SUFFICIENT_RING(window, bucket) (1000 * (uint64_t)(window) / ((uint64_t)(bucket) + 1) + 1)

/* The double whose bits a word of the row holds. */
static inline double frostaxle_double(uint64_t bits) {
    double x;
    memcpy(&x, &bits, sizeof x);
    return x;
}

/* ---- rooms */

/* The length of a room, or 0 if slots or ring is out of range. */
size_t frostaxle_room_words(uint64_t slots, uint64_t ring);

/*
 * How many buckets a ring must have so that no call on its room is refused with 12, see ROOMS: VALUE, or the first of
 * refusals 1 to 4 that the settings meet. It is the least such number, and told also where it is over 512, which no
 * ring has. It is the same with every clock.
 */
uint64_t frostaxle_sufficient_ring(uint64_t window, uint64_t bucket, uint64_t cache, double factor, uint64_t clock,
                                   uint64_t row[5]);

/* Makes an empty room, whatever the words held. 0; or 5 if slots, ring or the length is wrong, and the words stay. */
uint64_t frostaxle_make(uint64_t *room, size_t room_len, uint64_t slots, uint64_t ring);

/* ---- the absolute limiter */

/* Counts `count` for a key if it is allowed: ALLOWED or REJECTED. A key's first call stores its limit, rate * window. */
uint64_t frostaxle_absolute_inc(uint64_t window, uint64_t bucket, uint64_t cache, double factor, uint64_t clock,
                                uint64_t *room, size_t room_len, uint64_t reading, uint64_t party, uint64_t first,
                                uint64_t second, const uint8_t *key, size_t key_len, double rate, uint64_t count,
                                uint64_t row[5]);

/* What an increment would be told now, without counting: ALLOWED or REJECTED. An unknown key is ALLOWED. */
uint64_t frostaxle_absolute_is_allowed(uint64_t window, uint64_t bucket, uint64_t cache, double factor,
                                       uint64_t clock, uint64_t *room, size_t room_len, uint64_t reading,
                                       uint64_t party, uint64_t first, uint64_t second, const uint8_t *key,
                                       size_t key_len, uint64_t row[5]);

/* The key's live total, 0 for an unknown key. */
uint64_t frostaxle_absolute_get(uint64_t window, uint64_t bucket, uint64_t cache, double factor, uint64_t clock,
                                uint64_t *room, size_t room_len, uint64_t reading, uint64_t party, uint64_t first,
                                uint64_t second, const uint8_t *key, size_t key_len, uint64_t row[5]);

/* Gives a known key another limit: VALUE with its old rate. An unknown key stays UNKNOWN. */
uint64_t frostaxle_absolute_set_rate_limit(uint64_t window, uint64_t bucket, uint64_t cache, double factor,
                                           uint64_t clock, uint64_t *room, size_t room_len, uint64_t reading,
                                           uint64_t party, uint64_t first, uint64_t second, const uint8_t *key,
                                           size_t key_len, double rate, uint64_t row[5]);

/* Forgets a key: VALUE with its live total, or UNKNOWN. */
uint64_t frostaxle_absolute_delete(uint64_t window, uint64_t bucket, uint64_t cache, double factor, uint64_t clock,
                                   uint64_t *room, size_t room_len, uint64_t reading, uint64_t party, uint64_t first,
                                   uint64_t second, const uint8_t *key, size_t key_len, uint64_t row[5]);

/* Forgets every key of the caller's party. Judges slots only by whose they are. */
uint64_t frostaxle_absolute_clear(uint64_t window, uint64_t bucket, uint64_t cache, double factor, uint64_t clock,
                                  uint64_t *room, size_t room_len, uint64_t reading, uint64_t party, uint64_t first,
                                  uint64_t second, uint64_t row[5]);

/* If the comparator is met, sets the key's limit and its total to `count`, in one bucket; count 0 forgets the key. */
uint64_t frostaxle_absolute_set_if(uint64_t window, uint64_t bucket, uint64_t cache, double factor, uint64_t clock,
                                   uint64_t *room, size_t room_len, uint64_t reading, uint64_t party, uint64_t first,
                                   uint64_t second, const uint8_t *key, size_t key_len, double rate, uint64_t count,
                                   uint64_t comparator, uint64_t operand, uint64_t row[5]);

/* The same, but keeps the key's buckets: only the difference is added to one end, or taken from the other. */
uint64_t frostaxle_absolute_set_if_preserve_history(uint64_t window, uint64_t bucket, uint64_t cache, double factor,
                                                    uint64_t clock, uint64_t *room, size_t room_len, uint64_t reading,
                                                    uint64_t party, uint64_t first, uint64_t second,
                                                    const uint8_t *key, size_t key_len, double rate, uint64_t count,
                                                    uint64_t comparator, uint64_t operand, uint64_t preservation,
                                                    uint64_t row[5]);

/* Forgets both parties' keys without a bucket, or whose newest is older than `stale`. Judges every slot in use. */
uint64_t frostaxle_absolute_cleanup(uint64_t window, uint64_t bucket, uint64_t cache, double factor, uint64_t clock,
                                    uint64_t *room, size_t room_len, uint64_t reading, uint64_t party, uint64_t first,
                                    uint64_t second, uint64_t stale, uint64_t row[5]);

/* ---- the suppressed limiter */

/* Counts `count` for a key and decides by the forecast and the draw: ALLOWED or SUPPRESSED. */
uint64_t frostaxle_suppressed_inc(uint64_t window, uint64_t bucket, uint64_t cache, double factor, uint64_t clock,
                                  uint64_t *room, size_t room_len, uint64_t reading, uint64_t party, uint64_t first,
                                  uint64_t second, const uint8_t *key, size_t key_len, double rate, uint64_t count,
                                  uint64_t draw, uint64_t row[5]);

/* The key's live total, how much of it was declined, and its factor; zeros for an unknown key. */
uint64_t frostaxle_suppressed_get(uint64_t window, uint64_t bucket, uint64_t cache, double factor, uint64_t clock,
                                  uint64_t *room, size_t room_len, uint64_t reading, uint64_t party, uint64_t first,
                                  uint64_t second, const uint8_t *key, size_t key_len, uint64_t row[5]);

/* The key's factor, 0 (none is declined) to 1 (all are). It is cached; an unknown key takes a slot for it. */
uint64_t frostaxle_suppressed_get_suppression_factor(uint64_t window, uint64_t bucket, uint64_t cache, double factor,
                                                     uint64_t clock, uint64_t *room, size_t room_len,
                                                     uint64_t reading, uint64_t party, uint64_t first,
                                                     uint64_t second, const uint8_t *key, size_t key_len,
                                                     uint64_t row[5]);

uint64_t frostaxle_suppressed_set_rate_limit(uint64_t window, uint64_t bucket, uint64_t cache, double factor,
                                             uint64_t clock, uint64_t *room, size_t room_len, uint64_t reading,
                                             uint64_t party, uint64_t first, uint64_t second, const uint8_t *key,
                                             size_t key_len, double rate, uint64_t row[5]);

/* Forgets a key: VALUE with its live total less what was declined (0 if only a factor was cached), or UNKNOWN. */
uint64_t frostaxle_suppressed_delete(uint64_t window, uint64_t bucket, uint64_t cache, double factor, uint64_t clock,
                                     uint64_t *room, size_t room_len, uint64_t reading, uint64_t party,
                                     uint64_t first, uint64_t second, const uint8_t *key, size_t key_len,
                                     uint64_t row[5]);

uint64_t frostaxle_suppressed_clear(uint64_t window, uint64_t bucket, uint64_t cache, double factor, uint64_t clock,
                                    uint64_t *room, size_t room_len, uint64_t reading, uint64_t party, uint64_t first,
                                    uint64_t second, uint64_t row[5]);

uint64_t frostaxle_suppressed_set_if(uint64_t window, uint64_t bucket, uint64_t cache, double factor, uint64_t clock,
                                     uint64_t *room, size_t room_len, uint64_t reading, uint64_t party,
                                     uint64_t first, uint64_t second, const uint8_t *key, size_t key_len, double rate,
                                     uint64_t count, uint64_t comparator, uint64_t operand, uint64_t row[5]);

uint64_t frostaxle_suppressed_set_if_preserve_history(uint64_t window, uint64_t bucket, uint64_t cache, double factor,
                                                      uint64_t clock, uint64_t *room, size_t room_len,
                                                      uint64_t reading, uint64_t party, uint64_t first,
                                                      uint64_t second, const uint8_t *key, size_t key_len,
                                                      double rate, uint64_t count, uint64_t comparator,
                                                      uint64_t operand, uint64_t preservation, uint64_t row[5]);

/* As for the absolute limiter; a cached factor stays only if it is younger than `stale`. */
uint64_t frostaxle_suppressed_cleanup(uint64_t window, uint64_t bucket, uint64_t cache, double factor, uint64_t clock,
                                      uint64_t *room, size_t room_len, uint64_t reading, uint64_t party,
                                      uint64_t first, uint64_t second, uint64_t stale, uint64_t row[5]);

/* ---- the read-out */

/*
 * Bucket `at` of a key, counted from 0, the oldest; expired ones that are still stored too. UNKNOWN past the newest, and
 * for an unknown key: ask from 0 on until UNKNOWN. No reading, no promises, and nothing changes; refusals are 1 to 5,
 * 7 and 15.
 */
uint64_t frostaxle_absolute_bucket(uint64_t window, uint64_t bucket, uint64_t cache, double factor, uint64_t clock,
                                   const uint64_t *room, size_t room_len, uint64_t party, const uint8_t *key,
                                   size_t key_len, size_t at, uint64_t row[5]);

uint64_t frostaxle_suppressed_bucket(uint64_t window, uint64_t bucket, uint64_t cache, double factor, uint64_t clock,
                                     const uint64_t *room, size_t room_len, uint64_t party, const uint8_t *key,
                                     size_t key_len, size_t at, uint64_t row[5]);

/* ---- both */

/*
 * Cleans both rooms, or, refused with the first number, in the order of refusals, that either room meets, neither.
 * Each room has promises of its own.
 */
uint64_t frostaxle_provider_cleanup(uint64_t window, uint64_t bucket, uint64_t cache, double factor, uint64_t clock,
                                    uint64_t *absolute, size_t absolute_len, uint64_t *suppressed,
                                    size_t suppressed_len, uint64_t reading, uint64_t party, uint64_t absolute_first,
                                    uint64_t absolute_second, uint64_t suppressed_first, uint64_t suppressed_second,
                                    uint64_t stale, uint64_t row[5]);

/* ---- the gateway: shots by their number, in front of a suppressed limiter */

/* Makes an empty table, whatever the words held. 0; or 5 if the length is not 389, and the words stay. */
uint64_t frostaxle_gateway_make_table(uint64_t *table, size_t table_len);

/*
 * A controller's shot. HELD if its number is the last admitted one. A higher one is counted in the room, as
 * frostaxle_suppressed_inc() counts 1 for the party: ALLOWED or SUPPRESSED; the table gets its number only if that is
 * a yes. Refused with the first of these that holds:
 *   19  the number is 0 or over 2^32 - 1
 *   20  it is below the last admitted: that one was later, and whether this one was admitted is not kept
 *   21  the controller is not in the table, which has 64
 *   1 to 7, 15, 16 and 8 to 12, unless it is HELD, as for the increment; 5 for the table, too
 * A table that is unsound for its controller has no last number: with it a shot is neither HELD nor 20 nor 21.
 */
uint64_t frostaxle_gateway_shot(uint64_t window, uint64_t bucket, uint64_t cache, double factor, uint64_t clock,
                                uint64_t *table, size_t table_len, uint64_t *room, size_t room_len, uint64_t reading,
                                uint64_t party, uint64_t first, uint64_t second, const uint8_t *controller,
                                size_t controller_len, uint64_t number, double rate, uint64_t draw, uint64_t row[5]);

/* Empties the table: every controller may begin at 1 again. DONE; or 5 if it is no table, and the words stay. */
uint64_t frostaxle_gateway_new_season(uint64_t *table, size_t table_len, uint64_t row[5]);

/* ---- lines of desk */

/* Reads back a line that `desk` prints, without its newline, see LINES OF DESK. 0; or 14 for any other line. */
uint64_t frostaxle_read_line(const uint8_t *line, size_t line_len, uint64_t row[7]);

#ifdef __cplusplus
}
#endif

#endif
