/*
 * A gateway that admits survey shots by both limiters, and by their numbers, and shares a room with the lock keepers,
 * with readings made up so that the run is the same each time. At last lines of the program `desk` are read back.
 *
 *     ./archive
 *     cc -std=c11 -Wall -Wextra -Iinclude examples/c/gateway.c target/staticlib/libabi.a -o target/gateway
 *     target/gateway
 */
#include <inttypes.h>
#include <stdio.h>
#include <string.h>

#include "frostaxle.h"

/* Seconds. Named, since the readings below are chosen for it: the default is longer. */
enum { WINDOW = 10 };

/* Rings as long as the settings below need. */
enum { RING = FROSTAXLE_SUFFICIENT_RING(WINDOW, FROSTAXLE_DEFAULT_BUCKET) };
enum { SLOTS = 8, WORDS = FROSTAXLE_ROOM_WORDS(SLOTS, RING) };

/* Two parties: the survey has the first two rooms alone, and shares the third with the lock keepers. */
enum { SURVEY = 1, LOCKS = 2 };
enum { SHARED_SLOTS = 3, SHARED_WORDS = FROSTAXLE_ROOM_WORDS(SHARED_SLOTS, RING), FOR_SURVEY = 2, FOR_LOCKS = 1 };

/* The rooms and the gateway's table are ours: four plain arrays. */
static uint64_t absolute[WORDS];
static uint64_t suppressed[WORDS];
static uint64_t shared[SHARED_WORDS];
static uint64_t table[FROSTAXLE_TABLE_WORDS];

static const uint64_t window = WINDOW;                   /* 10 s */
static const uint64_t bucket = FROSTAXLE_DEFAULT_BUCKET; /* 100 ms */
static const uint64_t cache = FROSTAXLE_DEFAULT_CACHE;   /* 100 ms */
static const double factor = 2.0;                        /* the hard limit is twice the soft one */
static const uint64_t ticks = FROSTAXLE_DEFAULT_CLOCK;   /* readings in milliseconds */

static const uint8_t controller[] = {'c', 't', 'l', '7'};
static const uint8_t numbering[] = {'c', 't', 'l', '8'}; /* a controller that numbers its shots */

/* Whether the rings are long enough for these settings: then no shot is ever refused because one is full. */
static int rings_suffice(void) {
    uint64_t row[FROSTAXLE_ROW_WORDS];
    uint64_t refusal = frostaxle_sufficient_ring(window, bucket, cache, factor, ticks, row);

    if (refusal != FROSTAXLE_OK) {
        fprintf(stderr, "the settings: refusal %" PRIu64 "\n", refusal);
        return 0;
    }
    if (row[2] > RING) {
        fprintf(stderr, "rings of %d buckets, and %" PRIu64 " are needed\n", (int)RING, row[2]);
        return 0;
    }
    printf("rings of %d buckets: long enough for these settings, no shot is refused with 12\n", (int)RING);
    if (frostaxle_sufficient_ring(FROSTAXLE_DEFAULT_WINDOW, bucket, cache, factor, ticks, row) == FROSTAXLE_OK)
        printf("with the default window of %d s they would need %" PRIu64 "\n", FROSTAXLE_DEFAULT_WINDOW, row[2]);
    return 1;
}

/* One shot at the absolute limiter, 1 a second. Gives how long to wait, 0 if it was admitted. */
static uint64_t shot(uint64_t reading, uint64_t count) {
    uint64_t row[FROSTAXLE_ROW_WORDS];
    uint64_t refusal = frostaxle_absolute_inc(window, bucket, cache, factor, ticks, absolute, WORDS, reading, SURVEY,
                                              SLOTS, 0, controller, sizeof controller, 1.0, count, row);
    printf("%6" PRIu64 " ms  %2" PRIu64 " shots: ", reading, count);
    if (refusal != FROSTAXLE_OK) {
        printf("refusal %" PRIu64 "\n", refusal);
        return 0;
    }
    if (row[1] == FROSTAXLE_REJECTED) {
        printf("no, ask again in %" PRIu64 " ms; the oldest bucket has %" PRIu64 "\n", row[3], row[4]);
        return row[3];
    }
    printf("yes\n");
    return 0;
}

/* A controller that is told no waits, and sends the same point again. */
static void absolute_limiter(void) {
    uint64_t reading = 0;
    uint64_t wait;

    printf("absolute limiter, 1 a second over 10 s\n");
    shot(reading, 6);
    shot(reading += 2000, 4);
    while ((wait = shot(reading += 500, 1)) != 0) {
        /* at the very end of the wait the oldest bucket is still in the window: one millisecond more */
        reading += wait + 1 - 500;
    }
    /* a clock that goes back is a refusal, not a wrong answer */
    shot(reading - 1, 1);
}

static void suppressed_limiter(void) {
    /* readings, counts and draws; a program takes its draws from a random source */
    static const struct { uint64_t reading, count, draw; } calls[] = {
        {0, 8, 0}, {1500, 2, 0}, {1700, 5, UINT64_C(4503599627370496)}, {1760, 10, 0},
    };
    uint64_t row[FROSTAXLE_ROW_WORDS];
    size_t i;

    printf("suppressed limiter, 1 a second soft, 2 a second hard\n");
    for (i = 0; i < sizeof calls / sizeof calls[0]; i++) {
        frostaxle_suppressed_inc(window, bucket, cache, factor, ticks, suppressed, WORDS, calls[i].reading, SURVEY,
                                 SLOTS, 0, controller, sizeof controller, 1.0, calls[i].count, calls[i].draw, row);
        printf("%6" PRIu64 " ms  %2" PRIu64 " shots: ", calls[i].reading, calls[i].count);
        if (row[0] != FROSTAXLE_OK)
            printf("refusal %" PRIu64 "\n", row[0]);
        else if (row[1] == FROSTAXLE_ALLOWED)
            printf("yes\n");
        else
            printf("%s at factor %.3f\n", row[3] ? "yes" : "no", frostaxle_double(row[2]));
    }
    if (frostaxle_suppressed_get(window, bucket, cache, factor, ticks, suppressed, WORDS, 11700, SURVEY, SLOTS, 0,
                                 controller, sizeof controller, row) == FROSTAXLE_OK)
        printf(" 11700 ms  total %" PRIu64 ", declined %" PRIu64 ", factor %.3f\n", row[2], row[3],
               frostaxle_double(row[4]));
}

/* A shot by its number, one in 10 s soft and two hard. `heard` is 0 where the answer is lost on its way back. */
static void numbered_shot(uint64_t reading, uint64_t number, int heard) {
    uint64_t row[FROSTAXLE_ROW_WORDS];
    uint64_t refusal = frostaxle_gateway_shot(window, bucket, cache, factor, ticks, table, FROSTAXLE_TABLE_WORDS,
                                              suppressed, WORDS, reading, SURVEY, SLOTS, 0, numbering,
                                              sizeof numbering, number, 0.1, 0, row);
    printf("%6" PRIu64 " ms  shot %" PRIu64 ": ", reading, number);
    if (refusal != FROSTAXLE_OK)
        printf("refusal %" PRIu64, refusal);
    else if (row[1] == FROSTAXLE_HELD)
        printf("held, it was admitted before");
    else if (row[1] == FROSTAXLE_ALLOWED || row[3])
        printf("yes");
    else
        printf("no at factor %.3f", frostaxle_double(row[2]));
    printf(heard ? "\n" : "; the answer is lost\n");
}

/* A controller that hears nothing, and one that is told no, sends the same shot under the same number. */
static void numbered_shots(void) {
    printf("gateway, shots by their number\n");
    numbered_shot(20000, 1, 1);
    numbered_shot(20400, 2, 0);
    numbered_shot(20900, 2, 1);
    numbered_shot(21000, 3, 0);
    numbered_shot(21500, 3, 1);
    numbered_shot(31501, 3, 1);
    /* shot 2 is behind it now */
    numbered_shot(31600, 2, 1);
}

/* One message of a party in the shared room, under a name of four letters. Both parties give the same promises. */
static void message(uint64_t party, const char *name, uint64_t reading) {
    uint64_t row[FROSTAXLE_ROW_WORDS];
    uint64_t refusal = frostaxle_absolute_inc(window, bucket, cache, factor, ticks, shared, SHARED_WORDS, reading,
                                              party, FOR_SURVEY, FOR_LOCKS, (const uint8_t *)name, 4, 1.0, 1, row);
    printf("%6" PRIu64 " ms  party %" PRIu64 ", %s: ", reading, party, name);
    if (refusal != FROSTAXLE_OK)
        printf("refusal %" PRIu64 "\n", refusal);
    else
        printf(row[1] == FROSTAXLE_ALLOWED ? "yes\n" : "no\n");
}

/* Each party has its promised slots, and keys of its own, whatever the other does. */
static void two_parties(void) {
    uint64_t row[FROSTAXLE_ROW_WORDS];

    printf("one room of 3 slots, 2 for the survey and 1 for the lock keepers\n");
    message(LOCKS, "ctl7", 0);
    /* two slots are free, and not the lock keepers' */
    message(LOCKS, "ctl8", 100);
    /* the same name of the other party is another key */
    message(SURVEY, "ctl7", 200);
    message(SURVEY, "ctl8", 300);
    /* the lock keepers start afresh, and the survey's keys stay */
    if (frostaxle_absolute_clear(window, bucket, cache, factor, ticks, shared, SHARED_WORDS, 400, LOCKS, FOR_SURVEY,
                                 FOR_LOCKS, row) == FROSTAXLE_OK)
        printf("   400 ms  party 2 clears\n");
    message(LOCKS, "ctl8", 500);
    message(SURVEY, "ctl9", 600);
    if (frostaxle_absolute_get(window, bucket, cache, factor, ticks, shared, SHARED_WORDS, 700, SURVEY, FOR_SURVEY,
                               FOR_LOCKS, controller, sizeof controller, row) == FROSTAXLE_OK)
        printf("   700 ms  party 1, ctl7: total %" PRIu64 "\n", row[2]);
}

/* What a line of `desk` says, which is read without its newline. */
static void show(const char *line) {
    uint64_t row[FROSTAXLE_LINE_WORDS];

    if (frostaxle_read_line((const uint8_t *)line, strlen(line), row) != FROSTAXLE_OK) {
        printf("           refusal %" PRIu64 ", desk prints no such line\n", row[0]);
        return;
    }
    printf("%6" PRIu64 " ms  ", row[2]);
    if (row[1] == FROSTAXLE_LINE_REFUSED) {
        printf("it was refused with %" PRIu64 "\n", row[3]);
        return;
    }
    if (row[1] == FROSTAXLE_ALLOWED)
        printf("yes");
    else if (row[1] == FROSTAXLE_REJECTED)
        printf("no, wait %" PRIu64 " ms; the oldest bucket has %" PRIu64, row[3], row[4]);
    else if (row[1] == FROSTAXLE_SUPPRESSED)
        printf("%s at factor %.3f", row[4] ? "yes" : "no", frostaxle_double(row[3]));
    else /* FROSTAXLE_LINE_VALUE */
        printf("factor %.3f", frostaxle_double(row[3]));
    printf("; total %" PRIu64 ", declined %" PRIu64 "\n", row[5], row[6]);
}

static void lines_of_desk(void) {
    printf("lines of desk, read back\n");
    show("t=3000 code=0 answer=rejected factor=0000000000000000 wait=7000 left=6 total=10 declined=0");
    show("t=1700 code=0 answer=no factor=3fe0000000000000 wait=0 left=0 total=15 declined=5");
    show("t=1699 code=6 answer=refused factor=0000000000000000 wait=0 left=0 total=0 declined=0");
    /* a leading zero: no number prints so */
    show("t=01700 code=0 answer=no factor=3fe0000000000000 wait=0 left=0 total=15 declined=5");
}

int main(void) {
    uint64_t row[FROSTAXLE_ROW_WORDS];

    if (!rings_suffice() || frostaxle_make(absolute, WORDS, SLOTS, RING) != FROSTAXLE_OK ||
        frostaxle_make(suppressed, WORDS, SLOTS, RING) != FROSTAXLE_OK ||
        frostaxle_make(shared, SHARED_WORDS, SHARED_SLOTS, RING) != FROSTAXLE_OK ||
        frostaxle_gateway_make_table(table, FROSTAXLE_TABLE_WORDS) != FROSTAXLE_OK)
        return 1;
    absolute_limiter();
    suppressed_limiter();
    numbered_shots();
    /* now and then: what nobody used for a minute goes */
    if (frostaxle_provider_cleanup(window, bucket, cache, factor, ticks, absolute, WORDS, suppressed, WORDS, 100000,
                                   SURVEY, SLOTS, 0, SLOTS, 0, 60000, row) != FROSTAXLE_OK)
        return 1;
    printf("cleaned up\n");
    /* no cleanup touches the table; a new season empties it */
    numbered_shot(100000, 3, 1);
    if (frostaxle_gateway_new_season(table, FROSTAXLE_TABLE_WORDS, row) != FROSTAXLE_OK)
        return 1;
    printf("new season\n");
    numbered_shot(200000, 1, 1);
    two_parties();
    lines_of_desk();
    return 0;
}
