/* The exported library from C: a small evening on a ruler of 2^18 seconds, with the trip that leaves at 23:40 and arrives at 25:10, and one that runs at the
   weekend only; and the same evening on a ruler that is spread over a timetable which ends at 28:00. */
#include <stdio.h>
#include <stdlib.h>

#include "kheyambo.h"

enum { W = 18, M = 10, TRIPS = 16, ANSWERS = 8, HOUR = 3600, MINUTE = 60 };

/* This timetable's days are those of a week: day 0 is Monday. */
enum { MONDAY = 0, SATURDAY = 5, SUNDAY = 6, DAYS_OF_WEEK = 7 };

#define DAILY ((1u << DAYS_OF_WEEK) - 1)
#define WEEKEND (1u << SATURDAY | 1u << SUNDAY)
#define AT(hours, minutes) ((hours) * HOUR + (minutes) * MINUTE)
#define TABLE(rows) rows, sizeof(rows) / sizeof(rows[0])

/* The words of an index, as many as the header says that such a ruler and so many trips can need; and the ruler, which the words do not carry. */
typedef struct {
    kheyambo_ruler ruler;
    uint32_t *directory, *originals, *replicas;
    size_t directory_words, originals_words, replicas_words;
} words;

#define INDEX(x) x.directory, x.directory_words, x.originals, x.originals_words, x.replicas, x.replicas_words

static words lent(kheyambo_ruler ruler) {
    words x;
    x.ruler = ruler;
    x.directory_words = kheyambo_directory_words(M);
    x.originals_words = kheyambo_originals_words(TRIPS);
    x.replicas_words = kheyambo_replicas_words(M, TRIPS);
    x.directory = calloc(x.directory_words, sizeof(uint32_t));
    x.originals = calloc(x.originals_words, sizeof(uint32_t));
    x.replicas = calloc(x.replicas_words, sizeof(uint32_t));
    if (!x.directory || !x.originals || !x.replicas) exit(2);
    return x;
}

static void said(const char *call, kheyambo_said s) {
    printf("%s: %u, detail %u\n", call, s.number, s.detail);
}

/* The trips that are under way at some second of a window, on a day. */
static void under_way(words x, uint32_t start, uint32_t end, uint32_t day) {
    uint32_t ids[ANSWERS];
    kheyambo_told told = kheyambo_ask(x.ruler, KHEYAMBO_G_OVERLAPS, start, end, day, INDEX(x), ids, ANSWERS);
    printf("under way from %u to %u on day %u: %u, %u trips:", start, end, day, told.number, told.count);
    for (uint32_t i = 0; i < told.count; i++) printf(" %u", ids[i]);
    printf("\n");
}

/* An answer list that is too short: nothing is written, and the detail says how long it has to be for that day. */
static void too_short(words x, uint32_t day) {
    uint32_t one[1] = {7};
    kheyambo_told told = kheyambo_ask(x.ruler, KHEYAMBO_G_OVERLAPS, AT(25, 5), AT(25, 10), day, INDEX(x), one, 1);
    printf("a list of one word on day %u: %u, detail %u, count %u, the word is %u\n", day, told.number, told.detail, told.count, one[0]);
}

static void census(words x, const char *name) {
    kheyambo_counts counts;
    said(name, kheyambo_census(x.ruler, INDEX(x), &counts));
    for (int level = 0; level <= M; level++) {
        uint32_t *row = counts[level];
        if (row[KHEYAMBO_O_IN] + row[KHEYAMBO_O_AFT] + row[KHEYAMBO_R_IN] + row[KHEYAMBO_R_AFT] == 0) continue;
        printf("level %2d: %u %u %u %u\n", level, row[KHEYAMBO_O_IN], row[KHEYAMBO_O_AFT], row[KHEYAMBO_R_IN], row[KHEYAMBO_R_AFT]);
    }
}

/* How many trips stand under each of codes 0 to 12. Exactly one of them holds for a trip, a timing point too, so they are all trips of the day. */
static void every_code(words x, uint32_t start, uint32_t end, uint32_t day) {
    uint32_t ids[ANSWERS], trips = 0;
    printf("from %u to %u on day %u, code by code:", start, end, day);
    for (uint32_t code = KHEYAMBO_EQUALS; code <= KHEYAMBO_AFTER; code++) {
        kheyambo_told told = kheyambo_ask(x.ruler, code, start, end, day, INDEX(x), ids, ANSWERS);
        printf(" %u", told.count);
        trips += told.count;
    }
    printf(", %u trips in all\n", trips);
}

/* A level-10 partition is 256 seconds: the trips that start in one and end after it. */
static void run(words x, uint32_t level, uint32_t at) {
    kheyambo_shown shown = kheyambo_run(x.ruler, level, at >> (W - M), KHEYAMBO_O_AFT, INDEX(x));
    printf("run: %u, arena %u, from word %u, %u words:", shown.number, shown.arena, shown.offset, shown.length);
    for (uint32_t i = 0; i < shown.length; i++) printf(" %u", x.originals[shown.offset + i]);
    printf("\n");
}

static void given_back(words x) {
    free(x.directory);
    free(x.originals);
    free(x.replicas);
}

/* The most that an index can need: trips over all partitions of the deepest level but the first and the last fill both arenas to the last word. */
static void longest_trips(void) {
    const uint32_t partition = 1u << (W - M);
    uint32_t table[TRIPS * KHEYAMBO_ENTRY_WORDS];
    words x = lent(kheyambo_bits(W, M));
    for (uint32_t i = 0; i < TRIPS; i++) {
        table[KHEYAMBO_ENTRY_WORDS * i] = i;
        table[KHEYAMBO_ENTRY_WORDS * i + 1] = partition;
        table[KHEYAMBO_ENTRY_WORDS * i + 2] = (1u << W) - partition - 1;
        table[KHEYAMBO_ENTRY_WORDS * i + 3] = KHEYAMBO_EVERY_DAY;
    }
    said("the longest trips", kheyambo_build(x.ruler, TABLE(table), INDEX(x)));
    x.replicas_words--;
    said("in a word less", kheyambo_build(x.ruler, TABLE(table), INDEX(x)));
    given_back(x);
}

/* The evening on either kind of ruler. The second spends no cells on the hours after 28:00, so its cells are shorter, and a time past 28:00 isn't on it.
   The words of one are no index under the other. */
static void to_the_end_of_the_timetable(const uint32_t *table, size_t table_words) {
    words x = lent(kheyambo_bits(W, M)), y = lent(kheyambo_spread(M, AT(0, 0), AT(28, 0)));
    said("build on 18 bits", kheyambo_build(x.ruler, table, table_words, INDEX(x)));
    said("build up to 28:00", kheyambo_build(y.ruler, table, table_words, INDEX(y)));
    census(x, "census on 18 bits");
    census(y, "census up to 28:00");
    under_way(y, AT(25, 5), AT(25, 10), SATURDAY);
    said("its words as if on 18 bits", kheyambo_check(x.ruler, INDEX(y)));
    said("and the other way round", kheyambo_check(y.ruler, INDEX(x)));
    said("a trip up to 28:00", kheyambo_add(y.ruler, 301, AT(27, 30), AT(28, 0), DAILY, INDEX(y)));
    said("a second more", kheyambo_add(y.ruler, 302, AT(27, 30), AT(28, 0) + 1, DAILY, INDEX(y)));
    said("a ruler that ends before it begins", kheyambo_check(kheyambo_spread(M, AT(28, 0), AT(0, 0)), INDEX(y)));
    given_back(x);
    given_back(y);
}

int main(void) {
    const uint32_t table[] = {
        101, AT(22, 50), AT(23, 35), DAILY,   /* ends before midnight */
        117, AT(23, 40), AT(25, 10), DAILY,   /* the night trip */
        204, AT(24, 55), AT(25, 40), WEEKEND, /* the last connection: none from Monday to Friday */
    };
    words x = lent(kheyambo_bits(W, M));

    said("build", kheyambo_build(x.ruler, TABLE(table), INDEX(x)));
    under_way(x, AT(25, 5), AT(25, 10), SATURDAY);
    under_way(x, AT(25, 5), AT(25, 10), MONDAY);
    under_way(x, AT(1, 5), AT(1, 10), SATURDAY);
    said("a backward trip", kheyambo_add(x.ruler, 118, AT(23, 40), AT(1, 10), DAILY, INDEX(x)));
    said("a trip that runs on no day", kheyambo_add(x.ruler, 118, AT(23, 55), AT(25, 20), 0, INDEX(x)));
    said("one trip more", kheyambo_add(x.ruler, 118, AT(23, 55), AT(25, 20), kheyambo_on_day(SUNDAY), INDEX(x)));
    for (uint32_t day = SATURDAY; day <= DAYS_OF_WEEK; day++) under_way(x, AT(25, 5), AT(25, 10), day);
    too_short(x, SUNDAY);
    too_short(x, MONDAY);
    under_way(x, AT(1, 10), AT(1, 5), SUNDAY);
    under_way(x, AT(25, 5), AT(25, 10), KHEYAMBO_LAST_DAY + 1);
    said("trip 117 out", kheyambo_remove(x.ruler, 117, INDEX(x)));
    said("trip 117 out again", kheyambo_remove(x.ruler, 117, INDEX(x)));
    said("a timing point", kheyambo_add(x.ruler, 205, AT(25, 40), AT(25, 40), DAILY, INDEX(x)));
    every_code(x, AT(25, 20), AT(25, 40), SUNDAY);
    every_code(x, AT(25, 20), AT(25, 40), MONDAY);
    said("check", kheyambo_check(x.ruler, INDEX(x)));
    census(x, "census");
    run(x, M, AT(22, 50));
    run(x, M + 1, AT(22, 50));

    x.directory[0] = 1;
    said("a damaged word", kheyambo_check(x.ruler, INDEX(x)));
    under_way(x, AT(25, 5), AT(25, 10), SATURDAY);
    census(x, "census of it");
    run(x, M, AT(22, 50));
    given_back(x);
    longest_trips();
    to_the_end_of_the_timetable(TABLE(table));
    return 0;
}
