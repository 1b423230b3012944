/* spread: what a ruler that is spread over the timetable buys. 4,096 trips of a kind (tests/cost/trips.h) that end by 28:00, on rulers of 18 bits and of 17,
   the fewest that reach 28:00, and on rulers that end with them, at the same m. The entries in all and the replicas for each trip are from the census; from
   the words of the directory are the slots that have entries, the most that one has, and the most that one of the deepest level has. Prints a table with its
   head. */
#include <stdio.h>
#include <stdlib.h>

#include "kheyambo.h"
#include "trips.h"

enum { DIRECTORY = 8190, ORIGINALS = TRIPS * ROW, REPLICAS = ORIGINALS * (KHEYAMBO_MOST_ENTRIES - 1) };

static uint32_t directory[DIRECTORY], originals[ORIGINALS], replicas[REPLICAS];

#define INDEX(m) directory, kheyambo_directory_words(m), originals, ORIGINALS, replicas, REPLICAS

static void must(const char *call, uint32_t number) {
    if (number == KHEYAMBO_ACCEPTED) return;
    fprintf(stderr, "spread: %s: %u\n", call, number);
    exit(1);
}

typedef struct {
    uint32_t used, largest;
} slots;

/* The slots of half a directory from one on: the word of each is the entries before it, and the last word is all of them. */
static slots slots_of(const uint32_t *half, size_t first, size_t words, slots found) {
    for (size_t i = first; i + 1 < words; i++) {
        uint32_t entries = half[i + 1] - half[i];
        if (entries > 0) found.used++;
        if (entries > found.largest) found.largest = entries;
    }
    return found;
}

/* The slots of both halves from a level on. A level has twice as many slots as all those above it, and two more. */
static slots slots_from(uint32_t level, uint32_t m) {
    const size_t half = kheyambo_directory_words(m) / 2, first = ((size_t)2 << level) - 2;
    const slots none = {0, 0};
    return slots_of(directory + half, first, half, slots_of(directory, first, half, none));
}

/* The entries of two subdivisions at all levels. */
static uint32_t entries_of(const kheyambo_counts counts, int one, int other) {
    uint32_t entries = 0;
    for (int level = 0; level < KHEYAMBO_LEVELS; level++) entries += counts[level][one] + counts[level][other];
    return entries;
}

static void row(const char *trips, uint32_t m, const char *name, kheyambo_ruler ruler) {
    kheyambo_counts counts;
    uint32_t in_originals, in_replicas;
    slots all, deepest;
    must("build", kheyambo_build(ruler, table, ORIGINALS, INDEX(m)).number);
    must("census", kheyambo_census(ruler, INDEX(m), &counts).number);
    in_originals = entries_of(counts, KHEYAMBO_O_IN, KHEYAMBO_O_AFT);
    in_replicas = entries_of(counts, KHEYAMBO_R_IN, KHEYAMBO_R_AFT);
    all = slots_from(0, m);
    deepest = slots_from(m, m);
    printf("%s | %u | %s | %u | %.2f | ", trips, m, name, in_originals + in_replicas, (double)in_replicas / TRIPS);
    printf("%u | %u | %u\n", all.used, all.largest, deepest.largest);
}

/* Both kinds; one that begins with the trips too, where they all begin at 04:00 or later. */
static void rows(const char *kind, const char *trips, uint32_t m, int from_four) {
    if (!fill(kind)) exit(2);
    row(trips, m, "w = 18", kheyambo_bits(18, m));
    row(trips, m, "w = 17", kheyambo_bits(17, m));
    row(trips, m, "00:00 to 28:00", kheyambo_spread(m, 0, 28 * HOUR));
    if (from_four) row(trips, m, "04:00 to 28:00", kheyambo_spread(m, 4 * HOUR, 28 * HOUR));
}

int main(void) {
    const uint32_t depths[] = {10, 8};
    printf("trips | m | ruler | entries | replicas for each trip | slots in use | entries of the largest | of the largest at level m\n");
    for (int i = 0; i < 2; i++) {
        rows("feed", "as in a feed", depths[i], 1);
        rows("hour", "under an hour", depths[i], 1);
        rows("day", "all day", depths[i], 0);
    }
    return 0;
}
