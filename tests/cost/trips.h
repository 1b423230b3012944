/* 4,096 trips of a kind, by a fixed rule, for the programs that measure: `fill` writes their rows into `table`. All of them end by 28:00, and all but those
   of the kind day begin at 04:00 or later. All of them run on every day, unless `running` is more than 1: of so many trips one runs then on day 0, and the
   others on every other day. With -DTHREE_WORDS rows are those of a library before T-07: id, start, end. */
#ifndef TRIPS_H
#define TRIPS_H

#include <stdint.h>
#include <string.h>

#include "kheyambo.h"

#ifdef THREE_WORDS
enum { ROW = 3 };
#else
enum { ROW = KHEYAMBO_ENTRY_WORDS };
#endif

enum { TRIPS = KHEYAMBO_MOST_TRIPS, MINUTE = 60, HOUR = 3600 };

static uint32_t table[TRIPS * ROW];
static uint32_t running = 1;

static uint64_t state;

static uint32_t drawn(uint32_t below) {
    state = state * 6364136223846793005u + 1442695040888963407u;
    return (uint32_t)(state >> 33) % below;
}

static void put(uint32_t i, uint32_t id, uint32_t start, uint32_t length) {
    uint32_t *row = table + ROW * i;
    row[0] = id, row[1] = start, row[2] = start + length;
    if (ROW > 3) row[ROW - 1] = i % running == 0 ? KHEYAMBO_EVERY_DAY : KHEYAMBO_EVERY_DAY ^ kheyambo_on_day(0);
}

/* Ids that differ, in no order: each step can be undone, so no two numbers become one. */
static uint32_t mixed(uint32_t i) {
    i = (i ^ (i >> 16)) * 0x85ebca6bu;
    i = (i ^ (i >> 13)) * 0xc2b2ae35u;
    return i ^ (i >> 16);
}

/* Under an hour: from 04:00 to 28:00. */
static void hour(uint32_t i) {
    uint32_t length = MINUTE + drawn(HOUR - MINUTE);
    put(i, mixed(i), 4 * HOUR + drawn(24 * HOUR - length), length);
}

/* As in a feed: line after line, each with its length, from its first trip of the day on in even steps to the last; ids in the order of rows. */
static void feed(uint32_t i) {
    static uint32_t start, step, length;
    if (i == 0 || 25 * HOUR < start) {
        start = 4 * HOUR + MINUTE * drawn(120);
        step = MINUTE * (6 + drawn(30));
        length = MINUTE * (12 + drawn(90));
    }
    put(i, i, start, length);
    start += step;
}

/* All day: from 03:00 to 05:00 on, up to 25:00 to 28:00. */
static void day(uint32_t i) {
    uint32_t start = 3 * HOUR + drawn(2 * HOUR);
    put(i, mixed(i), start, 25 * HOUR + drawn(3 * HOUR) - start);
}

static void slot(uint32_t i) { put(i, mixed(i), 50000, 300); }

static const struct {
    const char *name;
    void (*row)(uint32_t i);
} kinds[] = {{"hour", hour}, {"feed", feed}, {"day", day}, {"slot", slot}};

/* Whether there is such a kind. */
static int fill(const char *kind) {
    size_t k = 0;
    while (k < sizeof kinds / sizeof kinds[0] && strcmp(kind, kinds[k].name)) k++;
    if (k == sizeof kinds / sizeof kinds[0]) return 0;
    state = 7;
    for (uint32_t i = 0; i < TRIPS; i++) kinds[k].row(i);
    return 1;
}

#endif
