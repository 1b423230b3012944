/* cost KIND ROOM RULER CALLS: 4,096 trips of a kind (hour, feed, day, slot), in arenas that they just fill (ROOM fit) or that would do for any trips
   (ROOM any), on a ruler (bits, spread), and the first CALLS of five calls on them: build, check, ask, remove, add. Writes how many entries they have.
   tests/cost/count counts the instructions of each call as the difference of two runs.

   cost KIND WINDOW RUNNING CALLS: of as many trips as RUNNING says one runs on day 0, and the first CALLS of three calls on the first ruler: check, and a
   question of code 13 and day 0 over a window (short, long) with no word for its answer, and with one for each trip. Writes how many trips it finds.

   cost KIND ROOM times: the same trips on both rulers in turn, some hundred times, and of the time of a build and of that of a check the middle one on the
   second ruler over that on the first.

   With -DTHREE_WORDS it is for a library before T-07: its rows are three words, and no call takes days. */
#include <stdio.h>
#include <stdlib.h>
#include <time.h>

#include "kheyambo.h"
#include "trips.h"

enum { W = 18, M = 10, DIRECTORY = 8190, HALF = DIRECTORY / 2, ROUNDS = 301 };

static uint32_t directory[DIRECTORY];
static uint32_t originals[TRIPS * ROW];
static uint32_t replicas[TRIPS * (KHEYAMBO_MOST_ENTRIES - 1) * ROW];
static uint32_t answers[TRIPS];

static size_t room[2];
static kheyambo_ruler ruler;

#define WORDS(list) list, sizeof(list) / sizeof(list[0])
#define INDEX WORDS(directory), originals, room[0], replicas, room[1]

#ifdef THREE_WORDS
#define INDEX_READ const uint32_t *, size_t, const uint32_t *, size_t, const uint32_t *, size_t
#define INDEX_WRITTEN uint32_t *, size_t, uint32_t *, size_t, uint32_t *, size_t
kheyambo_said add_before(kheyambo_ruler, uint32_t id, uint32_t start, uint32_t end, INDEX_WRITTEN) __asm__("kheyambo_add");
kheyambo_told ask_before(kheyambo_ruler, uint32_t code, uint32_t start, uint32_t end, INDEX_READ, uint32_t *, size_t) __asm__("kheyambo_ask");
#define ADD(row) add_before(ruler, row[0], row[1], row[2], INDEX)
#define ASK(start, end, words) ask_before(ruler, KHEYAMBO_G_OVERLAPS, start, end, INDEX, answers, words)
#else
#define ADD(row) kheyambo_add(ruler, row[0], row[1], row[2], row[3], INDEX)
#define ASK(start, end, words) kheyambo_ask(ruler, KHEYAMBO_G_OVERLAPS, start, end, 0, INDEX, answers, words)
#endif

static int wrong = 0;

static void must(const char *call, uint32_t number) {
    if (number != 0) {
        fprintf(stderr, "%s: %u\n", call, number);
        wrong = 1;
    }
}

static void build(void) { must("build", kheyambo_build(ruler, WORDS(table), INDEX).number); }
static void check(void) { must("check", kheyambo_check(ruler, INDEX).number); }
static void ask(void) { must("ask", ASK(90300, 90600, TRIPS).number); }
static void take(void) { must("remove", kheyambo_remove(ruler, table[0], INDEX).number); }
static void add(void) { must("add", ADD(table).number); }

static void (*const calls[])(void) = {build, check, ask, take, add};

/* The index on this ruler, in arenas for any trips, and then as long as they are to be. */
static void lay_out(const char *name, const char *arenas) {
    ruler = strcmp(name, "spread") ? kheyambo_bits(W, M) : kheyambo_spread(M, 0, 28 * HOUR);
    room[0] = sizeof originals / sizeof originals[0];
    room[1] = sizeof replicas / sizeof replicas[0];
    build();
    if (strcmp(arenas, "fit")) return;
    room[0] = ROW * directory[HALF - 1];
    room[1] = ROW * directory[DIRECTORY - 1];
}

/* ---- Questions */

enum { SHORT, LONG };

static const uint32_t windows[][2] = {[SHORT] = {90300, 90600}, [LONG] = {6 * HOUR, 22 * HOUR}};
static const uint32_t *window;

/* With no word for its answer a question ends when it has counted what it would list. */
static void count(void) { must("count", ASK(window[0], window[1], 0).number == KHEYAMBO_NO_ROOM ? 0 : 1); }
static void list(void) { must("list", ASK(window[0], window[1], TRIPS).number); }

static void (*const questions[])(void) = {check, count, list};

static void asked(const char *name, int calls) {
    window = windows[strcmp(name, "long") ? SHORT : LONG];
    lay_out("bits", "fit");
    printf("%u\n", ASK(window[0], window[1], 0).detail);
    for (int i = 0; i < calls; i++) questions[i]();
}

/* ---- Times */

enum { BUILD, CHECK, TIMED, BITS = 0, SPREAD, RULERS };

static double times[TIMED][RULERS][ROUNDS];

static double timed(void (*call)(void)) {
    struct timespec from, to;
    clock_gettime(CLOCK_MONOTONIC, &from);
    call();
    clock_gettime(CLOCK_MONOTONIC, &to);
    return 1e9 * (double)(to.tv_sec - from.tv_sec) + (double)(to.tv_nsec - from.tv_nsec);
}

static int by_size(const void *a, const void *b) {
    double x = *(const double *)a, y = *(const double *)b;
    return (x > y) - (x < y);
}

static double middle(double *list) {
    qsort(list, ROUNDS, sizeof list[0], by_size);
    return list[ROUNDS / 2];
}

static void in_turn(const char *arenas) {
    for (int round = 0; round < ROUNDS; round++) {
        for (int k = 0; k < RULERS; k++) {
            lay_out(k == BITS ? "bits" : "spread", arenas);
            times[BUILD][k][round] = timed(build);
            times[CHECK][k][round] = timed(check);
        }
    }
    for (int call = 0; call < TIMED; call++) printf("%.3f\n", middle(times[call][SPREAD]) / middle(times[call][BITS]));
}

static int is(const char *word, const char *one, const char *other) { return !strcmp(word, one) || !strcmp(word, other); }

int main(int n, char **words) {
    int of_questions = n == 5 && is(words[2], "short", "long");
    if (of_questions) running = (uint32_t)atoi(words[3]);
    if (n < 4 || running == 0 || !fill(words[1])) return 2;
    if (n == 4 && !strcmp(words[3], "times")) {
        in_turn(words[2]);
        return wrong;
    }
    if (n != 5) return 2;
    if (of_questions) {
        asked(words[2], atoi(words[4]));
        return wrong;
    }
    lay_out(words[3], words[2]);
    printf("%u\n", directory[HALF - 1] + directory[DIRECTORY - 1]);
    for (int i = 0; i < atoi(words[4]); i++) calls[i]();
    return wrong;
}
