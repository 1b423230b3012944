/* stack: each C function on a stack of its own of STACK bytes, a board's 4,096. The stack is painted before each call, and what is no longer painted
   was used; below it nothing may be touched, so that a call which needs more faults and spoils no memory. The inputs are the largest, accepted and
   refused, on rulers of both kinds, and each call states the number that it must answer.

   Prints `name | ruler | calls | most bytes` for each function on each kind of ruler, without what an empty call uses; ends with 1 where a call needed more
   than there is, with that, or answered another number. */
#include <signal.h>
#include <stdio.h>
#include <stdlib.h>
#include <string.h>
#include <sys/mman.h>
#include <ucontext.h>
#include <unistd.h>

#include "kheyambo.h"

#ifndef STACK
#define STACK 4096
#endif

enum {
    W = 18, M = 10, LO = 14400, HI = 100800, TRIPS = KHEYAMBO_MOST_TRIPS, ROW = KHEYAMBO_ENTRY_WORDS,
    DIRECTORY = 8190, HALF = DIRECTORY / 2, ORIGINALS = ROW * TRIPS, REPLICAS = ORIGINALS * (KHEYAMBO_MOST_ENTRIES - 1),
    BELOW = 1 << 20, /* bytes: one page would not stop a call that takes several at once */
    PAINT = 0xa5
};

/* ---- The calls, which find in `given` what they are given, and leave what they answer */

/* A row more than the largest has, so that lengths which are refused are there too. */
static uint32_t table[ORIGINALS + ROW], directory[DIRECTORY + ROW], originals[ORIGINALS + ROW], replicas[REPLICAS + ROW], answers[TRIPS];
static kheyambo_counts counts;

static struct {
    kheyambo_ruler ruler;
    uint32_t code, id, start, end, days, day, level, partition, subdivision;
    size_t table, directory, originals, replicas, answers;
} given;

static uint32_t number, count;

#define INDEX directory, given.directory, originals, given.originals, replicas, given.replicas

static void nothing(void) {}
static void bits(void) { given.ruler = kheyambo_bits(W, M); }
static void spread(void) { given.ruler = kheyambo_spread(M, LO, HI); }
static void build(void) { number = kheyambo_build(given.ruler, table, given.table, INDEX).number; }
static void check(void) { number = kheyambo_check(given.ruler, INDEX).number; }
static void add(void) { number = kheyambo_add(given.ruler, given.id, given.start, given.end, given.days, INDEX).number; }
static void take(void) { number = kheyambo_remove(given.ruler, given.id, INDEX).number; }
static void census(void) { number = kheyambo_census(given.ruler, INDEX, &counts).number; }
static void run(void) { number = kheyambo_run(given.ruler, given.level, given.partition, given.subdivision, INDEX).number; }

static void ask(void) {
    kheyambo_told told = kheyambo_ask(given.ruler, given.code, given.start, given.end, given.day, INDEX, answers, given.answers);
    number = told.number;
    count = told.count;
}

enum { BUILD = 1, CHECK = 2, ADD = 4, REMOVE = 8, ASK = 16, CENSUS = 32, RUN = 64, ON_INDEX = 126, EVERY = 127, FUNCTIONS = 7 };

static const struct {
    const char *name;
    void (*enter)(void);
} functions[FUNCTIONS] = {
    {"build", build}, {"check", check}, {"add", add}, {"remove", take}, {"ask", ask}, {"census", census}, {"run", run},
};

/* ---- Rulers, one of each kind */

static uint32_t cell_by_bits(uint32_t t) { return t >> (W - M); }
static uint32_t cell_by_spread(uint32_t t) { return (uint32_t)((uint64_t)(t - LO) * ((1 << M) - 1) / (HI - LO)); }

/* Its first and last second, the first of its second cell and the last of its last cell but one: a trip between these two lies in the most partitions. */
static const struct ruler {
    const char *name;
    void (*named)(void);
    uint32_t (*cell)(uint32_t t);
    uint32_t first, last, second_cell, last_but_one;
} rulers[] = {
    {"18 bits", bits, cell_by_bits, 0, (1 << W) - 1, 1 << (W - M), (1 << W) - (1 << (W - M)) - 1},
    {"04:00 to 28:00", spread, cell_by_spread, LO, HI, LO + 85, HI - 1},
};

enum { RULERS = sizeof rulers / sizeof rulers[0] };

static const struct ruler *on = rulers;

/* ---- Tables of trips */

static uint32_t between_starts(void) { return (on->last - on->first + 1) / TRIPS; }

/* The 4,096 starts, evenly over the ruler, in no order. */
static uint32_t start_of(uint32_t i) { return on->first + i * 1597 % TRIPS * between_starts(); }

static void in_most_partitions(uint32_t i, uint32_t *row) { (void)i; row[1] = on->second_cell, row[2] = on->last_but_one; }
static void to_the_end(uint32_t i, uint32_t *row) { row[1] = start_of(i), row[2] = on->last; }
static void of_all_lengths(uint32_t i, uint32_t *row) { row[1] = start_of(i), row[2] = row[1] + i * 2654435761u % (on->last + 1 - row[1]); }
static void brief(uint32_t i, uint32_t *row) { row[1] = start_of(i), row[2] = row[1] + i % between_starts(); }
static void points(uint32_t i, uint32_t *row) { row[1] = row[2] = start_of(i); }
static void in_one_slot(uint32_t i, uint32_t *row) { (void)i; row[1] = row[2] = on->last; }

#define NAMED(name) {#name, name}

static const struct {
    const char *name;
    void (*put)(uint32_t i, uint32_t *row);
} times[] = {
    NAMED(in_most_partitions), NAMED(to_the_end), NAMED(of_all_lengths), NAMED(brief), NAMED(points), NAMED(in_one_slot)
};

/* The library parts the ids by their product with `mix`. Here that is i, so that all fall into the first of the parts. */
static uint32_t in_one_class(uint32_t i) {
    const uint32_t mix = 2654435769u;
    uint32_t inverse = mix;
    for (int k = 0; k < 5; k++) inverse *= 2 - mix * inverse;
    return i * inverse;
}

static uint32_t in_no_order(uint32_t i) { return i * 2654435761u; }
static uint32_t falling(uint32_t i) { return TRIPS - i; }
static uint32_t rising(uint32_t i) { return i; }

static const struct {
    const char *name;
    uint32_t (*of)(uint32_t i);
} ids[] = {NAMED(in_one_class), NAMED(in_no_order), NAMED(falling), NAMED(rising)};

enum { TIMES = sizeof times / sizeof times[0], IDS = sizeof ids / sizeof ids[0] };

/* The index of the table's first rows, laid out on the ordinary stack. */
static void lay_out(size_t trips) {
    size_t all = given.table;
    given.table = ROW * trips;
    build();
    given.table = all;
    if (number != 0) {
        fprintf(stderr, "stack: a table that must be accepted got %u\n", number);
        exit(2);
    }
}

/* What a call that is accepted is given: an addition adds the last row, a question is answered with all trips. */
static void prepare(size_t t, size_t d, unsigned function) {
    const uint32_t *row = table + (function == ADD ? ORIGINALS - ROW : 0);
    for (uint32_t i = 0; i < TRIPS; i++) {
        table[ROW * i] = ids[d].of(i);
        times[t].put(i, table + ROW * i);
        table[ROW * i + 3] = KHEYAMBO_EVERY_DAY;
    }
    on->named();
    given.code = KHEYAMBO_G_OVERLAPS;
    given.id = row[0], given.start = function == ASK ? on->first : row[1], given.end = function == ASK ? on->last : row[2];
    given.days = row[3], given.day = KHEYAMBO_LAST_DAY;
    given.level = M, given.partition = on->cell(table[1]), given.subdivision = KHEYAMBO_O_IN;
    given.table = ORIGINALS, given.directory = DIRECTORY, given.originals = ORIGINALS, given.replicas = REPLICAS, given.answers = TRIPS;
    memset(originals + ORIGINALS, 0, sizeof(uint32_t) * ROW);
    memset(replicas + REPLICAS, 0, sizeof(uint32_t) * ROW);
    lay_out(function == ADD ? TRIPS - 1 : TRIPS);
}

/* ---- What is changed of that, by a number. Each says whether this table and this ruler have what it changes. */

static int unchanged(uint32_t x) { (void)x; return 1; }
static int kind(uint32_t x) { given.ruler.kind = x; return 1; }
static int m(uint32_t x) { given.ruler.m = x; return 1; }
static int w(uint32_t x) { given.ruler = kheyambo_bits(x, M); return on->named == bits; }
static int lo(uint32_t x) { given.ruler = kheyambo_spread(M, x, HI); return on->named == spread; }
static int hi(uint32_t x) { given.ruler = kheyambo_spread(M, LO, x); return on->named == spread; }
static int ruler_on_by(uint32_t x) { rulers[(size_t)(on - rulers + x) % RULERS].named(); return 1; }
static int start(uint32_t x) { given.start = x; return 1; }
static int start_before_first_by(uint32_t x) { given.start = on->first - x; return on->first >= x; }
static int end_after_last_by(uint32_t x) { given.end = on->last + x; return 1; }
static int backward_before_last_by(uint32_t x) { given.start = on->last - x + 1, given.end = on->last - x; return 1; }
static int id_of_row(uint32_t x) { given.id = table[ROW * x]; return 1; }
static int days(uint32_t x) { given.days = x; return 1; }
static int day(uint32_t x) { given.day = x; return 1; }
static int code(uint32_t x) { given.code = x; return 1; }
static int level(uint32_t x) { given.level = x; return 1; }
static int partition(uint32_t x) { given.partition = x; return 1; }
static int subdivision(uint32_t x) { given.subdivision = x; return 1; }
static int table_words(uint32_t x) { given.table = x; return 1; }
static int directory_words(uint32_t x) { given.directory = x; return 1; }
static int originals_words(uint32_t x) { given.originals = x; return 1; }
static int answers_words(uint32_t x) { given.answers = x; return 1; }
static int row_after_last(uint32_t x) { table[ROW * x + 2] = on->last + 1; return 1; }
static int row_before_first(uint32_t x) { table[ROW * x + 1] = on->first - 1; return on->first > 0; }
static int row_backward(uint32_t x) { table[ROW * x + 1] = on->first + 1, table[ROW * x + 2] = on->first; return 1; }
static int row_with_first_id(uint32_t x) { table[ROW * x] = table[0]; return 1; }
static int row_of_no_day(uint32_t x) { table[ROW * x + 3] = 0; return 1; }
static int directory_word(uint32_t x) { directory[x] += 1; return 1; }
static int original_word(uint32_t x) { originals[x] = UINT32_MAX; return 1; }

static size_t originals_used(void) { return ROW * (size_t)directory[HALF - 1]; }
static size_t replicas_used(void) { return ROW * (size_t)directory[DIRECTORY - 1]; }
static int first_replica_word(uint32_t x) { replicas[0] += x; return replicas_used() > 0; }

static int last_replica_word(uint32_t x) {
    if (replicas_used() == 0) return 0;
    replicas[replicas_used() - 1] += x;
    return 1;
}

/* The seconds of a ruler that a trip in most partitions tells apart: its own first and last, those beside them, two between them, the ruler's ends. */
enum { FIRST, BEFORE, STARTS, WITHIN, LATER, ENDS, AFTER, LAST };

static uint32_t second(int which) {
    const uint32_t seconds[] = {
        on->first, on->second_cell - 1, on->second_cell, on->first + 9999, on->first + 19999, on->last_but_one, on->last_but_one + 1, on->last
    };
    return seconds[which];
}

/* The windows to which such a trip stands under code 0, 1, 2 .. 13. */
static const int windows[][2] = {
    {STARTS, ENDS}, {STARTS, WITHIN}, {STARTS, LAST}, {WITHIN, ENDS}, {FIRST, ENDS}, {FIRST, STARTS}, {ENDS, LAST},
    {FIRST, WITHIN}, {WITHIN, LAST}, {FIRST, LAST}, {WITHIN, LATER}, {FIRST, BEFORE}, {AFTER, LAST}, {FIRST, LAST},
};

static int question(uint32_t x) { given.code = x, given.start = second(windows[x][0]), given.end = second(windows[x][1]); return 1; }

static int absent_id(uint32_t x) {
    for (uint32_t i = 0; i < ORIGINALS; i += ROW) {
        if (table[i] == x) return absent_id(x + 1);
    }
    given.id = x;
    return 1;
}

static int added_to_all(uint32_t x) { lay_out(TRIPS); return absent_id(x); }

/* Too few words for the replicas of all trips by so many, and enough for those of all but the last. */
static int replicas_short_by(uint32_t x) {
    size_t all, before;
    lay_out(TRIPS);
    all = replicas_used();
    lay_out(TRIPS - 1);
    before = replicas_used();
    given.replicas = all - x;
    return before + x <= all;
}

/* Every second trip runs that day, and the list has a word for each of them less by so many. */
static int half_that_day(uint32_t x) {
    for (uint32_t i = 0; i < TRIPS; i += 2) table[ROW * i + 3] = kheyambo_on_day(0);
    lay_out(TRIPS);
    given.answers = TRIPS / 2 - x;
    return 1;
}

static void renamed(uint32_t *arena, size_t words, uint32_t from, uint32_t to) {
    for (size_t i = 0; i < words; i += ROW) {
        if (arena[i] == from) arena[i] = to;
    }
}

/* All entries of a trip get the first one's id. */
static int id_twice(uint32_t x) {
    uint32_t from = originals[ROW * x], to = originals[0];
    renamed(originals, ORIGINALS, from, to);
    renamed(replicas, replicas_used(), from, to);
    return 1;
}

static void with_days(uint32_t *arena, size_t words, uint32_t id, uint32_t x) {
    for (size_t i = 0; i < words; i += ROW) {
        if (arena[i] == id) arena[i + 3] = x;
    }
}

/* The days of the first trip, in all of its entries. */
static int days_of_first(uint32_t x) {
    with_days(originals, originals_used(), originals[0], x);
    with_days(replicas, replicas_used(), originals[0], x);
    return 1;
}

/* A word more in each arena, and among those after the last entry one that is not 0: the first or the last, of the originals or the replicas. */
static int tail_word(uint32_t x) {
    given.originals = ORIGINALS + 1, given.replicas = REPLICAS + 1;
    switch (x) {
    case 0: originals[originals_used()] = 1; break;
    case 1: originals[ORIGINALS] = 1; break;
    case 2: replicas[replicas_used()] = 1; break;
    default: replicas[REPLICAS] = 1;
    }
    return 1;
}

static int every_word(uint32_t x) {
    for (size_t i = 0; i < DIRECTORY; i++) directory[i] = x;
    for (size_t i = 0; i < ORIGINALS; i++) originals[i] = x;
    for (size_t i = 0; i < REPLICAS; i++) replicas[i] = x;
    return 1;
}

#define CHANGED(change, x) #change " " #x, change, x

static const struct row {
    uint32_t number; /* that must be answered */
    unsigned who;
    const char *name;
    int (*change)(uint32_t x);
    uint32_t x;
} rows[] = {
    {0, EVERY, CHANGED(unchanged, 0)},
    {0, REMOVE, CHANGED(id_of_row, TRIPS / 2)}, {0, REMOVE, CHANGED(id_of_row, TRIPS - 1)},
    {0, ASK, CHANGED(question, 0)}, {0, ASK, CHANGED(question, 1)}, {0, ASK, CHANGED(question, 2)}, {0, ASK, CHANGED(question, 3)},
    {0, ASK, CHANGED(question, 4)}, {0, ASK, CHANGED(question, 5)}, {0, ASK, CHANGED(question, 6)}, {0, ASK, CHANGED(question, 7)},
    {0, ASK, CHANGED(question, 8)}, {0, ASK, CHANGED(question, 9)}, {0, ASK, CHANGED(question, 10)}, {0, ASK, CHANGED(question, 11)},
    {0, ASK, CHANGED(question, 12)}, {0, ASK, CHANGED(question, 13)},
    {0, ASK, CHANGED(half_that_day, 0)}, {7, ASK, CHANGED(half_that_day, 1)},
    {0, ON_INDEX, CHANGED(days_of_first, 1)},
    {0, RUN, CHANGED(subdivision, 1)}, {0, RUN, CHANGED(subdivision, 2)}, {0, RUN, CHANGED(subdivision, 3)},
    {1, EVERY, CHANGED(w, 0)}, {1, EVERY, CHANGED(w, 25)}, {1, EVERY, CHANGED(w, M - 1)}, {1, EVERY, CHANGED(m, 11)},
    {1, EVERY, CHANGED(lo, HI)}, {1, EVERY, CHANGED(lo, UINT32_MAX)}, {1, EVERY, CHANGED(hi, 1 << 24)}, {1, EVERY, CHANGED(hi, UINT32_MAX)},
    {1, EVERY, CHANGED(kind, 2)}, {1, EVERY, CHANGED(kind, UINT32_MAX)},
    {2, BUILD, CHANGED(table_words, ORIGINALS - 1)}, {2, BUILD, CHANGED(table_words, ORIGINALS + ROW)}, {2, ADD, CHANGED(added_to_all, 0)},
    {3, EVERY, CHANGED(directory_words, DIRECTORY - 1)}, {3, EVERY, CHANGED(directory_words, DIRECTORY + 1)},
    {4, BUILD, CHANGED(row_after_last, 0)}, {4, BUILD, CHANGED(row_after_last, TRIPS - 1)},
    {4, BUILD, CHANGED(row_before_first, 0)}, {4, BUILD, CHANGED(row_before_first, TRIPS - 1)},
    {4, ADD | ASK, CHANGED(start, UINT32_MAX)}, {4, ADD | ASK, CHANGED(start_before_first_by, 1)}, {4, ADD | ASK, CHANGED(end_after_last_by, 1)},
    {5, BUILD, CHANGED(row_backward, 0)}, {5, BUILD, CHANGED(row_backward, TRIPS - 1)}, {5, ADD | ASK, CHANGED(backward_before_last_by, 1)},
    {6, BUILD, CHANGED(row_with_first_id, 1)}, {6, BUILD, CHANGED(row_with_first_id, TRIPS - 1)},
    {6, ADD, CHANGED(id_of_row, 0)}, {6, ADD, CHANGED(id_of_row, TRIPS - 2)},
    {7, BUILD | ADD, CHANGED(originals_words, ORIGINALS - 1)}, {7, BUILD | ADD, CHANGED(replicas_short_by, 1)},
    {7, ASK, CHANGED(answers_words, TRIPS - 1)}, {7, ASK, CHANGED(answers_words, 0)},
    {8, ON_INDEX, CHANGED(directory_word, 0)}, {8, ON_INDEX, CHANGED(directory_word, 1)}, {8, ON_INDEX, CHANGED(directory_word, HALF - 1)},
    {8, ON_INDEX, CHANGED(directory_word, HALF)}, {8, ON_INDEX, CHANGED(directory_word, DIRECTORY - 1)},
    {8, ON_INDEX, CHANGED(original_word, 1)}, {8, ON_INDEX, CHANGED(original_word, ORIGINALS - 2 * ROW + 2)},
    {8, ON_INDEX, CHANGED(first_replica_word, 1)}, {8, ON_INDEX, CHANGED(last_replica_word, 1)},
    {8, ON_INDEX, CHANGED(id_twice, 1)}, {8, ON_INDEX, CHANGED(id_twice, TRIPS - 2)},
    {8, ON_INDEX, CHANGED(days_of_first, 0)},
    {8, ON_INDEX, CHANGED(tail_word, 0)}, {8, ON_INDEX, CHANGED(tail_word, 1)},
    {8, ON_INDEX, CHANGED(tail_word, 2)}, {8, ON_INDEX, CHANGED(tail_word, 3)},
    {8, ON_INDEX, CHANGED(originals_words, ORIGINALS - ROW - 1)}, {8, ON_INDEX, CHANGED(w, W - 1)},
    {8, ON_INDEX, CHANGED(hi, HI + 3600)}, {8, ON_INDEX, CHANGED(ruler_on_by, 1)},
    {8, ON_INDEX, CHANGED(every_word, 1)}, {8, ON_INDEX, CHANGED(every_word, UINT32_MAX)},
    {9, ASK, CHANGED(code, 14)}, {9, ASK, CHANGED(code, UINT32_MAX)},
    {10, REMOVE, CHANGED(absent_id, 0)}, {10, REMOVE, CHANGED(absent_id, 1u << 31)},
    {12, RUN, CHANGED(level, M + 1)}, {12, RUN, CHANGED(partition, 1 << M)}, {12, RUN, CHANGED(subdivision, 4)},
    {16, BUILD, CHANGED(row_of_no_day, 0)}, {16, BUILD, CHANGED(row_of_no_day, TRIPS - 1)}, {16, ADD, CHANGED(days, 0)},
    {17, ASK, CHANGED(day, KHEYAMBO_LAST_DAY + 1)}, {17, ASK, CHANGED(day, UINT32_MAX)},
};

enum { ROWS = sizeof rows / sizeof rows[0] };

/* ---- Running them */

static unsigned char *stack;
static ucontext_t home, away;
static const char *running = "none";
static volatile sig_atomic_t spilt;
static size_t by_empty, wrong;

/* A call that touched what is below its stack ends there, and its caller goes on. Any other fault ends the test. */
static void fault(int signal, siginfo_t *info, void *context) {
    const unsigned char *at = info->si_addr;
    (void)signal, (void)context;
    if (at < stack - BELOW || at >= stack) {
        fprintf(stderr, "stack: %s: a fault that is not below the stack\n", running);
        _exit(1);
    }
    spilt = 1;
    setcontext(&home);
}

static void make_stack(void) {
    static unsigned char of_handler[1 << 16];
    stack_t aside = {.ss_sp = of_handler, .ss_size = sizeof of_handler};
    struct sigaction action = {.sa_flags = SA_SIGINFO | SA_ONSTACK};
    unsigned char *all = mmap(0, BELOW + STACK, PROT_READ | PROT_WRITE, MAP_PRIVATE | MAP_ANONYMOUS, -1, 0);
    action.sa_sigaction = fault;
    if (all == MAP_FAILED || mprotect(all, BELOW, PROT_NONE) || sigaltstack(&aside, 0)) exit(2);
    if (sigaction(SIGSEGV, &action, 0) || sigaction(SIGBUS, &action, 0)) exit(2);
    stack = all + BELOW;
}

/* The bytes of the stack that a call used. */
static size_t used_by(void (*enter)(void)) {
    size_t untouched = 0;
    memset(stack, PAINT, STACK);
    spilt = 0;
    if (getcontext(&away)) exit(2);
    away.uc_stack.ss_sp = stack, away.uc_stack.ss_size = STACK, away.uc_link = &home;
    makecontext(&away, enter, 0);
    if (swapcontext(&home, &away)) exit(2);
    while (untouched < STACK && stack[untouched] == PAINT) untouched++;
    return STACK - untouched;
}

/* Of one function on one ruler. */
static struct {
    size_t calls, over, most;
} found;

static void complain(size_t f, const struct row *row, size_t t, size_t d) {
    fprintf(stderr, "stack: %s on %s, trips %s, ids %s, %s: ", functions[f].name, on->name, times[t].name, ids[d].name, row->name);
}

static void measure(size_t f, const struct row *row, size_t t, size_t d) {
    int all = row->change == question && (row->x == KHEYAMBO_G_OVERLAPS || times[t].put == in_most_partitions);
    size_t used;
    running = functions[f].name, number = UINT32_MAX, count = 0;
    used = used_by(functions[f].enter);
    found.calls++;
    if (found.most + by_empty < used) found.most = used - by_empty;
    if (spilt) {
        if (found.over++) return;
        complain(f, row, t, d);
        fprintf(stderr, "needs more than %d bytes\n", STACK);
    } else if (number != row->number || (all && count != TRIPS)) {
        wrong++;
        complain(f, row, t, d);
        fprintf(stderr, "%u, must be %u", number, row->number);
        fprintf(stderr, all ? "; %u ids, must be all\n" : "\n", count);
    }
}

/* The refused calls on one kind of ids alone, as they are many. */
static void measure_all(size_t f, size_t t, size_t d) {
    for (size_t r = 0; r < ROWS; r++) {
        if (!(rows[r].who & 1u << f) || (rows[r].number != 0 && d != 0)) continue;
        prepare(t, d, 1u << f);
        if (rows[r].change(rows[r].x)) measure(f, &rows[r], t, d);
    }
}

static void measure_function(size_t f) {
    memset(&found, 0, sizeof found);
    for (size_t t = 0; t < TIMES; t++) {
        for (size_t d = 0; d < IDS; d++) measure_all(f, t, d);
    }
    printf("%s | %s | %zu | ", functions[f].name, on->name, found.calls);
    printf(found.over ? "more than %zu bytes\n" : "%zu bytes\n", found.over ? STACK - by_empty : found.most);
}

int main(void) {
    size_t over = 0;
    make_stack();
    by_empty = used_by(nothing);
    printf("an empty call | – | 1 | %zu bytes\n", by_empty);
    for (size_t f = 0; f < FUNCTIONS; f++) {
        for (size_t k = 0; k < RULERS; k++) {
            on = rulers + k;
            measure_function(f);
            over += found.over;
        }
    }
    if (over) fprintf(stderr, "stack: %zu calls need more than %d bytes\n", over, STACK);
    if (wrong) fprintf(stderr, "stack: %zu calls answered another number than they must\n", wrong);
    return over || wrong;
}
