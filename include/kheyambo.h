/* Kheyambo: a proved index over the running times of trips. The functions of the exported library.

   Times are seconds of the service day and may pass 24:00:00. A ruler says which times there are, and parts them into 2^m cells at the index's
   deepest level, m. It is of one of two kinds, and each has its maker:
   - kheyambo_bits(w, m) has the times 0 to 2^w - 1, in cells of 2^(w - m) seconds. w = 18 and m = 10 reach 72:49:03.
   - kheyambo_spread(m, lo, hi) has the times lo to hi, both included, and spreads its cells over them: kheyambo_spread(10, 0, 100800) for a timetable that
     ends at 28:00. Times are given and kept as they are, not less lo.
   Every call takes a ruler first. Its fields are for the makers to fill; no value of them does harm, and one that names no ruler is refused with 1.

   A row of a table and an entry of an index are four words: id, start, end, days. The days are one word, in which the bit of value 2^d says that the trip
   runs on day d, 0 to 31; which days those are is yours to say, the days of a month or of a week. A trip that runs on no day is refused with 16. A question
   names a day, and is answered from the trips that run on it. Every other call looks at all trips, whatever their days.

   The words of an index carry no ruler. Name with an index the ruler that it was made with: under another one its words may be no index at all, which
   is refused with 8.

   What you promise. Every pointer is valid for its length in 32-bit words, and no buffer that is written overlaps another. Nothing else:
   each function looks at its own input, on words of every kind, and refuses with a number. The words of an index may have come from anywhere.

   What a refused call leaves. Every word of the directory, the arenas and the answer list as it was, and every count 0. One buffer is written all
   the same: a refused kheyambo_census fills the lent counts with zeros, as they are what it answers. What to do about each number is in
   docs/REFUSALS.md.

   Threads. The functions share nothing and keep nothing: no globals, no heap, no locks. Any number may run at once as long as the buffers
   that a call writes are no other call's; calls that only read (check, ask, census, run) may share an index.

   Stack. Every call runs on a stack of 4 KiB: 3,328 bytes were the most that any took, on the largest inputs (tests/stack says it of each function).
   Ids are put in order in your answer list itself.

   A pointer is followed by its length in words. */
#ifndef KHEYAMBO_H
#define KHEYAMBO_H

#include <stddef.h>
#include <stdint.h>

#ifdef __cplusplus
extern "C" {
#endif

/* ---- Limits */

enum {
    KHEYAMBO_WIDEST = 24,          /* w is 1 to 24; lo < hi < 2^24 */
    KHEYAMBO_DEEPEST = 10,         /* m is 0 to 10; beside w at most w, beside lo and hi whatever hi - lo is */
    KHEYAMBO_MOST_TRIPS = 4096,    /* the trips of an index, and the rows of a table */
    KHEYAMBO_MOST_ENTRIES = 18,    /* the most entries of one trip, in both arenas together (m = 10) */
    KHEYAMBO_ENTRY_WORDS = 4,      /* the words of a table's row and of an index's entry: id, start, end, days */
    KHEYAMBO_LAST_DAY = 31         /* a day is 0 to 31 */
};

/* The days of a trip that runs on all of them, and of one that runs on this day only; 0 where there is no such day. Join several with |. */
#define KHEYAMBO_EVERY_DAY UINT32_MAX
static inline uint32_t kheyambo_on_day(uint32_t day) { return day > KHEYAMBO_LAST_DAY ? 0 : (uint32_t)1 << day; }

/* The words of a directory for m, which must be exact, on a ruler of either kind: 6 for m = 0, 8,190 for m = 10. 0 where there is no such m. */
static inline size_t kheyambo_directory_words(uint32_t m) {
    return m > KHEYAMBO_DEEPEST ? 0 : 4 * (((size_t)2 << m) - 1) + 2;
}

/* The most entries that one trip has, in both arenas together: one for each partition that holds it (the laws most-partitions, which says that
   no trip has more, and most-reached). Exactly one of them is an original. */
static inline size_t kheyambo_most_entries(uint32_t m) { return m < 2 ? 1 : 2 * ((size_t)m - 1); }

/* The words that an arena needs at the most for so many trips: 16,384 for the originals and 278,528 for the replicas of 4,096 trips at m = 10. A table
   of short trips needs far fewer replicas; a build that is refused with KHEYAMBO_NO_ROOM has changed nothing, and can be tried again with longer
   arenas. */
static inline size_t kheyambo_originals_words(size_t trips) { return KHEYAMBO_ENTRY_WORDS * trips; }
static inline size_t kheyambo_replicas_words(uint32_t m, size_t trips) {
    return KHEYAMBO_ENTRY_WORDS * (kheyambo_most_entries(m) - 1) * trips;
}

/* ---- The relationships, question q against trip s. Of codes 0 to 12 exactly one holds for each trip, also where the trip or the window starts and
   ends in one second: so the thirteen counts of a window on a day add up to the trips that run that day, and those of codes 0 to 10 to the count of
   code 13. */

enum {
    KHEYAMBO_EQUALS = 0,         /* q.st = s.st, q.end = s.end */
    KHEYAMBO_STARTS = 1,         /* q.st = s.st, q.end < s.end */
    KHEYAMBO_STARTED_BY = 2,     /* q.st = s.st, q.end > s.end */
    KHEYAMBO_FINISHES = 3,       /* q.st > s.st, q.end = s.end */
    KHEYAMBO_FINISHED_BY = 4,    /* q.st < s.st, q.end = s.end */
    KHEYAMBO_MEETS = 5,          /* q.st < q.end = s.st < s.end */
    KHEYAMBO_MET_BY = 6,         /* s.st < s.end = q.st < q.end */
    KHEYAMBO_OVERLAPS = 7,       /* q.st < s.st < q.end < s.end */
    KHEYAMBO_OVERLAPPED_BY = 8,  /* s.st < q.st < s.end < q.end */
    KHEYAMBO_CONTAINS = 9,       /* q.st < s.st, s.end < q.end */
    KHEYAMBO_CONTAINED_BY = 10,  /* s.st < q.st, q.end < s.end */
    KHEYAMBO_BEFORE = 11,        /* q.end < s.st */
    KHEYAMBO_AFTER = 12,         /* s.end < q.st */
    KHEYAMBO_G_OVERLAPS = 13     /* q.st <= s.end, s.st <= q.end: they share a second */
};

/* ---- The numbers of refusal */

enum {
    KHEYAMBO_ACCEPTED = 0,
    KHEYAMBO_RULER_OUT_OF_BOUNDS = 1,
    KHEYAMBO_TABLE_SIZE = 2,           /* build: no whole rows, or over 4,096; add: 4,096 trips already */
    KHEYAMBO_DIRECTORY_LENGTH = 3,     /* not kheyambo_directory_words(m) */
    KHEYAMBO_OFF_RULER = 4,            /* a start or end isn't on the ruler: 2^w or more, or outside lo..hi. Detail, in a build: the row, from 0 */
    KHEYAMBO_BACKWARD = 5,             /* start > end: a night trip whose end was wrapped? Detail as for 4 */
    KHEYAMBO_ID_TAKEN = 6,             /* Detail as for 4 */
    KHEYAMBO_NO_ROOM = 7,              /* an arena or the answer list is too short. Detail, in a question: the matches that day */
    KHEYAMBO_NOT_AN_INDEX = 8,         /* the words are no table's index for this ruler and these lengths */
    KHEYAMBO_NO_RELATIONSHIP = 9,
    KHEYAMBO_NO_SUCH_ID = 10,
    /* 11 is given by no call and isn't used again: docs/REFUSALS.md */
    KHEYAMBO_NO_SUCH_SLOT = 12,
    KHEYAMBO_NO_DAYS = 16,             /* a trip's days are 0: it runs on none. Detail as for 4 */
    KHEYAMBO_NO_SUCH_DAY = 17          /* a question's day is above 31 */
};

/* ---- Rulers */

/* A ruler of either kind, as kheyambo_bits and kheyambo_spread make it. The fields are theirs to fill: the last two are w, or lo and hi. */
typedef struct {
    uint32_t kind;
    uint32_t m;
    uint32_t first;
    uint32_t second;
} kheyambo_ruler;

/* The ruler of the times 0 to 2^w - 1. It judges nothing: a call on a ruler out of bounds is refused with 1. */
kheyambo_ruler kheyambo_bits(uint32_t w, uint32_t m);

/* The ruler of the times lo to hi, judged by the calls too. */
kheyambo_ruler kheyambo_spread(uint32_t m, uint32_t lo, uint32_t hi);

/* ---- What the calls answer */

/* The number of refusal, or 0, and its detail, which is 0 unless the number's line names one. */
typedef struct {
    uint32_t number;
    uint32_t detail;
} kheyambo_said;

/* The same, with the count of ids: 0 on a refusal. */
typedef struct {
    uint32_t number;
    uint32_t detail;
    uint32_t count;
} kheyambo_told;

/* A run: the number of refusal, or 0 (the detail is always 0); the arena of which it is a part; the word at which it begins there; its words.
   A refused run is empty. */
enum { KHEYAMBO_ORIGINALS = 0, KHEYAMBO_REPLICAS = 1 };

typedef struct {
    uint32_t number;
    uint32_t arena;
    uint32_t offset;
    uint32_t length;
} kheyambo_shown;

/* A census: the entries of each subdivision at each level. */
enum { KHEYAMBO_O_IN = 0, KHEYAMBO_O_AFT = 1, KHEYAMBO_R_IN = 2, KHEYAMBO_R_AFT = 3, KHEYAMBO_SUBDIVISIONS = 4, KHEYAMBO_LEVELS = 11 };

typedef uint32_t kheyambo_counts[KHEYAMBO_LEVELS][KHEYAMBO_SUBDIVISIONS];

/* ---- The calls. The numbers after "Refuses" are in the order in which they are judged. Cost: n trips, e entries. */

/* Builds the index of a table of rows, over whatever the words were. Refuses 1, 2, 3; for the first bad row 4, 5, 6, 16; 7.
   Cost: one pass for each level of each trip, and a sort of each slot and of the ids; n log n at the most. */
kheyambo_said kheyambo_build(kheyambo_ruler ruler, const uint32_t *table, size_t table_words, uint32_t *directory,
                             size_t directory_words, uint32_t *originals, size_t originals_words, uint32_t *replicas,
                             size_t replicas_words);

/* Whether the words are the index of some table for this ruler and these lengths. Refuses 1, 3, 8.
   Cost: about that of a build. Every call below begins with it, and it is nearly all that they cost. */
kheyambo_said kheyambo_check(kheyambo_ruler ruler, const uint32_t *directory, size_t directory_words,
                             const uint32_t *originals, size_t originals_words, const uint32_t *replicas,
                             size_t replicas_words);

/* Adds a trip: every word is then what a build with it would write. Refuses 1, 3, 8, 2, 4, 5, 6, 16, 7.
   Cost: a check, and for each entry of the trip a move of the entries after it. */
kheyambo_said kheyambo_add(kheyambo_ruler ruler, uint32_t id, uint32_t start, uint32_t end, uint32_t days,
                           uint32_t *directory, size_t directory_words, uint32_t *originals, size_t originals_words,
                           uint32_t *replicas, size_t replicas_words);

/* Removes the trip with this id: every word is then what a build without it would write. Refuses 1, 3, 8, 10. Cost: as an addition. */
kheyambo_said kheyambo_remove(kheyambo_ruler ruler, uint32_t id, uint32_t *directory, size_t directory_words,
                              uint32_t *originals, size_t originals_words, uint32_t *replicas, size_t replicas_words);

/* Lists the ids of the trips to which the window stands so and that run on this day, in ascending order, in the first words of answers; later words
   stay. The window is closed at both ends. An answer list of as many words as the index has trips is always long enough.
   Refuses 1, 3, 8, 9, 4, 5, 17, 7. Cost: a check, the trips that stand so on whatever day, and a sort of the matches. */
kheyambo_told kheyambo_ask(kheyambo_ruler ruler, uint32_t code, uint32_t start, uint32_t end, uint32_t day,
                           const uint32_t *directory, size_t directory_words, const uint32_t *originals,
                           size_t originals_words, const uint32_t *replicas, size_t replicas_words, uint32_t *answers,
                           size_t answers_words);

/* Counts the entries of each subdivision at each level; all zeros on a refusal. Refuses 1, 3, 8. Cost: a check, and a pass over the directory. */
kheyambo_said kheyambo_census(kheyambo_ruler ruler, const uint32_t *directory, size_t directory_words,
                              const uint32_t *originals, size_t originals_words, const uint32_t *replicas,
                              size_t replicas_words, kheyambo_counts *counts);

/* Where the entries of one subdivision of a partition stand. Refuses 1, 3, 8, 12. Cost: a check. */
kheyambo_shown kheyambo_run(kheyambo_ruler ruler, uint32_t level, uint32_t partition, uint32_t subdivision,
                            const uint32_t *directory, size_t directory_words, const uint32_t *originals,
                            size_t originals_words, const uint32_t *replicas, size_t replicas_words);

#ifdef __cplusplus
}
#endif

#endif
