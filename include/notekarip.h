/*
 * A plan's score, kept up to date while owners' routes change: the calls of the static library `libcapi.a` for C and C++.
 *
 * The plan. Jobs and owners are numbered from 0. A job has a duration. An owner has a route: a list of entries, each a job's number. Two
 * neighbouring valid entries of a route, unbroken, are an edge, and so is each pair of the fixed list: the second job starts no earlier than
 * the first ends. An entry that is not below the number of jobs is invalid: it is counted, not stored, and it breaks the route.
 *
 * The store is lent by the caller: five arrays, in this order in every call. A call that reads an array only takes it by `const`.
 *
 *     base   uint32_t, at least NOTEKARIP_BASE places
 *     spans  uint64_t, at least NOTEKARIP_SPANS places
 *     edges  uint16_t, at least NOTEKARIP_EDGES places
 *     routes uint16_t, at least NOTEKARIP_ROUTES places
 *     times  uint64_t, at least NOTEKARIP_TIMES places
 *
 * A zeroed store is not loaded. Only calls may write it afterwards; what it holds is not to be read by itself. `notekarip_store` has the five
 * arrays, and `NOTEKARIP_STORE(&s)` is its ten arguments.
 *
 * Every array is two parameters, its address and its number of places; `nums` and `told` have a fixed number of places, and are their address
 * alone. The address must hold so many places of its type, aligned, and must not be null, also where the number is 0. An array that a call
 * writes must not overlap another array of that call.
 *
 * The answer of a call is a number of `enum notekarip_answer`: 0, or why the call is refused. What else the reply says stands in arrays that
 * the caller lends. A call that returns a score or a change of score takes `nums`, and a call that tells anything else takes `told`.
 *
 *     nums   int64_t, NOTEKARIP_NUMS places: the score or the change, the hard part, then the soft part; 0 and 0 where the call is refused
 *     told   uint64_t, NOTEKARIP_TOLD places: what is named at each call, from the first place on; the places behind it are not touched
 *
 * A refused call changes nothing: store, answer buffer and `told` stay, and `nums` is 0 and 0 in every call that takes it, score included. With
 * 12 alone, what is left in store and answer buffer is free; it is never given for a store that is zeroed, or that only calls have written
 * since an accepted load or reset.
 */
#ifndef NOTEKARIP_H
#define NOTEKARIP_H

#include <stddef.h>
#include <stdint.h>

/* Sizes: jobs, owners, pairs of the fixed list, entries of a route and valid entries in force over all owners. */
#define NOTEKARIP_JOBS 512
#define NOTEKARIP_OWNERS 64
#define NOTEKARIP_FIXED 3072
#define NOTEKARIP_ENTRIES 1024

/* 2^40: no duration is longer. */
#define NOTEKARIP_LONGEST UINT64_C(1099511627776)

/* As an expected owner: none is stated for that job. */
#define NOTEKARIP_NOBODY UINT32_C(4294967295)

/* The places of the store's arrays, and of `nums` and `told`. */
#define NOTEKARIP_BASE 6661
#define NOTEKARIP_SPANS 512
#define NOTEKARIP_EDGES 13314
#define NOTEKARIP_ROUTES 1794
#define NOTEKARIP_TIMES 514
#define NOTEKARIP_NUMS 2
#define NOTEKARIP_TOLD 3

#ifdef __cplusplus
extern "C" {
#endif

/* Why a call is refused. They are tried in the order 9, 1 (not for load and reset), 2, 3, 4, 5, 6, 7, 11, 8, 10. */
enum notekarip_answer {
    NOTEKARIP_ACCEPTED = 0,
    /* the store is not loaded: zeroed, or reset */
    NOTEKARIP_NOT_LOADED = 1,
    /* load: the number of jobs or of owners, the fixed list or a table's length breaks a size */
    NOTEKARIP_BAD_SIZE = 2,
    /* load: a duration is over NOTEKARIP_LONGEST */
    NOTEKARIP_LONG_DURATION = 3,
    /* load: a fixed `from` is no job, or falls along the list */
    NOTEKARIP_BAD_FIXED = 4,
    /* the owner is not below the number of owners */
    NOTEKARIP_NO_SUCH_OWNER = 5,
    /* put: more than NOTEKARIP_ENTRIES entries */
    NOTEKARIP_TOO_MANY_ENTRIES = 6,
    /* put: valid entries in force after the call, waiting owners already emptied, would be over NOTEKARIP_ENTRIES */
    NOTEKARIP_NO_ROOM = 7,
    /* a move's positions are bad */
    NOTEKARIP_BAD_POSITIONS = 8,
    /* an array of the store has fewer places than its constant */
    NOTEKARIP_SHORT_STORE = 9,
    /* the answer buffer has fewer places than the answer needs */
    NOTEKARIP_SHORT_ANSWER = 10,
    /* a move: the owner's route in force was put with an invalid entry */
    NOTEKARIP_BROKEN_ROUTE = 11,
    /* the store holds what no calls could have left, and the call found out */
    NOTEKARIP_BAD_STORE = 12
};

/* What a put did to the starts. */
enum notekarip_report {
    /* no edge appeared or vanished */
    NOTEKARIP_SKIPPED = 0,
    /* else: the plan was cyclic before */
    NOTEKARIP_FULL = 1,
    /* else: it is cyclic now */
    NOTEKARIP_CYCLE_FOUND = 2,
    /* else: the starts that the edges lead to were computed again */
    NOTEKARIP_INCREMENTAL = 3
};

/* What a verdict shows. */
enum notekarip_shown {
    NOTEKARIP_LINE_UP = 0,
    NOTEKARIP_CYCLE = 1
};

/* A critical block: the places first to last, inclusive, of an owner's route of this length. */
typedef struct notekarip_block {
    uint32_t owner;
    uint32_t first;
    uint32_t last;
    uint32_t length;
} notekarip_block;

typedef struct notekarip_store {
    uint32_t base[NOTEKARIP_BASE];
    uint64_t spans[NOTEKARIP_SPANS];
    uint16_t edges[NOTEKARIP_EDGES];
    uint16_t routes[NOTEKARIP_ROUTES];
    uint64_t times[NOTEKARIP_TIMES];
} notekarip_store;

/* The ten arguments that a `notekarip_store *` is. */
#define NOTEKARIP_STORE(s)                                                                                                                    \
    (s)->base, NOTEKARIP_BASE, (s)->spans, NOTEKARIP_SPANS, (s)->edges, NOTEKARIP_EDGES, (s)->routes, NOTEKARIP_ROUTES, (s)->times,           \
        NOTEKARIP_TIMES

/*
 * Load: a plan, in place of what the store held. Every route is empty, and no owner waits.
 *
 * jobs       at most NOTEKARIP_JOBS
 * owners     at most NOTEKARIP_OWNERS
 * durations  one for each job
 * expected   empty, or for each job the owner that is to have it: one in the route of another owner counts a violation
 * from, to   the fixed list: as many of the one as of the other, at most NOTEKARIP_FIXED; `from` is a job and never falls along the list; a
 *            pair whose `to` is no job counts as an invalid fixed edge
 *
 * Writes the store, and the score into nums[0] and nums[1]. Refusals: 9, 2, 3, 4.
 */
uint32_t notekarip_load(uint32_t *base, size_t base_len, uint64_t *spans, size_t spans_len, uint16_t *edges, size_t edges_len,
                        uint16_t *routes, size_t routes_len, uint64_t *times, size_t times_len, uint32_t jobs, uint32_t owners,
                        const uint64_t *durations, size_t durations_len, const uint32_t *expected, size_t expected_len,
                        const uint32_t *from, size_t from_len, const uint32_t *to, size_t to_len, int64_t nums[NOTEKARIP_NUMS]);

/*
 * Reset: the store is not loaded any more.
 *
 * Writes `base`, and 0 and 0 into nums[0] and nums[1]. Refusals: 9.
 */
uint32_t notekarip_reset(uint32_t *base, size_t base_len, const uint64_t *spans, size_t spans_len, const uint16_t *edges, size_t edges_len,
                         const uint16_t *routes, size_t routes_len, const uint64_t *times, size_t times_len, int64_t nums[NOTEKARIP_NUMS]);

/*
 * Retract: the owner waits; the next put of another owner empties its route. Routes in force stay. A second one changes nothing.
 *
 * Writes `routes`, and 0 and 0 into nums[0] and nums[1]. Refusals: 9, 1, 5, 12.
 */
uint32_t notekarip_retract(const uint32_t *base, size_t base_len, const uint64_t *spans, size_t spans_len, const uint16_t *edges,
                           size_t edges_len, uint16_t *routes, size_t routes_len, const uint64_t *times, size_t times_len, uint32_t owner,
                           int64_t nums[NOTEKARIP_NUMS]);

/*
 * Put: waiting owners other than this one get empty routes, in the order they began to wait; then this owner's route is the new one; nobody
 * waits any more.
 *
 * entries  the route, at most NOTEKARIP_ENTRIES, valid or not
 *
 * Writes `edges`, `routes` and `times`; score after minus score before, part by part, into nums[0] and nums[1]; the `enum notekarip_report`
 * into told[0], and into told[1] the visits of the walk, 0 unless it is incremental. Refusals: 9, 1, 5, 6, 7, 12.
 */
uint32_t notekarip_put(const uint32_t *base, size_t base_len, const uint64_t *spans, size_t spans_len, uint16_t *edges, size_t edges_len,
                       uint16_t *routes, size_t routes_len, uint64_t *times, size_t times_len, uint32_t owner, const uint32_t *entries,
                       size_t entries_len, int64_t nums[NOTEKARIP_NUMS], uint64_t told[NOTEKARIP_TOLD]);

/*
 * Score: minus the hard penalty, then minus the makespan.
 *
 * Writes the score into nums[0] and nums[1], and the match count into told[0]. Refusals: 9, 1, 12.
 */
uint32_t notekarip_score(const uint32_t *base, size_t base_len, const uint64_t *spans, size_t spans_len, const uint16_t *edges,
                         size_t edges_len, const uint16_t *routes, size_t routes_len, const uint64_t *times, size_t times_len,
                         int64_t nums[NOTEKARIP_NUMS], uint64_t told[NOTEKARIP_TOLD]);

/*
 * Verdict: the shown line-up, of all that lead every edge forward the one lowest in dictionary order; or, if the plan is cyclic, the shown
 * cycle: from the lowest job that lies on a cycle, a shortest cycle through it, of those the lowest in dictionary order.
 *
 * out  the answer buffer: as many places as there are jobs
 *
 * Writes the jobs into `out`, the `enum notekarip_shown` into told[0], and into told[1] how many jobs they are. Refusals: 9, 1, 10, 12.
 */
uint32_t notekarip_verdict(const uint32_t *base, size_t base_len, const uint64_t *spans, size_t spans_len, const uint16_t *edges,
                           size_t edges_len, const uint16_t *routes, size_t routes_len, const uint64_t *times, size_t times_len,
                           uint32_t *out, size_t out_len, uint64_t told[NOTEKARIP_TOLD]);

/*
 * Starts: the start of each job, the greatest duration sum along a path that leads to it; all are 0 while the plan is cyclic.
 *
 * out  the answer buffer: as many places as there are jobs
 *
 * Writes the starts into `out`, and into told[0] how many they are. Refusals: 9, 1, 10, 12.
 */
uint32_t notekarip_starts(const uint32_t *base, size_t base_len, const uint64_t *spans, size_t spans_len, const uint16_t *edges,
                          size_t edges_len, const uint16_t *routes, size_t routes_len, const uint64_t *times, size_t times_len,
                          uint64_t *out, size_t out_len, uint64_t told[NOTEKARIP_TOLD]);

/*
 * Blocks: the critical blocks of a list of owners, in the list's order. A job is critical if its start is the latest that keeps the makespan. A
 * longest run of neighbouring critical jobs of a route, each ending where the next starts, is one block; a place on no run whose job is critical
 * is a block alone. A cyclic plan has none.
 *
 * owners  the list: one that is not below the number of owners is skipped, one that stands there again is answered again
 * out     the answer buffer: as many places as there are blocks
 *
 * Writes the blocks into `out`, and into told[0] how many they are. Refusals: 9, 1, 10, 12.
 */
uint32_t notekarip_blocks(const uint32_t *base, size_t base_len, const uint64_t *spans, size_t spans_len, const uint16_t *edges,
                          size_t edges_len, const uint16_t *routes, size_t routes_len, const uint64_t *times, size_t times_len,
                          const uint32_t *owners, size_t owners_len, notekarip_block *out, size_t out_len, uint64_t told[NOTEKARIP_TOLD]);

/*
 * Moves: what an owner's route would be, and whether it would close a cycle; the store is only read. Removed are the old neighbour edges that
 * occur nowhere among the new, added the reverse; an edge is on if it is added, or live and either not removed or fixed.
 *
 * owner  whose route it is
 * out    the answer buffer: as many places as the route has stored entries
 *
 * Writes the new route into `out`; told[0] is 1 if a cycle of edges that are on uses an added edge that was not already on (quick check),
 * told[1] is 1 if the edges that are on hold a cycle (full check), else 0; told[2] is the length of the route. Refusals: 9, 1, 5, 11, 8, 10,
 * 12. Positions may be any numbers; which are bad (8) is said at each.
 */

/* List change: the entry at source goes to dest, counted before it is taken out. Bad: source not below the length, or dest above it. */
uint32_t notekarip_list_change(const uint32_t *base, size_t base_len, const uint64_t *spans, size_t spans_len, const uint16_t *edges,
                               size_t edges_len, const uint16_t *routes, size_t routes_len, const uint64_t *times, size_t times_len,
                               uint32_t owner, uint32_t source, uint32_t dest, uint32_t *out, size_t out_len,
                               uint64_t told[NOTEKARIP_TOLD]);

/*
 * Sublist change: the entries from start up to, not including, end go to dest, counted after they are taken out. Bad unless
 * start <= end <= length and dest <= length - (end - start).
 */
uint32_t notekarip_sublist_change(const uint32_t *base, size_t base_len, const uint64_t *spans, size_t spans_len, const uint16_t *edges,
                                  size_t edges_len, const uint16_t *routes, size_t routes_len, const uint64_t *times, size_t times_len,
                                  uint32_t owner, uint32_t start, uint32_t end, uint32_t dest, uint32_t *out, size_t out_len,
                                  uint64_t told[NOTEKARIP_TOLD]);

/*
 * Sublist swap: the entries from a up to b and those from c up to d change places. Bad if a range starts after its end, if the left one (the one
 * with the lower start, the first on a tie) ends after the right one starts, or if the right one ends above the length.
 */
uint32_t notekarip_sublist_swap(const uint32_t *base, size_t base_len, const uint64_t *spans, size_t spans_len, const uint16_t *edges,
                                size_t edges_len, const uint16_t *routes, size_t routes_len, const uint64_t *times, size_t times_len,
                                uint32_t owner, uint32_t a, uint32_t b, uint32_t c, uint32_t d, uint32_t *out, size_t out_len,
                                uint64_t told[NOTEKARIP_TOLD]);

/*
 * Permutation: place i of the entries from start up to end gets the one at place list[i] of them. Bad unless start <= end <= length and the list
 * is a permutation of 0 to end - start - 1.
 */
uint32_t notekarip_permutation(const uint32_t *base, size_t base_len, const uint64_t *spans, size_t spans_len, const uint16_t *edges,
                               size_t edges_len, const uint16_t *routes, size_t routes_len, const uint64_t *times, size_t times_len,
                               uint32_t owner, uint32_t start, uint32_t end, const uint32_t *list, size_t list_len, uint32_t *out,
                               size_t out_len, uint64_t told[NOTEKARIP_TOLD]);

#ifdef __cplusplus
}
#endif

#endif
