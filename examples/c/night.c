/* A night's plan through the library: each line that the program would print for the same calls. */
#include <inttypes.h>
#include <stdio.h>

#include "notekarip.h"

enum { JOBS = 4, OWNERS = 1 };

static notekarip_store store;
static int64_t nums[NOTEKARIP_NUMS];
static uint64_t told[NOTEKARIP_TOLD];

/* A change of score, or the refusal's number. */
static void changed(uint32_t answer)
{
    if (answer != NOTEKARIP_ACCEPTED)
        printf("no %" PRIu32 "\n", answer);
    else
        printf("ok %" PRId64 " %" PRId64 "\n", nums[0], nums[1]);
}

static void put(uint32_t owner, const uint32_t *entries, size_t count)
{
    changed(notekarip_put(NOTEKARIP_STORE(&store), owner, entries, count, nums, told));
}

static void show_starts(void)
{
    uint64_t starts[JOBS];
    uint32_t answer = notekarip_starts(NOTEKARIP_STORE(&store), starts, JOBS, told);
    if (answer != NOTEKARIP_ACCEPTED) {
        changed(answer);
        return;
    }
    printf("starts");
    for (uint64_t v = 0; v < told[0]; v++)
        printf(" %" PRIu64, starts[v]);
    printf("\n");
}

/* The score; then the shown cycle, or the starts and the shown line-up. */
static void show(void)
{
    uint32_t jobs[JOBS];
    uint32_t answer = notekarip_score(NOTEKARIP_STORE(&store), nums, told);
    if (answer == NOTEKARIP_ACCEPTED) {
        printf("score %" PRId64 " %" PRId64 "\n", nums[0], nums[1]);
        answer = notekarip_verdict(NOTEKARIP_STORE(&store), jobs, JOBS, told);
    }
    if (answer != NOTEKARIP_ACCEPTED) {
        changed(answer);
        return;
    }
    uint64_t shown = told[0];
    uint64_t count = told[1];
    if (shown == NOTEKARIP_LINE_UP)
        show_starts();
    printf(shown == NOTEKARIP_LINE_UP ? "order" : "cycle");
    for (uint64_t i = 0; i < count; i++)
        printf(" %" PRIu32, jobs[i]);
    printf("\n");
}

/* The critical blocks of all owners, rising. */
static void crit(void)
{
    static const uint32_t all[OWNERS] = {0};
    notekarip_block blocks[JOBS];
    uint32_t answer = notekarip_blocks(NOTEKARIP_STORE(&store), all, OWNERS, blocks, JOBS, told);
    if (answer != NOTEKARIP_ACCEPTED) {
        changed(answer);
        return;
    }
    printf("blocks %" PRIu64 "\n", told[0]);
    for (uint64_t i = 0; i < told[0]; i++)
        printf("block %" PRIu32 " %" PRIu32 " %" PRIu32 " %" PRIu32 "\n", blocks[i].owner, blocks[i].first, blocks[i].last,
               blocks[i].length);
}

int main(void)
{
    static const uint64_t durations[JOBS] = {1, 1, 5, 7};
    static const uint32_t from[] = {1};
    static const uint32_t to[] = {0};
    static const uint32_t two[] = {2, 3};
    static const uint32_t four[] = {2, 3, 0, 1};
    static const uint32_t nobody[] = {NOTEKARIP_NOBODY}; /* an address for tables of no places */

    changed(notekarip_load(NOTEKARIP_STORE(&store), JOBS, OWNERS, durations, JOBS, nobody, 0, from, 1, to, 1, nums));
    put(0, two, 2);
    crit();
    put(0, four, 4);
    show();
    put(0, nobody, 0);
    show();
    changed(notekarip_retract(NOTEKARIP_STORE(&store), 5, nums));
    return 0;
}
