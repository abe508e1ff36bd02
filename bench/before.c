/* What leap days and fill blocks cost where there are none: the library before it had either (old_) beside this one (new_), in one program.
 * bench/before gives the functions these names, links both and runs it. Answers are compared first. A round times every call of both in
 * turn; printed are the median nanoseconds of a call over the rounds, and the median of the rounds' ratios. */
#include <stdint.h>
#include <stdio.h>
#include <stdlib.h>
#include <string.h>
#include <time.h>

#include "rahmisve.h"

enum { ROUNDS = 2001, TURNS = 40, BLOCKS = 11, LIMIT = 1000 };

uint8_t old_rahmisve_read_tag(const uint8_t *tag, size_t len, uint32_t time[7]);
uint8_t old_rahmisve_elapsed(const uint8_t *from, size_t from_len, const uint8_t *to, size_t to_len, int64_t *ms);
uint8_t old_rahmisve_watch_offer(uint32_t watch[10], uint32_t block, const uint8_t *tag, size_t len, uint8_t *verdict);
uint8_t new_rahmisve_read_tag(const uint8_t *tag, size_t len, const uint32_t *days, size_t days_len, uint32_t time[7]);
uint8_t new_rahmisve_elapsed(const uint8_t *from, size_t from_len, const uint8_t *to, size_t to_len, const uint32_t *days, size_t days_len,
                             int64_t *ms);
uint8_t new_rahmisve_watch_offer(uint32_t watch[RAHMISVE_WATCH_NUMBERS], uint32_t block, uint32_t valid, const uint8_t *tag, size_t len,
                                 const uint32_t *days, size_t days_len, uint8_t *verdict, uint32_t *fill, uint32_t *count);

/* A scan across midnight: 2016 day 366, 23:59:59.2 and every 0.2 s from there, which is 2017 day 1 from its fifth tag on. */
static const uint8_t tags[BLOCKS][8] = {
    {0x20, 0x16, 0x36, 0x62, 0x35, 0x95, 0x92, 0x00}, {0x20, 0x16, 0x36, 0x62, 0x35, 0x95, 0x94, 0x00},
    {0x20, 0x16, 0x36, 0x62, 0x35, 0x95, 0x96, 0x00}, {0x20, 0x16, 0x36, 0x62, 0x35, 0x95, 0x98, 0x00},
    {0x20, 0x17, 0x00, 0x10, 0x00, 0x00, 0x00, 0x00}, {0x20, 0x17, 0x00, 0x10, 0x00, 0x00, 0x02, 0x00},
    {0x20, 0x17, 0x00, 0x10, 0x00, 0x00, 0x04, 0x00}, {0x20, 0x17, 0x00, 0x10, 0x00, 0x00, 0x06, 0x00},
    {0x20, 0x17, 0x00, 0x10, 0x00, 0x00, 0x08, 0x00}, {0x20, 0x17, 0x00, 0x10, 0x00, 0x00, 0x10, 0x00},
    {0x20, 0x17, 0x00, 0x10, 0x00, 0x00, 0x12, 0x00},
};

/* What some scans of calls left: the answers, joined, and the rest of the last call. The older watch is the first ten of its numbers. */
struct left {
    uint32_t answers, numbers[RAHMISVE_WATCH_NUMBERS], fill, count;
    int64_t ms;
    uint8_t verdict;
};

/* Scans of eleven calls each. The older library takes no list and no data valid word. */
#define SCANS(name, call)                                            \
    static void name(int scans, struct left *left)                   \
    {                                                                \
        for (; scans > 0; scans--)                                   \
            for (size_t i = 0; i < BLOCKS; i++)                      \
                left->answers |= call;                               \
    }
SCANS(old_reads, old_rahmisve_read_tag(tags[i], 8, left->numbers))
SCANS(new_reads, new_rahmisve_read_tag(tags[i], 8, NULL, 0, left->numbers))
SCANS(old_waits, old_rahmisve_elapsed(tags[0], 8, tags[i], 8, &left->ms))
SCANS(new_waits, new_rahmisve_elapsed(tags[0], 8, tags[i], 8, NULL, 0, &left->ms))
SCANS(old_offers, old_rahmisve_watch_offer(left->numbers, (uint32_t)i, tags[i], 8, &left->verdict))
SCANS(new_offers, new_rahmisve_watch_offer(left->numbers, (uint32_t)i, RAHMISVE_VALID, tags[i], 8, NULL, 0, &left->verdict, &left->fill,
                                           &left->count))

typedef void scans(int scans, struct left *left);

static const struct {
    const char *name;
    scans *was, *is;
} calls[] = {
    {"read a tag", old_reads, new_reads},
    {"elapsed time", old_waits, new_waits},
    {"offer", old_offers, new_offers},
};

static struct left fresh(void)
{
    struct left left = {0};

    left.numbers[RAHMISVE_WATCH_LIMIT] = LIMIT;
    return left;
}

static void agree(scans *was, scans *is)
{
    struct left a = fresh(), b = fresh();

    was(1, &a);
    is(1, &b);
    if (a.answers != 0 || b.answers != 0 || a.ms != b.ms || a.verdict != b.verdict || a.fill != b.fill || a.count != b.count ||
        memcmp(a.numbers, b.numbers, sizeof a.numbers) != 0) {
        fputs("before: the two libraries differ, or a call is refused\n", stderr);
        exit(1);
    }
}

static double nanoseconds(void)
{
    struct timespec now;

    clock_gettime(CLOCK_MONOTONIC, &now);
    return (double)now.tv_sec * 1e9 + (double)now.tv_nsec;
}

static double timed(scans *run)
{
    struct left left = fresh();
    double begun = nanoseconds();

    run(TURNS, &left);
    return (nanoseconds() - begun) / (TURNS * BLOCKS);
}

static int rising(const void *a, const void *b)
{
    double x = *(const double *)a, y = *(const double *)b;

    return (x > y) - (x < y);
}

static double median(double of[ROUNDS])
{
    qsort(of, ROUNDS, sizeof *of, rising);
    return of[ROUNDS / 2];
}

int main(void)
{
    static double was[ROUNDS], is[ROUNDS], ratio[ROUNDS];

    for (size_t i = 0; i < sizeof calls / sizeof *calls; i++) {
        agree(calls[i].was, calls[i].is);
        for (int round = 0; round < ROUNDS; round++) {
            was[round] = timed(calls[i].was);
            is[round] = timed(calls[i].is);
            ratio[round] = is[round] / was[round];
        }
        printf("%-14s%8.2f%8.2f%8.3f\n", calls[i].name, median(was), median(is), median(ratio));
    }
    return 0;
}
