/* Two ways in C to read a time tag, to count the time between two and to follow a scan, its fill blocks too, with a list
 * of leap days; src/idiomatic_tags.rs is a third. Each has the same three functions, which take and answer what those of
 * rahmisve.h do, and two of their parts, for whoever has many tags and one list: whether a list is good, and whether
 * bytes are a tag by such a list. */
#ifndef TAGS_H
#define TAGS_H

#include <stddef.h>
#include <stdint.h>
#include <string.h>

typedef int tag_taker(const uint8_t *tag, size_t len, const uint32_t *days, size_t count, uint32_t time[7]);

#define TAG_BASELINE(name)                                                                                      \
    int name##_good_list(const uint32_t *days, size_t count);                                                   \
    tag_taker name##_take_tag;                                                                                  \
    uint8_t name##_read_tag(const uint8_t *tag, size_t len, const uint32_t *days, size_t count,                 \
                            uint32_t time[7]);                                                                  \
    uint8_t name##_elapsed(const uint8_t *from, size_t from_len, const uint8_t *to, size_t to_len,              \
                           const uint32_t *days, size_t count, int64_t *ms);                                    \
    uint8_t name##_watch_offer(uint32_t watch[11], uint32_t block, uint32_t valid, const uint8_t *tag,          \
                               size_t len, const uint32_t *days, size_t count, uint8_t *verdict,                \
                               uint32_t *fill, uint32_t *fill_count);

TAG_BASELINE(plain)
TAG_BASELINE(good)

/* Places in a time and in a watch, verdicts, and numbers of the specification. */
enum { YEAR, DAY, HOUR, MINUTE, SECOND, MS, FLYWHEEL, NUMBERS };
enum { OPEN, EXPECTED, LAST, LIMIT = LAST + NUMBERS, FILL };
enum { REFUSED, STRAY, OPENED, KEPT, CLOCK_BACK, LATE, BROKEN, COMPLETE };
enum { TAG_BYTES = 8, MOST_DAYS = 64, LAST_YEAR = 9999, LAST_BLOCK = 11, LAST_OF_SCAN = 10, LONGEST_WAIT = 3600000 };
enum { VALID = 1 };

static inline int is_leap(uint32_t year)
{
    return year % 4 == 0 && (year % 100 != 0 || year % 400 == 0);
}

/* A leap day as it is lent. */
static inline uint32_t number_of(const uint32_t *time)
{
    return time[YEAR] * 1000 + time[DAY];
}

/* Milliseconds to a time, without leap seconds. */
static inline int64_t counted(const uint32_t *time)
{
    int64_t year = time[YEAR];
    int64_t days = year * 365 + (year + 3) / 4 - (year + 99) / 100 + (year + 399) / 400 + time[DAY];

    return (((days * 24 + time[HOUR]) * 60 + time[MINUTE]) * 60 + time[SECOND]) * 1000 + time[MS];
}

/* What an offer is to an open scan, so many milliseconds after the last one. */
static inline uint8_t judge(const uint32_t *watch, uint32_t block, int64_t waited)
{
    if (waited < 0)
        return CLOCK_BACK;
    if (waited > watch[LIMIT])
        return LATE;
    if (block != watch[EXPECTED])
        return BROKEN;
    return block == LAST_OF_SCAN ? COMPLETE : KEPT;
}

/* Whether a block is in the set that has not come yet; to an idle watch none has. An open one expects 1 to 10. */
static inline int bad_fill(const uint32_t *watch)
{
    return watch[FILL] >> (watch[OPEN] ? watch[EXPECTED] : 0) != 0;
}

/* How many blocks a set has. */
static inline uint32_t how_many(uint32_t set)
{
    uint32_t count = 0;

    for (; set != 0; set &= set - 1)
        count++;
    return count;
}

/* What an accepted offer does; an idle watch has nothing to wait for. A scan that closes hands over its set. */
static inline uint8_t follow(uint32_t *watch, uint32_t block, uint32_t valid, const uint32_t *time, int64_t waited,
                             uint32_t *fill)
{
    uint8_t did = watch[OPEN] ? judge(watch, block, waited) : block == 0 ? OPENED : STRAY;
    uint32_t own = (uint32_t)(valid != VALID) << block;

    if (did == STRAY)
        return did;
    if (did == KEPT || did == COMPLETE)
        watch[FILL] |= own; /* the expected block alone belongs to the scan */
    if (did != KEPT) {
        *fill = watch[FILL]; /* nothing where the watch was idle */
        watch[FILL] = block == 0 ? own : 0;
    }
    if (did != KEPT && block != 0) {
        memset(watch, 0, LIMIT * sizeof *watch);
        return did;
    }
    watch[OPEN] = 1;
    watch[EXPECTED] = block + 1; /* block 0 opens a scan, whatever it closed */
    memcpy(watch + LAST, time, NUMBERS * sizeof *time);
    return did;
}

#endif
