/* Good C: the digits of a tag at once; a leap year asked for only by a day 366; the leap days between two tags by halves. */
#include "tags.h"

/* Whether the calendar has this day of a year up to 9999. */
static int is_day(uint32_t year, uint32_t day)
{
    return day - 1 < 365 || (day == 366 && is_leap(year));
}

static int good_list(const uint32_t *days, size_t count)
{
    uint32_t before = 0;

    if (count > MOST_DAYS)
        return 0;
    for (size_t i = 0; i < count; before = days[i++]) {
        uint32_t year = days[i] / 1000;

        if (days[i] <= before || !is_day(year, days[i] - year * 1000))
            return 0;
    }
    return before < (LAST_YEAR + 1) * 1000; /* they rise: the last one speaks for all */
}

/* How many days of a good list are before one. */
static size_t listed_before(const uint32_t *days, size_t count, uint32_t number)
{
    const uint32_t *from = days;

    if (count == 0)
        return 0;
    for (; count > 1; count -= count / 2)
        from += from[count / 2 - 1] < number ? count / 2 : 0;
    return (size_t)(from - days) + (*from < number);
}

static int listed(const uint32_t *days, size_t count, uint32_t number)
{
    size_t at = listed_before(days, count, number);

    return at < count && days[at] == number;
}

static int in_bounds(const uint32_t *time, const uint32_t *days, size_t count)
{
    if (time[YEAR] > LAST_YEAR || !is_day(time[YEAR], time[DAY]))
        return 0;
    if (time[HOUR] > 23 || time[MINUTE] > 59 || time[MS] > 999)
        return 0;
    if (time[SECOND] < 60)
        return 1;
    return time[SECOND] == 60 && time[HOUR] == 23 && time[MINUTE] == 59 && listed(days, count, number_of(time));
}

static int64_t between(const uint32_t *start, const uint32_t *end, const uint32_t *days, size_t count)
{
    int64_t ms = counted(end) - counted(start);
    uint32_t first = number_of(start), last = number_of(end);

    if (first == last || count == 0)
        return ms;
    return ms + ((int64_t)listed_before(days, count, last) - (int64_t)listed_before(days, count, first)) * 1000;
}

/* The number of so many digits that end so far from the right. */
static uint32_t digits(uint64_t tag, int right, int many)
{
    uint32_t number = 0;

    for (int i = many - 1; i >= 0; i--)
        number = number * 10 + (tag >> (right + i) * 4 & 15);
    return number;
}

static int take_tag(const uint8_t *tag, size_t len, const uint32_t *days, size_t count, uint32_t time[7])
{
    uint64_t all = 0;

    if (len != TAG_BYTES)
        return 0;
    for (int i = 0; i < TAG_BYTES; i++)
        all = all << 8 | tag[i];
    time[FLYWHEEL] = all >> 47 & 1;
    all &= ~((uint64_t)1 << 47);
    /* a digit above 9 has its first bit, and its second or third */
    if (all & (all << 1 | all << 2) & 0x8888888888888888)
        return 0;
    time[YEAR] = digits(all, 12, 4);
    time[DAY] = digits(all, 9, 3);
    time[HOUR] = digits(all, 7, 2);
    time[MINUTE] = digits(all, 5, 2);
    time[SECOND] = digits(all, 3, 2);
    time[MS] = digits(all, 0, 3);
    return in_bounds(time, days, count);
}

int good_good_list(const uint32_t *days, size_t count)
{
    return good_list(days, count);
}

int good_take_tag(const uint8_t *tag, size_t len, const uint32_t *days, size_t count, uint32_t time[7])
{
    return take_tag(tag, len, days, count, time);
}

uint8_t good_read_tag(const uint8_t *tag, size_t len, const uint32_t *days, size_t count, uint32_t time[7])
{
    if (good_list(days, count)) {
        if (take_tag(tag, len, days, count, time))
            return 0;
        memset(time, 0, NUMBERS * sizeof *time);
        return 12;
    }
    memset(time, 0, NUMBERS * sizeof *time);
    return 19;
}

uint8_t good_elapsed(const uint8_t *from, size_t from_len, const uint8_t *to, size_t to_len, const uint32_t *days, size_t count,
                     int64_t *ms)
{
    uint32_t start[NUMBERS], end[NUMBERS];

    *ms = 0;
    if (!good_list(days, count))
        return 19;
    if (!take_tag(from, from_len, days, count, start) || !take_tag(to, to_len, days, count, end))
        return 12;
    *ms = between(start, end, days, count);
    return 0;
}

uint8_t good_watch_offer(uint32_t watch[11], uint32_t block, uint32_t valid, const uint8_t *tag, size_t len, const uint32_t *days,
                         size_t count, uint8_t *verdict, uint32_t *fill, uint32_t *fill_count)
{
    uint32_t time[NUMBERS];

    *verdict = REFUSED;
    *fill = *fill_count = 0;
    if (watch[LIMIT] > LONGEST_WAIT)
        return 16;
    if (watch[OPEN] && watch[EXPECTED] - 1 >= LAST_OF_SCAN)
        return 13;
    if (bad_fill(watch))
        return 20;
    if (!good_list(days, count))
        return 19;
    if (watch[OPEN] && !in_bounds(watch + LAST, days, count))
        return 12;
    if (block > LAST_BLOCK)
        return 4;
    if (!take_tag(tag, len, days, count, time))
        return 12;
    *verdict = follow(watch, block, valid, time, watch[OPEN] ? between(watch + LAST, time, days, count) : 0, fill);
    *fill_count = how_many(*fill);
    return 0;
}
