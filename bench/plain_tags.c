/* Plain C: a tag digit by digit, and the list of leap days from its front to its end for every question. */
#include "tags.h"

static uint32_t days_in(uint32_t year)
{
    return is_leap(year) ? 366 : 365;
}

static int good_list(const uint32_t *days, size_t count)
{
    if (count > MOST_DAYS)
        return 0;
    for (size_t i = 0; i < count; i++) {
        uint32_t year = days[i] / 1000, day = days[i] % 1000;

        if (year > LAST_YEAR || day < 1 || day > days_in(year))
            return 0;
        if (i > 0 && days[i] <= days[i - 1])
            return 0;
    }
    return 1;
}

static int listed(const uint32_t *days, size_t count, uint32_t number)
{
    for (size_t i = 0; i < count; i++)
        if (days[i] == number)
            return 1;
    return 0;
}

static int64_t milliseconds(const uint32_t *time, const uint32_t *days, size_t count)
{
    int64_t ms = counted(time);

    for (size_t i = 0; i < count && days[i] < number_of(time); i++)
        ms += 1000;
    return ms;
}

static int in_bounds(const uint32_t *time, const uint32_t *days, size_t count)
{
    if (time[YEAR] > LAST_YEAR || time[DAY] < 1 || time[DAY] > days_in(time[YEAR]))
        return 0;
    if (time[HOUR] > 23 || time[MINUTE] > 59 || time[MS] > 999)
        return 0;
    if (time[SECOND] == 60)
        return time[HOUR] == 23 && time[MINUTE] == 59 && listed(days, count, number_of(time));
    return time[SECOND] < 60;
}

/* Whether the bytes are a tag, by a list that is good; if so, its numbers. */
static int take_tag(const uint8_t *tag, size_t len, const uint32_t *days, size_t count, uint32_t time[7])
{
    static const size_t digits[] = {4, 3, 2, 2, 2, 3};
    size_t at = 0;

    if (len != TAG_BYTES)
        return 0;
    time[FLYWHEEL] = tag[2] >> 7;
    for (int field = 0; field < FLYWHEEL; field++) {
        time[field] = 0;
        for (size_t end = at + digits[field]; at < end; at++) {
            uint32_t byte = at / 2 == 2 ? tag[2] & 0x7F : tag[at / 2];
            uint32_t digit = at % 2 == 0 ? byte >> 4 : byte & 15;

            if (digit > 9)
                return 0;
            time[field] = time[field] * 10 + digit;
        }
    }
    return in_bounds(time, days, count);
}

int plain_good_list(const uint32_t *days, size_t count)
{
    return good_list(days, count);
}

int plain_take_tag(const uint8_t *tag, size_t len, const uint32_t *days, size_t count, uint32_t time[7])
{
    return take_tag(tag, len, days, count, time);
}

uint8_t plain_read_tag(const uint8_t *tag, size_t len, const uint32_t *days, size_t count, uint32_t time[7])
{
    uint8_t answer = 0;

    if (!good_list(days, count))
        answer = 19;
    else if (!take_tag(tag, len, days, count, time))
        answer = 12;
    if (answer != 0)
        memset(time, 0, NUMBERS * sizeof *time);
    return answer;
}

uint8_t plain_elapsed(const uint8_t *from, size_t from_len, const uint8_t *to, size_t to_len, const uint32_t *days, size_t count,
                      int64_t *ms)
{
    uint32_t start[NUMBERS], end[NUMBERS];

    *ms = 0;
    if (!good_list(days, count))
        return 19;
    if (!take_tag(from, from_len, days, count, start) || !take_tag(to, to_len, days, count, end))
        return 12;
    *ms = milliseconds(end, days, count) - milliseconds(start, days, count);
    return 0;
}

uint8_t plain_watch_offer(uint32_t watch[11], uint32_t block, uint32_t valid, const uint8_t *tag, size_t len, const uint32_t *days,
                          size_t count, uint8_t *verdict, uint32_t *fill, uint32_t *fill_count)
{
    uint32_t time[NUMBERS];
    int64_t waited = 0;

    *verdict = REFUSED;
    *fill = *fill_count = 0;
    if (watch[LIMIT] > LONGEST_WAIT)
        return 16;
    if (watch[OPEN] && (watch[EXPECTED] < 1 || watch[EXPECTED] > LAST_OF_SCAN))
        return 13;
    if (bad_fill(watch))
        return 20;
    if (!good_list(days, count))
        return 19;
    if (watch[OPEN] && !in_bounds(watch + LAST, days, count))
        return 12;
    if (block > LAST_BLOCK)
        return 4;
    if (!take_tag(tag, len, days, count, time))
        return 12;
    if (watch[OPEN])
        waited = milliseconds(time, days, count) - milliseconds(watch + LAST, days, count);
    *verdict = follow(watch, block, valid, time, waited, fill);
    *fill_count = how_many(*fill);
    return 0;
}
