/* Plain C: a table of 256 steps for the check word, words one by one; in a search, three check words at each start. */
#include <string.h>

#include "baseline.h"
#include "rows.h"

enum { BLOCK_FIELD = 1, TAG_AND_LENGTH = 3, ENTRY = 3, SPAN = 8, LEAST_BLOCK = 2772, MOST_WORDS = 4 * (16 + LARGEST_N) };

static const uint16_t steps[256] = STEPS(0x1021, 0x2042, 0x4084, 0x8108, 0x1231, 0x2462, 0x48C4, 0x9188);

uint16_t plain_check(const uint8_t *bytes, size_t len)
{
    uint16_t check = 0xFFFF;

    for (size_t i = 0; i < len; i++)
        check = (uint16_t)(check << 8) ^ steps[(check >> 8) ^ bytes[i]];
    return (uint16_t)~check;
}

void plain_unpack(const uint8_t *field, size_t field_len, size_t size, uint16_t *words, size_t count)
{
    (void)field_len;
    for (size_t i = 0; i < count; i++) {
        size_t bit = i * size, byte = bit / 8, skip = bit % 8;
        unsigned two = (unsigned)field[byte] << 8;

        if (skip + size > 8)
            two |= field[byte + 1];
        words[i] = (uint16_t)(two >> (16 - skip - size) & ((1u << size) - 1));
    }
}

void plain_pack(const uint16_t *words, size_t count, size_t size, uint8_t *field, size_t field_len)
{
    uint32_t held = 0;
    size_t bits = 0, byte = 0;

    for (size_t i = 0; i < count; i++) {
        held = held << size | words[i];
        bits += size;
        while (bits >= 8) {
            bits -= 8;
            field[byte++] = (uint8_t)(held >> bits);
        }
    }
    if (bits > 0)
        field[byte++] = (uint8_t)(held << (8 - bits));
    memset(field + byte, 0, field_len - byte);
}

size_t plain_read(const uint8_t *block, size_t len, uint16_t *room, size_t room_len, uint8_t header[28])
{
    const uint8_t *common = NULL, *field;
    struct row row;
    size_t number;

    if (len < FRONT)
        return 1;
    for (int i = 0; i < 3; i++) {
        const uint8_t *copy = block + i * COPY;

        if (plain_check(copy, HEADER) != sent_check(copy + HEADER))
            continue;
        if (common != NULL && memcmp(common, copy, HEADER) != 0)
            return 3;
        common = copy;
    }
    if (common == NULL)
        return 2;
    number = row_of(common, &row);
    if (number != 0)
        return number;
    if (len != FRONT + row.field + 2) /* an even number, so 17 cannot arise */
        return 8;
    if (room_len < row.count)
        return 9;
    field = block + FRONT;
    if (plain_check(field, row.field) != sent_check(field + row.field))
        return 10;
    if (!fill_is_zero(field, &row))
        return 11;
    plain_unpack(field, row.field, row.size, room, row.count);
    memcpy(header, common, HEADER);
    return 0;
}

size_t plain_write(const uint8_t *header, size_t header_len, const uint16_t *words, size_t count,
                   uint8_t *dest, size_t dest_len)
{
    uint8_t *field;
    struct row row;
    size_t number;

    if (header_len != HEADER)
        return 1;
    number = row_of(header, &row);
    if (number != 0)
        return number;
    if (count != row.count)
        return 8;
    if (dest_len < FRONT + row.field + 2)
        return 9;
    if (!words_fit(words, &row))
        return 14;
    field = dest + FRONT;
    for (int i = 0; i < 3; i++) {
        memcpy(dest + i * COPY, header, HEADER);
        send_check(dest + i * COPY + HEADER, plain_check(header, HEADER));
    }
    plain_pack(words, count, row.size, field, row.field);
    send_check(field + row.field, plain_check(field, row.field));
    return 0;
}

/* How long the block is that a header copy makes of the front of these bytes, with its words in the scratch words; 0
 * where it makes none. */
static size_t made_by(const uint8_t *copy, const uint8_t *rest, size_t len, uint16_t *scratch)
{
    const uint8_t *field = rest + FRONT;
    struct row row;

    if (plain_check(copy, HEADER) != sent_check(copy + HEADER))
        return 0;
    if (row_of(copy, &row) != 0 || len < FRONT + row.field + 2)
        return 0;
    if (plain_check(field, row.field) != sent_check(field + row.field) || !fill_is_zero(field, &row))
        return 0;
    plain_unpack(field, row.field, row.size, scratch, row.count);
    return FRONT + row.field + 2;
}

/* That block as a field of a recording, and how long the field is; `changed` has the copies whose bytes change. */
static size_t put_block(const uint8_t *copy, const uint8_t *rest, size_t len, uint8_t *to, size_t *changed)
{
    *changed = 0;
    to[0] = BLOCK_FIELD;
    to[1] = (uint8_t)(len >> 8);
    to[2] = (uint8_t)len;
    to += TAG_AND_LENGTH;
    for (int i = 0; i < 3; i++) {
        if (memcmp(rest + i * COPY, copy, COPY) != 0)
            *changed |= (size_t)1 << i;
        memcpy(to + i * COPY, copy, COPY);
    }
    memcpy(to + FRONT, rest + FRONT, len - FRONT);
    return TAG_AND_LENGTH + len;
}

/* The entry of a piece that is not empty, behind so many; how many there are then. */
static size_t put_entry(size_t *report, size_t entries, size_t start, size_t len, size_t found)
{
    size_t *entry = report + entries * ENTRY;

    if (len == 0)
        return entries;
    entry[0] = start;
    entry[1] = len;
    entry[2] = found;
    return entries + 1;
}

uint8_t plain_salvage(const uint8_t *input, size_t len, uint8_t *recording, size_t recording_len, size_t *report,
                      size_t report_len, uint16_t *scratch, size_t scratch_len, size_t *bytes, size_t *entries,
                      size_t *blocks)
{
    size_t most = len / LEAST_BLOCK, start = 0, behind = 0, changed;

    *bytes = *entries = *blocks = 0;
    if (recording_len < len + most * TAG_AND_LENGTH || report_len < (most * 2 + 1) * ENTRY || scratch_len < MOST_WORDS)
        return 9;
    while (start + FRONT <= len) {
        const uint8_t *rest = input + start, *copy = rest;
        size_t made = 0;

        for (int i = 0; i < 3 && made == 0; i++) {
            copy = rest + i * COPY;
            made = made_by(copy, rest, len - start, scratch);
        }
        if (made == 0) {
            start++;
            continue;
        }
        *bytes += put_block(copy, rest, made, recording + *bytes, &changed);
        *entries = put_entry(report, *entries, behind, start - behind, SPAN);
        *entries = put_entry(report, *entries, start, made, changed);
        *blocks += 1;
        start = behind = start + made;
    }
    if (*blocks == 0)
        return 18;
    *entries = put_entry(report, *entries, behind, len - behind, SPAN);
    return 0;
}
