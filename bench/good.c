/* Good C: eight bytes of check word at a time, five bytes to four words. */
#include <string.h>

#include "baseline.h"
#include "rows.h"

/* steps[k] carries a byte over k bytes more. */
static const uint16_t steps[8][256] = {
    STEPS(0x1021, 0x2042, 0x4084, 0x8108, 0x1231, 0x2462, 0x48C4, 0x9188),
    STEPS(0x3331, 0x6662, 0xCCC4, 0x89A9, 0x0373, 0x06E6, 0x0DCC, 0x1B98),
    STEPS(0x3730, 0x6E60, 0xDCC0, 0xA9A1, 0x4363, 0x86C6, 0x1DAD, 0x3B5A),
    STEPS(0x76B4, 0xED68, 0xCAF1, 0x85C3, 0x1BA7, 0x374E, 0x6E9C, 0xDD38),
    STEPS(0xAA51, 0x4483, 0x8906, 0x022D, 0x045A, 0x08B4, 0x1168, 0x22D0),
    STEPS(0x45A0, 0x8B40, 0x06A1, 0x0D42, 0x1A84, 0x3508, 0x6A10, 0xD420),
    STEPS(0xB861, 0x60E3, 0xC1C6, 0x93AD, 0x377B, 0x6EF6, 0xDDEC, 0xABF9),
    STEPS(0x47D3, 0x8FA6, 0x0F6D, 0x1EDA, 0x3DB4, 0x7B68, 0xF6D0, 0xFD81),
};

uint16_t good_check(const uint8_t *bytes, size_t len)
{
    uint16_t check = 0xFFFF;

    for (; len >= 8; bytes += 8, len -= 8)
        check = steps[7][bytes[0] ^ check >> 8] ^ steps[6][bytes[1] ^ (check & 0xFF)] ^
                steps[5][bytes[2]] ^ steps[4][bytes[3]] ^ steps[3][bytes[4]] ^ steps[2][bytes[5]] ^
                steps[1][bytes[6]] ^ steps[0][bytes[7]];
    for (; len > 0; bytes++, len--)
        check = (uint16_t)(check << 8) ^ steps[0][(check >> 8) ^ *bytes];
    return (uint16_t)~check;
}

static void four_tens(const uint8_t b[5], uint16_t w[4])
{
    w[0] = (uint16_t)(b[0] << 2 | b[1] >> 6);
    w[1] = (uint16_t)((b[1] & 0x3F) << 4 | b[2] >> 4);
    w[2] = (uint16_t)((b[2] & 0x0F) << 6 | b[3] >> 2);
    w[3] = (uint16_t)((b[3] & 0x03) << 8 | b[4]);
}

static void four_sixes(const uint8_t b[3], uint16_t w[4])
{
    w[0] = b[0] >> 2;
    w[1] = (uint16_t)((b[0] & 0x03) << 4 | b[1] >> 4);
    w[2] = (uint16_t)((b[1] & 0x0F) << 2 | b[2] >> 6);
    w[3] = b[2] & 0x3F;
}

void good_unpack(const uint8_t *field, size_t field_len, size_t size, uint16_t *words, size_t count)
{
    size_t fours = count / 4, rest = count % 4;

    if (size == 8) {
        for (size_t i = 0; i < count; i++)
            words[i] = field[i];
        return;
    }
    for (; fours > 0; fours--, field += size / 2, field_len -= size / 2, words += 4)
        size == 10 ? four_tens(field, words) : four_sixes(field, words);
    if (rest > 0) {
        uint8_t last[5] = { 0 };
        uint16_t four[4];

        memcpy(last, field, field_len < size / 2 ? field_len : size / 2);
        size == 10 ? four_tens(last, four) : four_sixes(last, four);
        memcpy(words, four, rest * sizeof *words);
    }
}

static void tens_to_five(const uint16_t w[4], uint8_t b[5])
{
    b[0] = (uint8_t)(w[0] >> 2);
    b[1] = (uint8_t)(w[0] << 6 | w[1] >> 4);
    b[2] = (uint8_t)(w[1] << 4 | w[2] >> 6);
    b[3] = (uint8_t)(w[2] << 2 | w[3] >> 8);
    b[4] = (uint8_t)w[3];
}

static void sixes_to_three(const uint16_t w[4], uint8_t b[3])
{
    b[0] = (uint8_t)(w[0] << 2 | w[1] >> 4);
    b[1] = (uint8_t)(w[1] << 4 | w[2] >> 2);
    b[2] = (uint8_t)(w[2] << 6 | w[3]);
}

void good_pack(const uint16_t *words, size_t count, size_t size, uint8_t *field, size_t field_len)
{
    size_t fours = count / 4, rest = count % 4;

    if (size == 8) {
        for (size_t i = 0; i < count; i++)
            field[i] = (uint8_t)words[i];
        memset(field + count, 0, field_len - count);
        return;
    }
    for (; fours > 0; fours--, words += 4, field += size / 2, field_len -= size / 2)
        size == 10 ? tens_to_five(words, field) : sixes_to_three(words, field);
    if (rest > 0) {
        uint16_t four[4] = { 0 };
        uint8_t last[5];
        size_t bytes = (rest * size + 7) / 8;

        memcpy(four, words, rest * sizeof *words);
        size == 10 ? tens_to_five(four, last) : sixes_to_three(four, last);
        memcpy(field, last, bytes);
        field += bytes;
        field_len -= bytes;
    }
    memset(field, 0, field_len);
}

size_t good_read(const uint8_t *block, size_t len, uint16_t *room, size_t room_len, uint8_t header[28])
{
    const uint8_t *common = NULL, *field;
    struct row row;
    size_t number;

    if (len < FRONT)
        return 1;
    for (int i = 0; i < 3; i++) {
        const uint8_t *copy = block + i * COPY;

        /* Three copies alike are the rule: the check is made once for them. */
        if (common != NULL && memcmp(common, copy, COPY) == 0)
            continue;
        if (good_check(copy, HEADER) != sent_check(copy + HEADER))
            continue;
        if (common != NULL)
            return 3;
        common = copy;
    }
    if (common == NULL)
        return 2;
    number = row_of(common, &row);
    if (number != 0)
        return number;
    if (len != FRONT + row.field + 2) /* an even number, so 17 cannot arise */
        return 8;
    if (room_len < row.count)
        return 9;
    field = block + FRONT;
    if (good_check(field, row.field) != sent_check(field + row.field))
        return 10;
    if (!fill_is_zero(field, &row))
        return 11;
    good_unpack(field, row.field, row.size, room, row.count);
    memcpy(header, common, HEADER);
    return 0;
}

size_t good_write(const uint8_t *header, size_t header_len, const uint16_t *words, size_t count,
                  uint8_t *dest, size_t dest_len)
{
    uint8_t *field;
    struct row row;
    size_t number;

    if (header_len != HEADER)
        return 1;
    number = row_of(header, &row);
    if (number != 0)
        return number;
    if (count != row.count)
        return 8;
    if (dest_len < FRONT + row.field + 2)
        return 9;
    if (!words_fit(words, &row))
        return 14;
    field = dest + FRONT;
    memcpy(dest, header, HEADER);
    send_check(dest + HEADER, good_check(header, HEADER));
    memcpy(dest + COPY, dest, COPY);
    memcpy(dest + 2 * COPY, dest, COPY);
    good_pack(words, count, row.size, field, row.field);
    send_check(field + row.field, good_check(field, row.field));
    return 0;
}
