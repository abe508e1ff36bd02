/* What the plain and the good C share: the table of field sizes and what is
 * the same in any reader. */
#ifndef ROWS_H
#define ROWS_H

#include <stddef.h>
#include <stdint.h>

enum { COPY = 30, HEADER = 28, FRONT = 3 * COPY, LARGEST_N = 5236 };

struct row {
    size_t size;  /* bits of a word */
    size_t count; /* words before fill */
    size_t field; /* bytes of the field */
};

/* n pixels in each of the records, if the count is such a row's. */
static inline int pixels_suit(size_t count, size_t front, size_t each)
{
    return count >= front + each && count <= front + each * LARGEST_N && (count - front) % each == 0;
}

/* Refusals 4 to 7, or 0 and the row. */
static inline size_t row_of(const uint8_t *header, struct row *row)
{
    unsigned id = header[0], size = header[1];
    size_t sent = (size_t)header[2] << 8 | header[3];
    size_t count, bits;
    int suits;

    if (id != 240 && (id < 1 || id > 11))
        return 4;
    if (header[7] > 3)
        return 5;
    if (id == 240 ? size != 8 : id == 11 ? size != 6 && size != 8 && size != 10 : size != 10)
        return 6;
    if (sent < 2) /* the check word's two are counted */
        return 7;
    count = sent - 2;
    if (id == 240 || id == 11)
        suits = count == 64320 / size;
    else if (id == 1 || (id == 2 && header[7] == 3))
        suits = pixels_suit(count, 64, 4);
    else if (id == 2)
        suits = pixels_suit(count, 48, 3);
    else
        suits = pixels_suit(count, 16, 4);
    if (!suits)
        return 7;
    bits = (size * count + 15) / 16 * 16;
    row->size = size;
    row->count = count;
    row->field = (bits < 21440 ? 21440 : bits) / 8;
    return 0;
}

static inline int fill_is_zero(const uint8_t *field, const struct row *row)
{
    size_t bits = row->size * row->count, byte = bits / 8;

    if (bits % 8 != 0 && (field[byte++] & 0xFF >> bits % 8) != 0)
        return 0;
    for (; byte < row->field; byte++)
        if (field[byte] != 0)
            return 0;
    return 1;
}

static inline int words_fit(const uint16_t *words, const struct row *row)
{
    uint16_t all = 0;

    for (size_t i = 0; i < row->count; i++)
        all |= words[i];
    return all >> row->size == 0;
}

static inline unsigned sent_check(const uint8_t *at)
{
    return (unsigned)at[0] << 8 | at[1];
}

static inline void send_check(uint8_t *at, uint16_t check)
{
    at[0] = (uint8_t)(check >> 8);
    at[1] = (uint8_t)check;
}

/* The 256 entries of a table of steps are sums of eight of them. */
#define SUM1(v, a) (v), (v) ^ (a)
#define SUM2(v, a, b) SUM1(v, a), SUM1((v) ^ (b), a)
#define SUM3(v, a, b, c) SUM2(v, a, b), SUM2((v) ^ (c), a, b)
#define SUM4(v, a, b, c, d) SUM3(v, a, b, c), SUM3((v) ^ (d), a, b, c)
#define SUM5(v, a, b, c, d, e) SUM4(v, a, b, c, d), SUM4((v) ^ (e), a, b, c, d)
#define SUM6(v, a, b, c, d, e, f) SUM5(v, a, b, c, d, e), SUM5((v) ^ (f), a, b, c, d, e)
#define SUM7(v, a, b, c, d, e, f, g) SUM6(v, a, b, c, d, e, f), SUM6((v) ^ (g), a, b, c, d, e, f)
#define STEPS(a, b, c, d, e, f, g, h) \
    { SUM7(0, a, b, c, d, e, f, g), SUM7(h, a, b, c, d, e, f, g) }

#endif
