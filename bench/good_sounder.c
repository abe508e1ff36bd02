/* Good C: all words joined and looked at once; the detectors in two numbers of 64 bits, which are counted at once. */
#include "sounder.h"

enum { BITS = 64, REST = 2 * BITS - DETECTORS }; /* bits of the second number that are no detector's */

static int all_bytes(const uint16_t *words)
{
    uint16_t all = 0;

    for (size_t i = 0; i < SOUNDER_WORDS; i++)
        all |= words[i];
    return all <= 255;
}

/* The bits of eight words in a row, the first word's first. */
static uint64_t bits(const uint16_t *words)
{
    uint64_t all = 0;

    for (int i = 0; i < 8; i++)
        all = all << 8 | words[i];
    return all;
}

/* The first 64 detectors, and the rest of them, with zeros behind. */
static uint64_t first_bits(const uint16_t *words)
{
    return bits(words + DETECTOR_WORD - 1);
}

static uint64_t last_bits(const uint16_t *words)
{
    return bits(words + DETECTOR_WORD - 1 + BITS / 8) >> REST << REST;
}

static uint8_t judge_block(const uint16_t *words, size_t len, const uint32_t *days, size_t count, uint32_t *word)
{
    *word = 0;
    if (len != SOUNDER_WORDS)
        return 8;
    if (!all_bytes(words))
        return 14;
    if ((words[SPARE_WORD - 1] & SPARE_BITS) != 0)
        return 21;
    *word = out_of_range(words);
    if (*word != 0)
        return 22;
    return good_good_list(days, count) ? 0 : 19;
}

static void put_detectors(const uint16_t *words, uint32_t *status)
{
    uint64_t first = first_bits(words), last = last_bits(words);
    uint32_t before;

    if ((first | last) == 0)
        return;
    before = (uint32_t)(first != 0 ? __builtin_clzll(first) : BITS + __builtin_clzll(last));
    status[SUSPECTS] = (uint32_t)(__builtin_popcountll(first) + __builtin_popcountll(last));
    status[CHANNEL] = before / EACH + 1;
    status[DETECTOR] = before % EACH + 1;
}

uint8_t good_sounder_status(const uint16_t *words, size_t len, const uint32_t *days, size_t count,
                            uint32_t status[STATUS_NUMBERS], uint32_t tags[TAGS][TAG_NUMBERS])
{
    uint8_t answer;

    memset(status, 0, STATUS_NUMBERS * sizeof *status);
    answer = judge_block(words, len, days, count, &status[WORD]);
    if (answer != 0) {
        memset(tags, 0, TAGS * sizeof *tags);
        return answer;
    }
    put_detectors(words, status);
    put_fields(words, status);
    put_tags(words, days, count, tags, good_take_tag);
    return 0;
}

uint8_t good_sounder_suspect(const uint16_t *words, size_t len, const uint32_t *days, size_t count, uint32_t channel,
                             uint32_t detector, uint32_t *word, uint8_t *suspect)
{
    uint8_t answer = judge_block(words, len, days, count, word);
    uint32_t before = (channel - 1) * EACH + detector - 1;

    *suspect = 0;
    if (answer != 0)
        return answer;
    if (channel - 1 >= CHANNELS || detector - 1 >= EACH)
        return 13;
    *suspect = (uint8_t)((before < BITS ? first_bits(words) << before : last_bits(words) << (before - BITS)) >> (BITS - 1));
    return 0;
}
