/* Plain C: a word that is too large ends the walk over the words; the detectors are gone through bit by bit. */
#include "sounder.h"

static int all_bytes(const uint16_t *words, size_t len)
{
    for (size_t i = 0; i < len; i++)
        if (words[i] > 255)
            return 0;
    return 1;
}

/* Whether the detector is suspect that has so many before it. */
static int is_suspect(const uint16_t *words, uint32_t before)
{
    return words[DETECTOR_WORD - 1 + before / 8] >> (7 - before % 8) & 1;
}

/* The number of a refusal, or 0; with 22 the word. */
static uint8_t judge_block(const uint16_t *words, size_t len, const uint32_t *days, size_t count, uint32_t *word)
{
    *word = 0;
    if (len != SOUNDER_WORDS)
        return 8;
    if (!all_bytes(words, len))
        return 14;
    if ((words[SPARE_WORD - 1] & SPARE_BITS) != 0)
        return 21;
    *word = out_of_range(words);
    if (*word != 0)
        return 22;
    return plain_good_list(days, count) ? 0 : 19;
}

static void put_detectors(const uint16_t *words, uint32_t *status)
{
    for (uint32_t before = 0; before < DETECTORS; before++) {
        if (!is_suspect(words, before))
            continue;
        if (status[SUSPECTS] == 0) {
            status[CHANNEL] = before / EACH + 1;
            status[DETECTOR] = before % EACH + 1;
        }
        status[SUSPECTS]++;
    }
}

uint8_t plain_sounder_status(const uint16_t *words, size_t len, const uint32_t *days, size_t count,
                             uint32_t status[STATUS_NUMBERS], uint32_t tags[TAGS][TAG_NUMBERS])
{
    uint8_t answer;

    memset(status, 0, STATUS_NUMBERS * sizeof *status);
    memset(tags, 0, TAGS * sizeof *tags);
    answer = judge_block(words, len, days, count, &status[WORD]);
    if (answer != 0)
        return answer;
    put_detectors(words, status);
    put_fields(words, status);
    put_tags(words, days, count, tags, plain_take_tag);
    return 0;
}

uint8_t plain_sounder_suspect(const uint16_t *words, size_t len, const uint32_t *days, size_t count, uint32_t channel,
                              uint32_t detector, uint32_t *word, uint8_t *suspect)
{
    uint8_t answer = judge_block(words, len, days, count, word);

    *suspect = 0;
    if (answer != 0)
        return answer;
    if (channel < 1 || channel > CHANNELS || detector < 1 || detector > EACH)
        return 13;
    *suspect = (uint8_t)is_suspect(words, (channel - 1) * EACH + detector - 1);
    return 0;
}
