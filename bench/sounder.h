/* Two ways in C to judge a Sounder documentation block, and to ask for one of its detectors, with a list of leap days;
 * src/idiomatic_sounder.rs is a third. Each has the same two functions, which take and answer what those of rahmisve.h
 * do. */
#ifndef SOUNDER_H
#define SOUNDER_H

#include <stddef.h>
#include <stdint.h>
#include <string.h>

#include "tags.h"

/* A status and what is said of a tag; places in a status. */
enum { STATUS_NUMBERS = 13, TAGS = 15, TAG_NUMBERS = 1 + NUMBERS };
enum { WORD, SUSPECTS, CHANNEL, DETECTOR, RAW_BLOCKS, BLOCKS, FRAME };

#define SOUNDER_BASELINE(name)                                                                                  \
    uint8_t name##_sounder_status(const uint16_t *words, size_t len, const uint32_t *days, size_t count,        \
                                  uint32_t status[STATUS_NUMBERS], uint32_t tags[TAGS][TAG_NUMBERS]);           \
    uint8_t name##_sounder_suspect(const uint16_t *words, size_t len, const uint32_t *days, size_t count,       \
                                   uint32_t channel, uint32_t detector, uint32_t *word, uint8_t *suspect);

SOUNDER_BASELINE(plain)
SOUNDER_BASELINE(good)

/* Words of the specification, from 1, and its other numbers. */
enum { DETECTOR_WORD = 33, SPARE_WORD = 42, SPARE_BITS = 15, RAW_WORD = 43, BLOCK_WORD = 45, TAG_WORD = 59, EAST_WORD = 189 };
enum { SOUNDER_WORDS = 8040, CHANNELS = 19, EACH = 4, DETECTORS = CHANNELS * EACH, FIELDS = 7 };

/* The frame fields: the first of two words, and the range. */
static const struct {
    size_t word;
    uint32_t least, most;
} fields[FIELDS] = {
    {181, 1, 396}, {183, 1, 396}, {185, 1, 1579}, {187, 1, 1754}, {EAST_WORD, 5, 1758}, {191, 1, 1579}, {193, 4, 1582},
};

/* The number of two words, of which this is the first. */
static inline uint32_t pair(const uint16_t *words, size_t word)
{
    return (uint32_t)words[word - 1] << 8 | words[word];
}

/* The first word of the lowest frame field out of its range, or 0; a west above the east is the east's. */
static inline uint32_t out_of_range(const uint16_t *words)
{
    uint32_t west = 0;

    for (int i = 0; i < FIELDS; i++) {
        uint32_t number = pair(words, fields[i].word);

        if (number < fields[i].least || number > fields[i].most || (fields[i].word == EAST_WORD && number < west))
            return (uint32_t)fields[i].word;
        west = number; /* the field before the eastern one */
    }
    return 0;
}

/* The counts and the frame fields. */
static inline void put_fields(const uint16_t *words, uint32_t *status)
{
    status[RAW_BLOCKS] = pair(words, RAW_WORD);
    status[BLOCKS] = pair(words, BLOCK_WORD);
    for (int i = 0; i < FIELDS; i++)
        status[FRAME + i] = pair(words, fields[i].word);
}

/* What is said of each tag, by a list that is good. */
static inline void put_tags(const uint16_t *words, const uint32_t *days, size_t count, uint32_t tags[TAGS][TAG_NUMBERS],
                            tag_taker *take)
{
    for (int i = 0; i < TAGS; i++) {
        uint8_t bytes[TAG_BYTES];

        for (int k = 0; k < TAG_BYTES; k++)
            bytes[k] = (uint8_t)words[TAG_WORD - 1 + i * TAG_BYTES + k];
        tags[i][0] = 0;
        if (!take(bytes, TAG_BYTES, days, count, tags[i] + 1)) {
            memset(tags[i], 0, sizeof tags[i]);
            tags[i][0] = 12;
        }
    }
}

#endif
