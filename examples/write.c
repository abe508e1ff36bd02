/* Writes a block to standard output: block 1 of version 2, with its four records of one pixel each, and 2008 day 60, 23:59:59.999 as its
 * time. A worked example of the writer; examples/read.c reads what it makes. */
#include <stdio.h>

#include "rahmisve.h"

enum { RECORDS = 4, PIXELS = 1 };
enum { RECORD = RAHMISVE_DOCUMENTATION_WORDS + PIXELS, WORDS = RECORDS * RECORD, COUNT = WORDS + RAHMISVE_EXTRA_WORDS };

/* The text of each answer. */
#define TEXT(name, number, text) text,
static const char *const texts[] = {RAHMISVE_ANSWERS(TEXT)};

static const uint32_t time[RAHMISVE_TIME_NUMBERS] = {
    [RAHMISVE_TIME_YEAR] = 2008, [RAHMISVE_TIME_DAY] = 60,    [RAHMISVE_TIME_HOUR] = 23,
    [RAHMISVE_TIME_MINUTE] = 59, [RAHMISVE_TIME_SECOND] = 59, [RAHMISVE_TIME_MILLISECOND] = 999,
};

int main(void)
{
    uint8_t header[RAHMISVE_HEADER_BYTES] = {
        [RAHMISVE_HEADER_ID] = 1,
        [RAHMISVE_HEADER_SIZE] = 10,
        [RAHMISVE_HEADER_COUNT] = COUNT >> 8, COUNT & 255,
        [RAHMISVE_HEADER_VERSION] = 2,
        [RAHMISVE_HEADER_VALID] = 1,
    };
    uint16_t words[WORDS];
    uint8_t block[RAHMISVE_MOST_BYTES];
    size_t bytes;

    for (unsigned i = 0; i < WORDS; i++)
        words[i] = (uint16_t)(100 * (i / RECORD + 1) + i % RECORD);
    unsigned answer = rahmisve_write_tag(time, NULL, 0, header + RAHMISVE_HEADER_TIME); /* second 59 needs no leap days */
    if (answer == RAHMISVE_ANSWER_ACCEPTED)
        answer = rahmisve_write(header, sizeof header, words, WORDS, block, sizeof block, &bytes);
    if (answer != RAHMISVE_ANSWER_ACCEPTED) {
        fprintf(stderr, "refused: %u, %s\n", answer, texts[answer]);
        return 1;
    }
    if (fwrite(block, 1, bytes, stdout) != bytes || fflush(stdout) != 0) {
        perror("standard output");
        return 2;
    }
    return 0;
}
