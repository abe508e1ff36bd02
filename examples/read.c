/* read [FILE]: reads one block, of the file or of standard input, and prints what it holds: the header's numbers, which header copies
 * passed, each detector record with its channel and detector, and the time. A worked example of the reader. */
#include <stdio.h>

#include "leap_days.h"
#include "rahmisve.h"

/* The text of each answer. */
#define TEXT(name, number, text) text,
static const char *const texts[] = {RAHMISVE_ANSWERS(TEXT)};

/* The time of the header's tag, and how long after midnight that is. */
static void print_time(const uint8_t *tag)
{
    uint32_t time[RAHMISVE_TIME_NUMBERS], midnight[RAHMISVE_TIME_NUMBERS] = {0};
    uint8_t begin[RAHMISVE_TAG_BYTES];
    int64_t ms;

    unsigned answer = rahmisve_read_tag(tag, RAHMISVE_TAG_BYTES, leap_days, LEAP_DAYS, time);
    if (answer != RAHMISVE_ANSWER_ACCEPTED) {
        printf("time: refused: %u, %s\n", answer, texts[answer]);
        return;
    }
    midnight[RAHMISVE_TIME_YEAR] = time[RAHMISVE_TIME_YEAR];
    midnight[RAHMISVE_TIME_DAY] = time[RAHMISVE_TIME_DAY];
    rahmisve_write_tag(midnight, leap_days, LEAP_DAYS, begin);
    rahmisve_elapsed(begin, sizeof begin, tag, RAHMISVE_TAG_BYTES, leap_days, LEAP_DAYS, &ms);
    printf("time: %u day %u, ", (unsigned)time[RAHMISVE_TIME_YEAR], (unsigned)time[RAHMISVE_TIME_DAY]);
    printf("%02u:%02u:%02u.%03u", (unsigned)time[RAHMISVE_TIME_HOUR], (unsigned)time[RAHMISVE_TIME_MINUTE],
           (unsigned)time[RAHMISVE_TIME_SECOND], (unsigned)time[RAHMISVE_TIME_MILLISECOND]);
    printf("%s, %ld ms after midnight\n", time[RAHMISVE_TIME_FLYWHEEL] ? " by flywheel" : "", (long)ms);
}

/* The records among the words, each with what it holds and its first pixel, which stands behind the line documentation. */
static void print_records(const uint8_t *header, unsigned block, unsigned version, unsigned records, const uint16_t *words, size_t count)
{
    for (unsigned k = 1; k <= records; k++) {
        size_t start, length;
        uint8_t channel, detector;
        if (rahmisve_record(header, RAHMISVE_HEADER_BYTES, count, k, &start, &length) != RAHMISVE_ANSWER_ACCEPTED)
            continue;
        rahmisve_place(block, version, k, &channel, &detector);
        printf("record %u: channel %u, detector %u, %zu words from word %zu, first pixel %u\n", k, channel, detector, length, start,
               words[start + RAHMISVE_DOCUMENTATION_WORDS]);
    }
}

int main(int argc, char **argv)
{
    static uint8_t bytes[RAHMISVE_MOST_BYTES + 1]; /* a byte more, so that a longer file shows as too long */
    static uint16_t words[RAHMISVE_MOST_WORDS];
    uint8_t header[RAHMISVE_HEADER_BYTES], copies[RAHMISVE_COPY_MARKS], block, version, size, records;
    size_t length, word_count, field_bytes;

    FILE *file = argc > 1 ? fopen(argv[1], "rb") : stdin;
    if (!file) {
        perror(argv[1]);
        return 2;
    }
    length = fread(bytes, 1, sizeof bytes, file);
    if (ferror(file)) {
        perror(argc > 1 ? argv[1] : "standard input");
        return 2;
    }
    fclose(file);

    unsigned answer = rahmisve_read(bytes, length, words, RAHMISVE_MOST_WORDS, header, copies, &word_count);
    if (answer != RAHMISVE_ANSWER_ACCEPTED) {
        printf("refused: %u, %s\n", answer, texts[answer]);
        return 1;
    }
    rahmisve_plan(header, sizeof header, &block, &version, &size, &records, &word_count, &field_bytes);
    printf("block %u, version %u: %zu words of %u bits in a field of %zu bytes\n", block, version, word_count, size, field_bytes);
    printf("header copies that passed:%s%s%s\n", copies[0] ? " 1" : "", copies[1] ? " 2" : "", copies[2] ? " 3" : "");
    print_records(header, block, version, records, words, word_count);
    print_time(header + RAHMISVE_HEADER_TIME);
    return 0;
}
