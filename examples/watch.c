/* watch [FILE]: offers the blocks of a recording, of the file or of standard input, to a scan watch, and prints what opens a scan and what
 * closes it: the field, its block and SPS time, the verdict, and of a closed scan how many of its blocks were fill. A field that is refused
 * is named with the reason. A worked example of recordings and of the watch; it has memory for one field, and the recording may have any
 * length. */
#include <stdio.h>
#include <string.h>

#include "leap_days.h"
#include "rahmisve.h"

enum { WAIT_MS = 5000 };

/* The text of each answer. */
#define TEXT(name, number, text) text,
static const char *const texts[] = {RAHMISVE_ANSWERS(TEXT)};

/* The verdicts that are printed, those that open a scan or close one. */
static const char *const verdicts[] = {
    [RAHMISVE_VERDICT_OPENED] = "opened", [RAHMISVE_VERDICT_CLOCK_BACK] = "clock back", [RAHMISVE_VERDICT_LATE] = "late",
    [RAHMISVE_VERDICT_BROKEN] = "broken", [RAHMISVE_VERDICT_COMPLETE] = "complete",
};

/* A recording as it comes in. The bytes from `at` to `end` are still to be used. */
struct recording {
    FILE *file;
    size_t at, end;
    uint8_t bytes[RAHMISVE_FIELD_BYTES];
};

/* Moves what is still to be used to the front, and reads on until the buffer is full or the file ends. */
static void refill(struct recording *from)
{
    from->end -= from->at;
    memmove(from->bytes, from->bytes + from->at, from->end);
    from->at = 0;
    from->end += fread(from->bytes + from->end, 1, sizeof from->bytes - from->end, from->file);
}

/* The next field: its tag and where its body is. A full buffer holds any field whole; so one that is cut, or missing, in what a refill
 * brings is so in the recording. */
static unsigned next_field(struct recording *from, uint8_t *tag, const uint8_t **body, size_t *length)
{
    size_t start;
    unsigned found = rahmisve_next_field(from->bytes, from->end, from->at, tag, &start, length);
    if (found != RAHMISVE_FOUND_FIELD) {
        refill(from);
        found = rahmisve_next_field(from->bytes, from->end, from->at, tag, &start, length);
    }
    *body = from->bytes + start;
    from->at = start + *length;
    return found;
}

static void print_time(const uint8_t *tag)
{
    uint32_t time[RAHMISVE_TIME_NUMBERS];
    rahmisve_read_tag(tag, RAHMISVE_TAG_BYTES, leap_days, LEAP_DAYS, time);
    printf("%04u day %u, ", (unsigned)time[RAHMISVE_TIME_YEAR], (unsigned)time[RAHMISVE_TIME_DAY]);
    printf("%02u:%02u:%02u.%03u", (unsigned)time[RAHMISVE_TIME_HOUR], (unsigned)time[RAHMISVE_TIME_MINUTE],
           (unsigned)time[RAHMISVE_TIME_SECOND], (unsigned)time[RAHMISVE_TIME_MILLISECOND]);
}

/* What an accepted offer did; `count` blocks of a scan that it closed were fill. A block 0 that closes a scan opens the next one. */
static void print_verdict(uint8_t verdict, uint32_t count, const uint32_t *watch)
{
    printf(": %s", verdicts[verdict]);
    if (verdict != RAHMISVE_VERDICT_OPENED)
        printf(", %u fill%s", (unsigned)count, watch[RAHMISVE_WATCH_OPEN] ? ", opened" : "");
    printf("\n");
}

/* Reads the block of a field, offers it, and prints what is to be said of it. */
static void offer(unsigned long field, const uint8_t *body, size_t length, uint32_t *watch)
{
    static uint16_t words[RAHMISVE_MOST_WORDS];
    uint8_t header[RAHMISVE_HEADER_BYTES], copies[RAHMISVE_COPY_MARKS], block, version, size, records, verdict;
    const uint8_t *tag = header + RAHMISVE_HEADER_TIME;
    size_t word_count, field_bytes;
    uint32_t fill, count;

    unsigned answer = rahmisve_read(body, length, words, RAHMISVE_MOST_WORDS, header, copies, &word_count);
    if (answer == RAHMISVE_ANSWER_ACCEPTED)
        answer = rahmisve_plan(header, sizeof header, &block, &version, &size, &records, &word_count, &field_bytes);
    if (answer == RAHMISVE_ANSWER_ACCEPTED)
        answer = rahmisve_watch_offer(watch, block, header[RAHMISVE_HEADER_VALID], tag, RAHMISVE_TAG_BYTES, leap_days, LEAP_DAYS, &verdict,
                                      &fill, &count);
    if (answer != RAHMISVE_ANSWER_ACCEPTED) {
        printf("field %lu: refused: %u, %s\n", field, answer, texts[answer]);
    } else if (verdicts[verdict]) {
        printf("field %lu: block %u, ", field, block);
        print_time(tag);
        print_verdict(verdict, count, watch);
    }
}

/* Offers each block of the recording, and says on standard error what is wrong with it as a whole. */
static int offer_all(struct recording *from, const char *name)
{
    uint32_t watch[RAHMISVE_WATCH_NUMBERS];
    unsigned long field = 0;
    unsigned found;
    const uint8_t *body;
    size_t length;
    uint8_t tag;

    rahmisve_watch_begin(WAIT_MS, watch);
    while ((found = next_field(from, &tag, &body, &length)) == RAHMISVE_FOUND_FIELD) {
        field++;
        if (tag == RAHMISVE_BLOCK_FIELD)
            offer(field, body, length, watch);
    }
    if (ferror(from->file) || ferror(stdout) || fflush(stdout) != 0) {
        perror(ferror(from->file) ? name : "standard output");
        return 2;
    }
    if (found == RAHMISVE_FOUND_CUT) {
        fprintf(stderr, "%s: cut behind field %lu\n", name, field);
        return 1;
    }
    return 0;
}

int main(int argc, char **argv)
{
    static struct recording from;
    const char *name = argc > 1 ? argv[1] : "standard input";

    if (rahmisve_version() != RAHMISVE_VERSION) {
        fprintf(stderr, "built for version %u of the archive, linked with %u\n", RAHMISVE_VERSION, (unsigned)rahmisve_version());
        return 2;
    }
    from.file = argc > 1 ? fopen(name, "rb") : stdin;
    if (!from.file) {
        perror(name);
        return 2;
    }
    return offer_all(&from, name);
}
