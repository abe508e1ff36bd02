/* sounder [FILE]: finds the Sounder documentation blocks in a recording, of the file or of standard input, and prints of each the field and
 * its SPS time, whether it is fill, how many detectors are suspect and which, as channel/detector, and which of its time tags are bad; or
 * why it is refused. A worked example of the Sounder's status; it has memory for one field, and the recording may have any length. */
#include <stdio.h>
#include <string.h>

#include "leap_days.h"
#include "rahmisve.h"

/* A Sounder documentation block is a block 11 of words of eight bits whose SAD ID says so, in the last six bits of word 3. */
enum { BLOCK = 11, WORD_BITS = 8, DATA_WORD = 3, DATA_BITS = 63, DOCUMENTATION = 32 };

/* The text of each answer. */
#define TEXT(name, number, text) text,
static const char *const texts[] = {RAHMISVE_ANSWERS(TEXT)};

static const char *const tag_names[RAHMISVE_SOUNDER_TAGS] = {
    [RAHMISVE_SOUNDER_TAG_CURRENT] = "current",
    [RAHMISVE_SOUNDER_TAG_LINE_START] = "line start",
    [RAHMISVE_SOUNDER_TAG_LINE_END] = "line end",
    [RAHMISVE_SOUNDER_TAG_SET_AT_START] = "set at start",
    [RAHMISVE_SOUNDER_TAG_SET_AT_END] = "set at end",
    [RAHMISVE_SOUNDER_TAG_PRIORITY_FRAME] = "priority frame",
    [RAHMISVE_SOUNDER_TAG_NORMAL_FRAME] = "normal frame",
    [RAHMISVE_SOUNDER_TAG_SPACELOOK] = "spacelook",
    [RAHMISVE_SOUNDER_TAG_ECAL] = "ECAL",
    [RAHMISVE_SOUNDER_TAG_BLACKBODY] = "blackbody",
    [RAHMISVE_SOUNDER_TAG_STAR_SENSE] = "star sense",
    [RAHMISVE_SOUNDER_TAG_RANGING] = "ranging",
    [RAHMISVE_SOUNDER_TAG_VISIBLE_TABLES] = "visible tables",
    [RAHMISVE_SOUNDER_TAG_LIMITS] = "limits",
    [RAHMISVE_SOUNDER_TAG_ORBIT] = "orbit",
};

/* A recording as it comes in. The bytes from `at` to `end` are still to be used. */
struct recording {
    FILE *file;
    size_t at, end;
    uint8_t bytes[RAHMISVE_FIELD_BYTES];
};

/* The next field: its tag and where its body is. Where there is none, what is still to be used goes to the front, and the buffer is filled;
 * full, it holds any field whole, so that one that is cut or missing then is so in the recording. */
static unsigned next_field(struct recording *from, uint8_t *tag, const uint8_t **body, size_t *length)
{
    size_t start;
    unsigned found = rahmisve_next_field(from->bytes, from->end, from->at, tag, &start, length);
    if (found != RAHMISVE_FOUND_FIELD) {
        from->end -= from->at;
        memmove(from->bytes, from->bytes + from->at, from->end);
        from->at = 0;
        from->end += fread(from->bytes + from->end, 1, sizeof from->bytes - from->end, from->file);
        found = rahmisve_next_field(from->bytes, from->end, from->at, tag, &start, length);
    }
    *body = from->bytes + start;
    from->at = start + *length;
    return found;
}

static void print_time(const uint8_t *tag)
{
    uint32_t time[RAHMISVE_TIME_NUMBERS];
    if (rahmisve_read_tag(tag, RAHMISVE_TAG_BYTES, leap_days, LEAP_DAYS, time) != RAHMISVE_ANSWER_ACCEPTED) {
        printf("bad time");
        return;
    }
    printf("%04u day %u, ", (unsigned)time[RAHMISVE_TIME_YEAR], (unsigned)time[RAHMISVE_TIME_DAY]);
    printf("%02u:%02u:%02u.%03u", (unsigned)time[RAHMISVE_TIME_HOUR], (unsigned)time[RAHMISVE_TIME_MINUTE],
           (unsigned)time[RAHMISVE_TIME_SECOND], (unsigned)time[RAHMISVE_TIME_MILLISECOND]);
}

/* Asks for each detector of a block that is accepted. */
static void print_suspects(const uint16_t *words)
{
    uint32_t word;
    uint8_t suspect;
    printf(":");
    for (unsigned channel = 1; channel <= RAHMISVE_SOUNDER_CHANNELS; channel++)
        for (unsigned detector = 1; detector <= RAHMISVE_SOUNDER_DETECTORS; detector++) {
            rahmisve_sounder_suspect(words, RAHMISVE_SOUNDER_WORDS, leap_days, LEAP_DAYS, channel, detector, &word, &suspect);
            if (suspect)
                printf(" %u/%u", channel, detector);
        }
}

/* Judges a block, and prints its line but for the field and the time. */
static void print_status(const uint16_t *words, size_t word_count)
{
    uint32_t status[RAHMISVE_SOUNDER_NUMBERS], tags[RAHMISVE_SOUNDER_TAGS][RAHMISVE_SOUNDER_TAG_NUMBERS];
    const char *before = "; bad tags: ";
    unsigned answer = rahmisve_sounder_status(words, word_count, leap_days, LEAP_DAYS, status, tags);
    if (answer != RAHMISVE_ANSWER_ACCEPTED) {
        printf("refused: %u, %s", answer, texts[answer]);
        if (answer == RAHMISVE_ANSWER_OUT_OF_RANGE)
            printf(", word %u", (unsigned)status[RAHMISVE_SOUNDER_WORD]);
        return;
    }
    printf("%u suspect", (unsigned)status[RAHMISVE_SOUNDER_SUSPECTS]);
    if (status[RAHMISVE_SOUNDER_SUSPECTS] > 0)
        print_suspects(words);
    for (unsigned k = 0; k < RAHMISVE_SOUNDER_TAGS; k++)
        if (tags[k][RAHMISVE_SOUNDER_TAG_ANSWER] != RAHMISVE_ANSWER_ACCEPTED) {
            printf("%s%s", before, tag_names[k]);
            before = ", ";
        }
}

/* Reads the block of a field, and prints its line where it is a Sounder documentation block. */
static void judge(unsigned long field, const uint8_t *body, size_t length)
{
    static uint16_t words[RAHMISVE_MOST_WORDS];
    uint8_t header[RAHMISVE_HEADER_BYTES], copies[RAHMISVE_COPY_MARKS];
    size_t word_count;

    if (rahmisve_read(body, length, words, RAHMISVE_MOST_WORDS, header, copies, &word_count) != RAHMISVE_ANSWER_ACCEPTED)
        return;
    if (header[RAHMISVE_HEADER_ID] != BLOCK || header[RAHMISVE_HEADER_SIZE] != WORD_BITS)
        return;
    if ((words[DATA_WORD - 1] & DATA_BITS) != DOCUMENTATION)
        return;
    printf("field %lu: ", field);
    print_time(header + RAHMISVE_HEADER_TIME);
    printf(header[RAHMISVE_HEADER_VALID] == RAHMISVE_VALID ? ": " : ", fill: ");
    print_status(words, word_count);
    printf("\n");
}

/* Judges the blocks of the recording, and says on standard error what is wrong with it as a whole. */
static int judge_all(struct recording *from, const char *name)
{
    unsigned long field = 0;
    unsigned found;
    const uint8_t *body;
    size_t length;
    uint8_t tag;

    while ((found = next_field(from, &tag, &body, &length)) == RAHMISVE_FOUND_FIELD) {
        field++;
        if (tag == RAHMISVE_BLOCK_FIELD)
            judge(field, body, length);
    }
    if (ferror(from->file) || ferror(stdout) || fflush(stdout) != 0) {
        perror(ferror(from->file) ? name : "standard output");
        return 2;
    }
    if (found == RAHMISVE_FOUND_CUT) {
        fprintf(stderr, "%s: cut behind field %lu\n", name, field);
        return 1;
    }
    return 0;
}

int main(int argc, char **argv)
{
    static struct recording from;
    const char *name = argc > 1 ? argv[1] : "standard input";

    if (rahmisve_version() != RAHMISVE_VERSION) {
        fprintf(stderr, "built for version %u of the archive, linked with %u\n", RAHMISVE_VERSION, (unsigned)rahmisve_version());
        return 2;
    }
    from.file = argc > 1 ? fopen(name, "rb") : stdin;
    if (!from.file) {
        perror(name);
        return 2;
    }
    return judge_all(&from, name);
}
