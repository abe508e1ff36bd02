/* salvage IN OUT: finds the blocks in a file that has lost their boundaries, writes a recording of them to OUT, and prints a line for each
 * block and for each span of junk. A worked example of salvage; IN is read whole, and may be as long as memory is. */
#include <stdio.h>
#include <stdlib.h>

#include "rahmisve.h"

/* The text of each answer. */
#define TEXT(name, number, text) text,
static const char *const texts[] = {RAHMISVE_ANSWERS(TEXT)};

/* The changed copies, by what was found. At most two change: the one that was used does not. */
static const char *const changed[] = {
    [0] = "-",
    [RAHMISVE_CHANGED_FIRST] = "1",
    [RAHMISVE_CHANGED_SECOND] = "2",
    [RAHMISVE_CHANGED_THIRD] = "3",
    [RAHMISVE_CHANGED_FIRST + RAHMISVE_CHANGED_SECOND] = "1,2",
    [RAHMISVE_CHANGED_FIRST + RAHMISVE_CHANGED_THIRD] = "1,3",
    [RAHMISVE_CHANGED_SECOND + RAHMISVE_CHANGED_THIRD] = "2,3",
    [RAHMISVE_SPAN] = "-",
};

/* Says what went wrong with a file, and ends the program. */
static void stop(const char *name)
{
    perror(name);
    exit(2);
}

/* A room of so many bytes, or of one where that is none, in place of one that is lent; never NULL. */
static void *room_of(void *lent, size_t bytes)
{
    void *room = realloc(lent, bytes ? bytes : 1);
    if (!room)
        stop("memory");
    return room;
}

static uint8_t *read_whole(const char *name, size_t *length)
{
    uint8_t *bytes = NULL;
    size_t room = 0;
    FILE *file = fopen(name, "rb");
    if (!file)
        stop(name);
    *length = 0;
    do {
        room = 2 * room + 65536;
        bytes = room_of(bytes, room);
        *length += fread(bytes + *length, 1, room - *length, file);
    } while (*length == room);
    if (ferror(file))
        stop(name);
    fclose(file);
    return bytes;
}

static void write_whole(const char *name, const uint8_t *bytes, size_t length)
{
    FILE *file = fopen(name, "wb");
    if (!file)
        stop(name);
    if (fwrite(bytes, 1, length, file) != length || fclose(file) != 0)
        stop(name);
}

static void print_report(size_t (*report)[RAHMISVE_ENTRY_NUMBERS], size_t entries, size_t blocks)
{
    printf("start bytes found changed\n");
    for (size_t i = 0; i < entries; i++) {
        size_t found = report[i][RAHMISVE_ENTRY_FOUND];
        printf("%zu %zu %s %s\n", report[i][RAHMISVE_ENTRY_START], report[i][RAHMISVE_ENTRY_BYTES],
               found == RAHMISVE_SPAN ? "span" : "block", changed[found]);
    }
    printf("end %zu\n", blocks);
    if (ferror(stdout) || fflush(stdout) != 0)
        stop("standard output");
}

int main(int argc, char **argv)
{
    static uint16_t scratch[RAHMISVE_MOST_WORDS];
    size_t(*report)[RAHMISVE_ENTRY_NUMBERS];
    size_t length, bytes, entries, blocks;

    if (rahmisve_version() != RAHMISVE_VERSION) {
        fprintf(stderr, "built for version %u of the archive, linked with %u\n", RAHMISVE_VERSION, (unsigned)rahmisve_version());
        return 2;
    }
    if (argc != 3) {
        fprintf(stderr, "usage: salvage IN OUT\n");
        return 2;
    }
    uint8_t *input = read_whole(argv[1], &length);
    size_t most_bytes = RAHMISVE_SALVAGE_BYTES(length), most_entries = RAHMISVE_SALVAGE_ENTRIES(length);
    uint8_t *recording = room_of(NULL, most_bytes);
    report = room_of(NULL, most_entries * sizeof *report);

    unsigned answer = rahmisve_salvage(input, length, recording, most_bytes, report[0], most_entries * RAHMISVE_ENTRY_NUMBERS, scratch,
                                       RAHMISVE_MOST_WORDS, &bytes, &entries, &blocks);
    if (answer != RAHMISVE_ANSWER_ACCEPTED) {
        printf("refused: %u, %s\n", answer, texts[answer]);
        return 1;
    }
    write_whole(argv[2], recording, bytes);
    print_report(report, entries, blocks);
    return 0;
}
