/* edges: words out of fields and into fields that end where the memory ends, or begin where it begins, and the words do so too; then what
 * salvage is lent, in the same places, leap days with the tags and the watch that they are lent with, and the words and the places of the
 * Sounder's status. No byte is read or written beyond, or the program ends by a fault. Prints a line `ok - ..` or `not ok - ..` for each
 * size of a word and each way, for each kind of input, for the lists and for the status.
 * edges taken | put | words | front | input | recording | entries | scratch | days | numbers | block | counts | verdicts: a call that is
 * lent a byte, a word, an entry, a day or a number of a watch or a status more than there is, and therefore has to end by a fault. */
#define _DEFAULT_SOURCE
#include <stdio.h>
#include <string.h>
#include <sys/mman.h>

#include "rahmisve.h"

enum { PAGE_BYTES = 65536 }; /* a multiple of any machine's page */
enum { MOST_WORDS = 200 };   /* many groups, and every rest behind them */
enum { MOST_FILL = 40 };     /* bytes behind the words */
enum { AROUND = 16 };        /* bytes around a field, where there are any */
enum { UNTOUCHED = 0xA5 };

static const size_t long_counts[] = {1000, 1003, 8040, 10720, RAHMISVE_MOST_WORDS};
static const size_t fills[] = {0, 1, 2, 3, 5, 7, 8, 9, 15, 16, 17, MOST_FILL};

/* Memory with nothing in front of it and nothing behind it. */
struct memory {
    uint8_t *begin, *end;
};

static struct memory fields, rooms, recordings, reports, lists;
static int all_good = 1;

static int has_ends(struct memory *memory)
{
    uint8_t *pages = mmap(NULL, 3 * PAGE_BYTES, PROT_READ | PROT_WRITE, MAP_PRIVATE | MAP_ANONYMOUS, -1, 0);
    if (pages == MAP_FAILED)
        return 0;
    memory->begin = pages + PAGE_BYTES;
    memory->end = memory->begin + PAGE_BYTES;
    return mprotect(pages, PAGE_BYTES, PROT_NONE) == 0 && mprotect(memory->end, PAGE_BYTES, PROT_NONE) == 0;
}

/* So many bytes at the end of a memory, or at its beginning. */
static void *part_of(struct memory memory, int end, size_t bytes)
{
    return end ? memory.end - bytes : memory.begin;
}

static uint8_t *bytes_at(int end, size_t bytes)
{
    return part_of(fields, end, bytes);
}

static uint16_t *words_at(int end, size_t count)
{
    return part_of(rooms, end, count * sizeof(uint16_t));
}

static unsigned drawn(void)
{
    static uint32_t state = 1;
    state = state * 1664525 + 1013904223;
    return state >> 16;
}

static void told(int good, unsigned size, const char *what)
{
    printf("%s - words of %u bits %s\n", good ? "ok" : "not ok", size, what);
    all_good &= good;
}

static void told_of_salvage(int good, const char *what)
{
    printf("%s - salvage of %s, where memory ends, and where it begins\n", good ? "ok" : "not ok", what);
    all_good &= good;
}

/* ---- out of a field */

/* A word of a field, bit by bit. */
static unsigned word(const uint8_t *field, size_t bit, unsigned size)
{
    unsigned value = 0;
    for (unsigned i = 0; i < size; i++, bit++)
        value = value * 2 + (field[bit / 8] >> (7 - bit % 8) & 1);
    return value;
}

static int taken(int end, unsigned size, size_t count)
{
    size_t bytes = (size * count + 7) / 8;
    const uint8_t *field = bytes_at(end, bytes);
    uint16_t *room = words_at(end, count);
    memset(room, UNTOUCHED, count * sizeof *room);
    if (rahmisve_take_words(field, bytes, size, count, room, count) != RAHMISVE_ANSWER_ACCEPTED)
        return 0;
    for (size_t i = 0; i < count; i++)
        if (room[i] != word(field, i * size, size))
            return 0;
    return 1;
}

static int all_taken(unsigned size)
{
    int good = 1;
    for (int i = 0; i < PAGE_BYTES; i++)
        fields.begin[i] = (uint8_t)drawn();
    for (size_t count = 0; count <= MOST_WORDS; count++)
        good &= taken(1, size, count) & taken(0, size, count);
    return good;
}

/* ---- into a field */

static uint8_t expected[PAGE_BYTES];

/* What the words make of a field, bit by bit. */
static void expect(const uint16_t *words, unsigned size, size_t count, size_t bytes)
{
    memset(expected, 0, bytes);
    for (size_t bit = 0; bit < size * count; bit++)
        expected[bit / 8] |= (uint8_t)((words[bit / size] >> (size - 1 - bit % size) & 1) << (7 - bit % 8));
}

/* Whether this is the answer, the field then as expected, or as it was where it is a refusal, and what stands around it as it was. */
static int put(unsigned answer, const uint16_t *words, unsigned size, size_t count, uint8_t *field, size_t bytes)
{
    uint8_t *from = field == fields.begin ? field : field - AROUND;
    uint8_t *to = field + bytes == fields.end ? fields.end : field + bytes + AROUND;
    memset(from, UNTOUCHED, (size_t)(to - from));
    if (rahmisve_put_words(words, count, size, field, bytes) != answer)
        return 0;
    for (; from < to; from++) {
        int inside = from >= field && from < field + bytes && answer == RAHMISVE_ANSWER_ACCEPTED;
        if (*from != (inside ? expected[from - field] : UNTOUCHED))
            return 0;
    }
    return 1;
}

/* In fields just long enough, longer, and a byte too short. */
static int put_whole(int end, unsigned size, size_t count)
{
    size_t bytes = (size * count + 7) / 8;
    uint16_t *words = words_at(end, count);
    int good = 1;
    for (size_t i = 0; i < count; i++)
        words[i] = (uint16_t)(drawn() >> (16 - size));
    expect(words, size, count, bytes + MOST_FILL);
    for (size_t i = 0; i < sizeof fills / sizeof *fills; i++)
        good &= put(RAHMISVE_ANSWER_ACCEPTED, words, size, count, bytes_at(end, bytes + fills[i]), bytes + fills[i]);
    if (bytes > 0)
        good &= put(RAHMISVE_ANSWER_SMALL_ROOM, words, size, count, bytes_at(end, bytes - 1), bytes - 1);
    return good;
}

static int all_put(unsigned size)
{
    int good = 1;
    for (size_t count = 0; count <= MOST_WORDS; count++)
        good &= put_whole(1, size, count) & put_whole(0, size, count);
    for (size_t i = 0; i < sizeof long_counts / sizeof *long_counts; i++)
        good &= put_whole(1, size, long_counts[i]) & put_whole(0, size, long_counts[i]);
    return good;
}

/* One word too large, at every place. */
static int all_refused(unsigned size)
{
    enum { COUNT = 100 };
    size_t bytes = (size * COUNT + 7) / 8;
    uint16_t *words = words_at(1, COUNT);
    int good = 1;
    memset(words, 0, COUNT * sizeof *words);
    for (size_t i = 0; i < COUNT; i++) {
        for (unsigned bit = size; bit < 16; bit++) {
            words[i] = (uint16_t)(1u << bit);
            good &= put(RAHMISVE_ANSWER_LARGE_WORD, words, size, COUNT, bytes_at(1, bytes), bytes);
            good &= put(RAHMISVE_ANSWER_LARGE_WORD, words, size, COUNT, bytes_at(0, bytes + 1), bytes + 1);
        }
        words[i] = (uint16_t)((1u << size) - 1);
    }
    return good;
}

/* ---- salvage */

/* How much of what is lent lies behind its memory: nothing, but where a fault is asked for. */
static struct {
    size_t bytes, recording, numbers, words;
} beyond;

static uint8_t block[RAHMISVE_MOST_BYTES];

/* Makes a block 1 of so many words, and says how long it is. */
static size_t make_block(unsigned count)
{
    static uint16_t words[RAHMISVE_MOST_WORDS];
    uint8_t header[RAHMISVE_HEADER_BYTES] = {1, 10};
    size_t bytes = 0;
    header[RAHMISVE_HEADER_COUNT] = (uint8_t)((count + RAHMISVE_EXTRA_WORDS) >> 8);
    header[RAHMISVE_HEADER_COUNT + 1] = (uint8_t)((count + RAHMISVE_EXTRA_WORDS) & 255);
    for (unsigned i = 0; i < count; i++)
        words[i] = (uint16_t)(drawn() >> 6);
    rahmisve_write(header, sizeof header, words, count, block, sizeof block, &bytes);
    return bytes;
}

/* Whether this is the answer to the first bytes of the block with junk around them, and the block then in the recording where it is found.
 * All that is lent is just as long as is asked for. */
static int salvaged(unsigned answer, int end, size_t before, size_t bytes, size_t behind)
{
    size_t length = before + bytes + behind, room = RAHMISVE_SALVAGE_BYTES(length), made, entries, blocks;
    size_t numbers = RAHMISVE_SALVAGE_ENTRIES(length) * RAHMISVE_ENTRY_NUMBERS;
    uint8_t *input = bytes_at(end, length - beyond.bytes);
    uint8_t *recording = part_of(recordings, end, room - beyond.recording);
    size_t *report = part_of(reports, end, (numbers - beyond.numbers) * sizeof *report);
    uint16_t *scratch = words_at(end, RAHMISVE_MOST_WORDS - beyond.words);
    memset(input, UNTOUCHED, length - beyond.bytes);
    memcpy(input + before, block, bytes - beyond.bytes);
    if (rahmisve_salvage(input, length, recording, room, report, numbers, scratch, RAHMISVE_MOST_WORDS, &made, &entries, &blocks) != answer)
        return 0;
    if (answer != RAHMISVE_ANSWER_ACCEPTED)
        return blocks == 0;
    return blocks == 1 && made == RAHMISVE_FRONT_BYTES + bytes && memcmp(recording + RAHMISVE_FRONT_BYTES, block, bytes) == 0;
}

static int at_both_ends(unsigned answer, size_t before, size_t bytes, size_t behind)
{
    return salvaged(answer, 1, before, bytes, behind) & salvaged(answer, 0, before, bytes, behind);
}

static int all_salvaged(unsigned words)
{
    static const size_t junk[] = {0, 1, 30, 89, 90};
    enum { KINDS = sizeof junk / sizeof *junk };
    size_t bytes = make_block(words);
    int good = 1;
    for (int i = 0; i < KINDS * KINDS; i++)
        good &= at_both_ends(RAHMISVE_ANSWER_ACCEPTED, junk[i / KINDS], bytes, junk[i % KINDS]);
    return good;
}

/* Blocks that stop: in each byte of the header copies and a little behind them, and just before their ends. */
static int all_stopped(unsigned words)
{
    size_t bytes = make_block(words);
    int good = at_both_ends(RAHMISVE_ANSWER_NO_BLOCK, 0, bytes - 1, 0) & at_both_ends(RAHMISVE_ANSWER_NO_BLOCK, 1, bytes - 1, 0);
    for (size_t part = 0; part <= 100; part++)
        good &= at_both_ends(RAHMISVE_ANSWER_NO_BLOCK, 0, part, 0) & at_both_ends(RAHMISVE_ANSWER_NO_BLOCK, 7, part, 0);
    return good;
}

/* ---- leap days */

static size_t days_beyond, numbers_beyond; /* how many of them, and of the watch's numbers, lie behind their memory */

/* Whether this is the answer to two offers of a block 0 that is fill: the first opens a scan, the second closes it and hands over its set
 * and count. These two places stand at opposite ends of memory, and the watch stands at an end. */
static int offered(unsigned answer, int end, const uint8_t *tag, const uint32_t *list, size_t count, const uint32_t *last)
{
    uint32_t *watch = part_of(reports, end, (RAHMISVE_WATCH_NUMBERS - numbers_beyond) * sizeof *watch);
    uint32_t *fill = part_of(recordings, end, sizeof *fill), *blocks = part_of(recordings, !end, sizeof *blocks);
    uint8_t verdict;
    int good = rahmisve_watch_begin(0, watch) == RAHMISVE_ANSWER_ACCEPTED;
    for (uint32_t i = 0; i < 2; i++) {
        good &= rahmisve_watch_offer(watch, 0, 0, tag, RAHMISVE_TAG_BYTES, list, count, &verdict, fill, blocks) == answer;
        if (answer != RAHMISVE_ANSWER_ACCEPTED)
            return good & (*fill == 0 && *blocks == 0);
        good &= verdict == (i ? RAHMISVE_VERDICT_BROKEN : RAHMISVE_VERDICT_OPENED) && *fill == i && *blocks == i;
        good &= watch[RAHMISVE_WATCH_FILL] == 1;
    }
    return good & (memcmp(watch + RAHMISVE_WATCH_LAST, last, RAHMISVE_TIME_NUMBERS * sizeof *last) == 0);
}

/* Whether this is the answer to each call with a tag by so many leap days. The tag is of the last second of the last one, and all that is
 * lent stands at an end of memory. */
static int with_days(unsigned answer, int end, uint32_t count)
{
    uint32_t *list = part_of(lists, end, (count - days_beyond) * sizeof *list);
    uint32_t *time = part_of(rooms, end, RAHMISVE_TIME_NUMBERS * sizeof *time);
    uint8_t *tag = bytes_at(end, RAHMISVE_TAG_BYTES);
    const uint32_t last[RAHMISVE_TIME_NUMBERS] = {1949 + count, 181, 23, 59, count ? 60 : 59, 999, 1};
    int64_t ms;
    for (uint32_t i = 0; i < count - days_beyond; i++)
        list[i] = (1950 + i) * 1000 + 181;
    memcpy(time, last, sizeof last);
    int good = rahmisve_write_tag(time, list, count, tag) == answer;
    good &= rahmisve_read_tag(tag, RAHMISVE_TAG_BYTES, list, count, time) == answer;
    good &= rahmisve_elapsed(tag, RAHMISVE_TAG_BYTES, tag, RAHMISVE_TAG_BYTES, list, count, &ms) == answer && ms == 0;
    good &= offered(answer, end, tag, list, count, last);
    return good & (answer != RAHMISVE_ANSWER_ACCEPTED || memcmp(time, last, sizeof last) == 0);
}

static void all_lists(void)
{
    int good = with_days(RAHMISVE_ANSWER_BAD_LEAP_DAYS, 1, RAHMISVE_MOST_LEAP_DAYS + 1) &
               with_days(RAHMISVE_ANSWER_BAD_LEAP_DAYS, 0, RAHMISVE_MOST_LEAP_DAYS + 1);
    for (uint32_t count = 0; count <= RAHMISVE_MOST_LEAP_DAYS; count++)
        good &= with_days(RAHMISVE_ANSWER_ACCEPTED, 1, count) & with_days(RAHMISVE_ANSWER_ACCEPTED, 0, count);
    printf("%s - leap days, of every count, their tags and a watch, where memory ends, and where it begins\n", good ? "ok" : "not ok");
    all_good &= good;
}

/* ---- the Sounder's status */

/* How much of the block, of its status and of what is said of its tags lies behind its memory: nothing, but where a fault is asked for. */
static struct {
    size_t words, numbers, tags;
} behind;

/* Puts a good block there, of which only the last detector is suspect; its tags are zeros, and bad. */
static void put_status(uint16_t *words, size_t count)
{
    memset(words, 0, count * sizeof *words);
    for (size_t word = 182; word <= 194; word += 2)
        words[word - 1] = 5;
    words[42 - 1] = 0x10;
}

/* Whether this is the answer to a block of so many words by so many leap days, and to a question for its last detector. All that is lent
 * stands at an end of memory. */
static int with_status(unsigned answer, int end, size_t count, uint32_t days)
{
    uint16_t *words = words_at(end, count - behind.words);
    uint32_t *list = part_of(lists, end, days * sizeof *list);
    uint32_t *status = part_of(reports, end, (RAHMISVE_SOUNDER_NUMBERS - behind.numbers) * sizeof *status);
    uint32_t(*tags)[RAHMISVE_SOUNDER_TAG_NUMBERS] =
        part_of(recordings, end, RAHMISVE_SOUNDER_TAGS * sizeof *tags - behind.tags * sizeof **tags);
    uint32_t *word = part_of(fields, end, sizeof *word);
    uint8_t *suspect = part_of(recordings, !end, sizeof *suspect);
    int accepted = answer == RAHMISVE_ANSWER_ACCEPTED;
    put_status(words, count - behind.words);
    for (uint32_t i = 0; i < days; i++)
        list[i] = (1950 + i) * 1000 + 181;
    int good = rahmisve_sounder_status(words, count, list, days, status, tags) == answer;
    good &= status[RAHMISVE_SOUNDER_SUSPECTS] == (accepted ? 1 : 0) && status[RAHMISVE_SOUNDER_FRAME_SOUTH] == (accepted ? 5 : 0);
    for (int i = 0; i < RAHMISVE_SOUNDER_TAGS; i++)
        good &= tags[i][RAHMISVE_SOUNDER_TAG_ANSWER] == (accepted ? RAHMISVE_ANSWER_BAD_TAG : 0);
    good &= rahmisve_sounder_suspect(words, count, list, days, 19, 4, word, suspect) == answer;
    return good & (*word == 0 && *suspect == accepted);
}

static void all_of_status(void)
{
    enum { WORDS = RAHMISVE_SOUNDER_WORDS, DAYS = RAHMISVE_MOST_LEAP_DAYS };
    int good = 1;
    for (int end = 0; end < 2; end++) {
        good &= with_status(RAHMISVE_ANSWER_ACCEPTED, end, WORDS, 0) & with_status(RAHMISVE_ANSWER_ACCEPTED, end, WORDS, DAYS);
        good &= with_status(RAHMISVE_ANSWER_WRONG_LENGTH, end, WORDS - 1, 0) & with_status(RAHMISVE_ANSWER_WRONG_LENGTH, end, WORDS + 1, 0);
        good &= with_status(RAHMISVE_ANSWER_BAD_LEAP_DAYS, end, WORDS, DAYS + 1);
    }
    printf("%s - the Sounder's status, where memory ends, and where it begins\n", good ? "ok" : "not ok");
    all_good &= good;
}

/* ---- more than there is */

/* Whether it went well, which it cannot: words for a byte that is behind the memory or in front of it, or one word more than there are; or
 * salvage with the last of what it uses, a byte, a number or a word, behind the memory; or a tag with the last of its leap days there; or a
 * watch of ten numbers, as version 4 had it; or the Sounder's status with the last word of its block behind the memory, or the last number
 * of a place. */
static int lent_too_much(char what)
{
    const uint16_t *words = words_at(1, 20);
    switch (what) {
    case 't':
        return rahmisve_take_words(bytes_at(1, 24), 25, 10, 20, words_at(1, 20), 20) == RAHMISVE_ANSWER_ACCEPTED;
    case 'p':
        return rahmisve_put_words(words, 20, 10, bytes_at(1, 24), 25) == RAHMISVE_ANSWER_ACCEPTED;
    case 'w':
        return rahmisve_put_words(words, 21, 10, bytes_at(1, 27), 27) == RAHMISVE_ANSWER_ACCEPTED;
    case 'i':
        beyond.bytes = 1;
        return salvaged(RAHMISVE_ANSWER_ACCEPTED, 1, 0, make_block(68), 0);
    case 'r':
        beyond.recording = 1;
        return salvaged(RAHMISVE_ANSWER_ACCEPTED, 1, 0, make_block(68), 0);
    case 'e':
        beyond.numbers = 1;
        return salvaged(RAHMISVE_ANSWER_ACCEPTED, 1, 1, make_block(68), 1);
    case 's':
        beyond.words = 1;
        return salvaged(RAHMISVE_ANSWER_ACCEPTED, 1, 0, make_block(RAHMISVE_MOST_WORDS), 0);
    case 'd':
        days_beyond = 1;
        return with_days(RAHMISVE_ANSWER_ACCEPTED, 1, 3);
    case 'n':
        numbers_beyond = 1;
        return with_days(RAHMISVE_ANSWER_ACCEPTED, 1, 3);
    case 'b':
        behind.words = 1;
        return with_status(RAHMISVE_ANSWER_ACCEPTED, 1, RAHMISVE_SOUNDER_WORDS, 0);
    case 'c':
        behind.numbers = 1;
        return with_status(RAHMISVE_ANSWER_ACCEPTED, 1, RAHMISVE_SOUNDER_WORDS, 0);
    case 'v':
        behind.tags = 1;
        return with_status(RAHMISVE_ANSWER_ACCEPTED, 1, RAHMISVE_SOUNDER_WORDS, 0);
    default:
        return rahmisve_put_words(words, 20, 10, bytes_at(0, 25) - 1, 25) == RAHMISVE_ANSWER_ACCEPTED;
    }
}

int main(int argc, char **argv)
{
    if (!has_ends(&fields) || !has_ends(&rooms) || !has_ends(&recordings) || !has_ends(&reports) || !has_ends(&lists)) {
        perror("mmap");
        return 2;
    }
    if (argc > 1)
        return lent_too_much(argv[1][0]);
    for (unsigned size = 1; size <= 16; size++)
        told(all_taken(size), size, "are taken where memory ends, and where it begins");
    for (unsigned size = 1; size <= 16; size++)
        told(all_put(size), size, "are put where memory ends, and where it begins, with any fill behind them");
    for (unsigned size = 1; size < 16; size++)
        told(all_refused(size), size, "with one too large among them are refused, and the field is as it was");
    told_of_salvage(all_salvaged(68), "a short block among junk");
    told_of_salvage(all_salvaged(RAHMISVE_MOST_WORDS), "the longest block among junk");
    told_of_salvage(all_stopped(68) & all_stopped(RAHMISVE_MOST_WORDS), "blocks that stop");
    all_lists();
    all_of_status();
    return !all_good;
}
