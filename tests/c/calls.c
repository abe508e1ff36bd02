/* Calls each function of include/rahmisve.h with values that would show a parameter in the wrong place or of the wrong width, with empty
 * buffers at NULL, at odd addresses, and into every refusal that it has. What is expected is worked out here, bit by bit, or written
 * down; nothing is asked of the library twice. Prints a line `ok - ..` or `not ok - ..` for each thing tried.
 *
 * It needs no header but those for the types, so that it can be built where a C library has none. */
#include "rahmisve.h"

int printf(const char *, ...);
int memcmp(const void *, const void *, size_t);
int strcmp(const char *, const char *);
size_t strlen(const char *);
void *memcpy(void *, const void *, size_t);
void *memset(void *, int, size_t);

static int good, all_good = 1;

#define IS(what) ((what) ? (void)0 : (void)(good = 0, printf("# line %d: not so: %s\n", __LINE__, #what)))

static void told(const char *what)
{
    printf("%s - %s\n", good ? "ok" : "not ok", what);
    all_good &= good;
    good = 1;
}

/* ---- the format once more, plain and slow --------------------------------------------------------------------------------------- */

#define MOST_FIELD (RAHMISVE_MOST_BYTES - RAHMISVE_AROUND_BYTES) /* bytes of the longest field */

static unsigned crc(const uint8_t *bytes, size_t n)
{
    unsigned long reg = 0xFFFF;
    for (size_t i = 0; i < 8 * n; i++) {
        unsigned bit = (unsigned)bytes[i / 8] >> (7 - i % 8) & 1u;
        reg = (reg << 1 & 0xFFFF) ^ (((reg >> 15 & 1) ^ bit) ? 0x1021u : 0u);
    }
    return (unsigned)(~reg & 0xFFFF);
}

static void seal(uint8_t *message, size_t n)
{
    unsigned check = crc(message, n);
    message[n] = (uint8_t)(check >> 8);
    message[n + 1] = (uint8_t)(check & 255);
}

static void pack(uint8_t *field, size_t bytes, const uint16_t *words, size_t count, unsigned size)
{
    memset(field, 0, bytes);
    for (size_t i = 0; i < count * size; i++)
        if (words[i / size] >> (size - 1 - i % size) & 1)
            field[i / 8] = (uint8_t)(field[i / 8] | 128u >> i % 8);
}

/* A header whose 28 bytes all differ from one another but where they say something. */
static void head(uint8_t *header, unsigned id, unsigned size, unsigned count, unsigned version)
{
    for (unsigned i = 0; i < 28; i++)
        header[i] = (uint8_t)(0x80 + 3 * i);
    header[RAHMISVE_HEADER_ID] = (uint8_t)id;
    header[RAHMISVE_HEADER_SIZE] = (uint8_t)size;
    header[RAHMISVE_HEADER_COUNT] = (uint8_t)((count + RAHMISVE_EXTRA_WORDS) >> 8);
    header[RAHMISVE_HEADER_COUNT + 1] = (uint8_t)((count + RAHMISVE_EXTRA_WORDS) & 255);
    header[RAHMISVE_HEADER_VERSION] = (uint8_t)version;
}

static void copies_of(uint8_t *block, const uint8_t *header)
{
    for (int k = 0; k < 3; k++) {
        memcpy(block + 30 * k, header, 28);
        seal(block + 30 * k, 28);
    }
}

/* ---- room with something around it ---------------------------------------------------------------------------------------------- */

/* Buffers in these, at odd addresses and, for words, at ones that are no multiple of 4. */
static uint8_t bytes_here[30000], bytes_there[30000], was_bytes[30000];
static uint16_t words_here[24000], words_there[24000], was_words[24000];

static void stir_bytes(uint8_t *all, size_t n)
{
    for (size_t i = 0; i < n; i++)
        all[i] = (uint8_t)(i * 7 + 3);
}

static void stir_words(uint16_t *all, size_t n)
{
    for (size_t i = 0; i < n; i++)
        all[i] = (uint16_t)(i * 40503u + 77);
}

/* Places for answers, all ones before a call and with ones around them: what is not written, or only in part, shows. */
static struct {
    size_t count[7];
    int64_t ms[3];
    uint64_t seq[3];
    uint32_t time[9], fill[5], status[15], tags[17][8];
    uint8_t byte[11], header[30], copies[5], holds[6], tag[10];
} at;

static void fresh(void) { memset(&at, 0xFF, sizeof at); }

static int ones(const void *from, size_t n)
{
    const uint8_t *p = from;
    while (n--)
        if (*p++ != 0xFF)
            return 0;
    return 1;
}

static int zeros(const void *from, size_t n)
{
    const uint8_t *p = from;
    while (n--)
        if (*p++ != 0)
            return 0;
    return 1;
}

/* ---- version and answers -------------------------------------------------------------------------------------------------------- */

#define NUMBER(name, number, text) number,
#define TEXT(name, number, text) text,
#define NAMED(name, number, text) IS(RAHMISVE_ANSWER_##name == number);

static void version_and_answers(void)
{
    static const unsigned numbers[] = {RAHMISVE_ANSWERS(NUMBER)};
    static const char *const texts[] = {RAHMISVE_ANSWERS(TEXT)};
    IS(rahmisve_version() == RAHMISVE_VERSION);
    told("version: the archive is of the header's");
    RAHMISVE_ANSWERS(NAMED)
    IS(sizeof numbers / sizeof *numbers == RAHMISVE_ANSWER_NUMBERS);
    for (unsigned i = 0; i < RAHMISVE_ANSWER_NUMBERS; i++) {
        IS(numbers[i] == i && texts[i][0] != 0);
        for (unsigned k = 0; k < i; k++)
            IS(strcmp(texts[k], texts[i]) != 0);
    }
    told("the answers rise from 0 without a gap, each with a text of its own, so that a table of texts is one");
}

/* ---- the check word ------------------------------------------------------------------------------------------------------------- */

static void check_word(void)
{
    IS(rahmisve_check_word((const uint8_t *)"123456789", 9) == 0xD64E);
    IS(rahmisve_check_word((const uint8_t *)"123456789", 8) == crc((const uint8_t *)"12345678", 8));
    IS(rahmisve_check_word(NULL, 0) == 0);
    told("check_word: the vector, and nothing at NULL");
    stir_bytes(bytes_here, 30000);
    for (size_t n = 0; n < 300; n++)
        IS(rahmisve_check_word(bytes_here + n % 16, n) == crc(bytes_here + n % 16, n));
    IS(rahmisve_check_word(bytes_here + 1, MOST_FIELD) == crc(bytes_here + 1, MOST_FIELD));
    static uint8_t longer[65536 + 9];
    stir_bytes(longer, sizeof longer);
    IS(rahmisve_check_word(longer, sizeof longer) == crc(longer, sizeof longer));
    told("check_word: every length to 300, at every address, and long ones");
}

/* ---- fields --------------------------------------------------------------------------------------------------------------------- */

static void words_of_a_field(void)
{
    static const uint8_t tens[] = {0x00, 0x40, 0x20, 0x0C, 0x04}, sixes[] = {0x04, 0x20, 0xC4};
    static const uint16_t ws[] = {1, 2, 3, 4};
    uint16_t room[6] = {9, 9, 9, 9, 9, 9};
    IS(rahmisve_take_words(tens, 5, 10, 4, room + 1, 5) == 0);
    IS(room[0] == 9 && memcmp(room + 1, ws, 8) == 0 && room[5] == 9);
    IS(rahmisve_take_words(sixes, 3, 6, 3, room, 3) == 0 && memcmp(room, ws, 6) == 0 && room[3] == 3);
    IS(rahmisve_take_words(NULL, 0, 10, 0, NULL, 0) == 0);
    told("take_words: the printed examples, and none out of nothing");
    uint16_t was[6];
    memcpy(was, room, sizeof room);
    IS(rahmisve_take_words(tens, 5, 0, 1, room, 6) == RAHMISVE_ANSWER_WRONG_SIZE);
    IS(rahmisve_take_words(tens, 5, 17, 1, room, 6) == RAHMISVE_ANSWER_WRONG_SIZE);
    IS(rahmisve_take_words(tens, 5, 256 + 10, 1, room, 6) == RAHMISVE_ANSWER_WRONG_SIZE);
    IS(rahmisve_take_words(tens, 5, 10, 5, room, 6) == RAHMISVE_ANSWER_WRONG_LENGTH);
    IS(rahmisve_take_words(tens, 5, 10, (size_t)-1, room, 6) == RAHMISVE_ANSWER_WRONG_LENGTH);
    IS(rahmisve_take_words(NULL, 0, 1, 1, room, 6) == RAHMISVE_ANSWER_WRONG_LENGTH);
    IS(rahmisve_take_words(tens, 5, 10, 4, room, 3) == RAHMISVE_ANSWER_SMALL_ROOM);
    IS(rahmisve_take_words(tens, 5, 10, 4, NULL, 0) == RAHMISVE_ANSWER_SMALL_ROOM);
    IS(memcmp(was, room, sizeof room) == 0);
    told("take_words: its refusals leave the room");

    uint8_t field[9];
    memset(field, 0xEE, sizeof field);
    IS(rahmisve_put_words(ws, 4, 10, field + 1, 7) == 0);
    IS(field[0] == 0xEE && memcmp(field + 1, tens, 5) == 0 && field[6] == 0 && field[7] == 0 && field[8] == 0xEE);
    IS(rahmisve_put_words(ws, 4, 6, field, 3) == 0 && memcmp(field, sixes, 3) == 0 && field[3] == tens[2]);
    IS(rahmisve_put_words(NULL, 0, 6, NULL, 0) == 0);
    IS(rahmisve_put_words(NULL, 0, 6, field, 2) == 0 && field[0] == 0 && field[1] == 0 && field[2] == sixes[2]);
    told("put_words: the printed examples, zeros behind them, and none into nothing");
    uint8_t kept[9];
    memcpy(kept, field, sizeof field);
    static const uint16_t large[] = {1, 1024};
    IS(rahmisve_put_words(ws, 4, 0, field, 9) == RAHMISVE_ANSWER_WRONG_SIZE);
    IS(rahmisve_put_words(ws, 4, 256 + 10, field, 9) == RAHMISVE_ANSWER_WRONG_SIZE);
    IS(rahmisve_put_words(ws, 4, 10, field, 4) == RAHMISVE_ANSWER_SMALL_ROOM);
    IS(rahmisve_put_words(ws, 4, 10, NULL, 0) == RAHMISVE_ANSWER_SMALL_ROOM);
    IS(rahmisve_put_words(large, 2, 10, field, 9) == RAHMISVE_ANSWER_LARGE_WORD);
    IS(memcmp(kept, field, sizeof field) == 0);
    told("put_words: its refusals leave the field");
}

/* ---- the writer and the reader -------------------------------------------------------------------------------------------------- */

static uint8_t header_here[28];

/* A block of these words, made plain and slow. */
static size_t block_of(uint8_t *block, const uint16_t *words, size_t count, unsigned size, size_t field)
{
    copies_of(block, header_here);
    pack(block + 90, field, words, count, size);
    seal(block + 90, field);
    return 92 + field;
}

static void stir_to(uint16_t *words, size_t count, unsigned size)
{
    stir_words(words, count);
    for (size_t i = 0; i < count; i++)
        words[i] = (uint16_t)(words[i] & ((1u << size) - 1));
}

/* Writes and reads one block, with more room than it needs, and compares every byte and word. */
static void there_and_back(unsigned id, unsigned size, size_t count, unsigned version, size_t field)
{
    size_t length = 92 + field;
    head(header_here, id, size, (unsigned)count, version);
    stir_to(words_here, count, size);
    stir_bytes(bytes_here, 30000);
    stir_bytes(bytes_there, 30000);
    block_of(bytes_there + 1, words_here, count, size, field);
    fresh();
    IS(rahmisve_write(header_here, 28, words_here, count, bytes_here + 1, length + 11, &at.count[1]) == 0);
    IS(at.count[1] == length && ones(&at.count[0], 8) && ones(&at.count[2], 8));
    IS(memcmp(bytes_here, bytes_there, 30000) == 0);

    stir_words(words_there, 24000);
    memcpy(was_words, words_there, sizeof was_words);
    memcpy(was_words + 1, words_here, 2 * count);
    fresh();
    IS(rahmisve_read(bytes_there + 1, length, words_there + 1, count + 7, at.header + 1, at.copies + 1, &at.count[1]) == 0);
    IS(at.count[1] == count && ones(&at.count[0], 8) && ones(&at.count[2], 8));
    IS(memcmp(at.header + 1, header_here, 28) == 0 && at.header[0] == 0xFF && at.header[29] == 0xFF);
    IS(at.copies[1] == 1 && at.copies[2] == 1 && at.copies[3] == 1 && at.copies[0] == 0xFF && at.copies[4] == 0xFF);
    IS(memcmp(words_there, was_words, sizeof was_words) == 0);
    IS(memcmp(bytes_here, bytes_there, 30000) == 0);
}

static void good_blocks(void)
{
    there_and_back(RAHMISVE_BLOCK_0_ID, 8, 8040, 0, 8040);
    there_and_back(1, 10, 68, 1, 2680);
    there_and_back(1, 10, RAHMISVE_MOST_WORDS, 3, MOST_FIELD);
    there_and_back(2, 10, 15756, 2, 19696);
    there_and_back(3, 10, 20, 2, 2680);
    there_and_back(10, 10, 20960, 0, 26200);
    there_and_back(11, 6, 10720, 1, 8040);
    there_and_back(11, 8, 8040, 2, 8040);
    there_and_back(11, 10, 6432, 3, 8040);
    told("write and read: a block of each row, byte for byte and word for word, nothing behind it changed");
}

/* The writer refuses with `number`: no bytes are counted, and the room is as it was. */
static void not_written(unsigned number, const uint8_t *header, size_t header_length, const uint16_t *words, size_t count, size_t room)
{
    stir_bytes(bytes_here, 30000);
    memcpy(was_bytes, bytes_here, sizeof was_bytes);
    fresh();
    IS(rahmisve_write(header, header_length, words, count, room ? bytes_here + 3 : NULL, room, &at.count[1]) == number);
    IS(at.count[1] == 0 && ones(&at.count[0], 8) && ones(&at.count[2], 8));
    IS(memcmp(bytes_here, was_bytes, sizeof was_bytes) == 0);
}

static void refused_by_the_writer(void)
{
    uint8_t h[29];
    memset(h, 0, sizeof h);
    head(h, 1, 10, 68, 2);
    stir_to(words_here, 69, 10);
    not_written(RAHMISVE_ANSWER_NO_HEADER, NULL, 0, words_here, 68, 2772);
    not_written(RAHMISVE_ANSWER_NO_HEADER, h, 27, words_here, 68, 2772);
    not_written(RAHMISVE_ANSWER_NO_HEADER, h, 29, words_here, 68, 2772);
    not_written(RAHMISVE_ANSWER_WRONG_LENGTH, h, 28, NULL, 0, 2772);
    not_written(RAHMISVE_ANSWER_WRONG_LENGTH, h, 28, words_here, 67, 2772);
    not_written(RAHMISVE_ANSWER_WRONG_LENGTH, h, 28, words_here, 69, 2772);
    not_written(RAHMISVE_ANSWER_SMALL_ROOM, h, 28, words_here, 68, 2771);
    not_written(RAHMISVE_ANSWER_SMALL_ROOM, h, 28, words_here, 68, 0);
    words_here[67] = 1024;
    not_written(RAHMISVE_ANSWER_LARGE_WORD, h, 28, words_here, 68, 2772);
    head(h, 12, 10, 68, 2);
    not_written(RAHMISVE_ANSWER_UNKNOWN_BLOCK, h, 28, words_here, 68, 2772);
    head(h, 1, 10, 68, 4);
    not_written(RAHMISVE_ANSWER_UNKNOWN_VERSION, h, 28, words_here, 68, 2772);
    head(h, 1, 8, 68, 2);
    not_written(RAHMISVE_ANSWER_WRONG_SIZE, h, 28, words_here, 68, 2772);
    head(h, 1, 10, 64, 2);
    not_written(RAHMISVE_ANSWER_WRONG_COUNT, h, 28, words_here, 64, 2772);
    told("write: its refusals leave the room and count no bytes");
}

/* Reads the block at bytes_there + 1, and room for `room` words. */
static unsigned read_there(size_t length, size_t room)
{
    stir_words(words_there, 24000);
    memcpy(was_words, words_there, sizeof was_words);
    fresh();
    return rahmisve_read(length ? bytes_there + 1 : NULL, length, room ? words_there + 1 : NULL, room, at.header + 1, at.copies + 1,
                         &at.count[1]);
}

static void not_read(unsigned number, size_t length, size_t room)
{
    memcpy(was_bytes, bytes_there, sizeof was_bytes);
    IS(read_there(length, room) == number);
    IS(at.count[1] == 0 && ones(&at.count[0], 8) && ones(&at.count[2], 8));
    IS(zeros(at.header + 1, 28) && at.header[0] == 0xFF && at.header[29] == 0xFF);
    IS(zeros(at.copies + 1, 3) && at.copies[0] == 0xFF && at.copies[4] == 0xFF);
    IS(memcmp(words_there, was_words, sizeof was_words) == 0);
    IS(memcmp(bytes_there, was_bytes, sizeof was_bytes) == 0);
}

/* A block 1 of 68 words at bytes_there + 1. */
static uint8_t *a_block(void)
{
    head(header_here, 1, 10, 68, 2);
    stir_to(words_here, 68, 10);
    stir_bytes(bytes_there, 30000);
    block_of(bytes_there + 1, words_here, 68, 10, 2680);
    return bytes_there + 1;
}

static void copies_that_pass(void)
{
    for (unsigned damaged = 0; damaged < 7; damaged++) {
        uint8_t *block = a_block();
        for (unsigned k = 0; k < 3; k++)
            if (damaged >> k & 1)
                block[30 * k + 5 + k] ^= 0x10;
        IS(read_there(2772, 68) == 0);
        for (unsigned k = 0; k < 3; k++)
            IS(at.copies[k + 1] == (damaged >> k & 1 ? 0 : 1));
        IS(at.count[1] == 68 && memcmp(at.header + 1, header_here, 28) == 0 && memcmp(words_there + 1, words_here, 136) == 0);
    }
    told("read: each set of header copies that pass, in its order");
}

static void refused_by_the_reader(void)
{
    uint8_t *block = a_block();
    not_read(RAHMISVE_ANSWER_NO_HEADER, 0, 0);
    not_read(RAHMISVE_ANSWER_NO_HEADER, 89, 68);
    not_read(RAHMISVE_ANSWER_WRONG_LENGTH, 90, 68);
    not_read(RAHMISVE_ANSWER_WRONG_LENGTH, 2771, 68);
    not_read(RAHMISVE_ANSWER_WRONG_LENGTH, 2773, 68);
    not_read(RAHMISVE_ANSWER_SMALL_ROOM, 2772, 67);
    not_read(RAHMISVE_ANSWER_SMALL_ROOM, 2772, 0);
    block[90 + 2679] ^= 1;
    not_read(RAHMISVE_ANSWER_CHECK_DISAGREES, 2772, 68);
    seal(block + 90, 2680);
    not_read(RAHMISVE_ANSWER_FILL_NOT_ZERO, 2772, 68);
    block = a_block();
    block[31] ^= 1;
    seal(block + 30, 28);
    not_read(RAHMISVE_ANSWER_COPIES_DIFFER, 2772, 68);
    block = a_block();
    block[29] ^= 1;
    block[59] ^= 1;
    block[89] ^= 1;
    not_read(RAHMISVE_ANSWER_NO_COPY_PASSES, 2772, 68);
    static const unsigned wrong[][5] = {
        {RAHMISVE_ANSWER_UNKNOWN_BLOCK, 0, 10, 68, 2},   {RAHMISVE_ANSWER_UNKNOWN_BLOCK, 15, 10, 68, 2},
        {RAHMISVE_ANSWER_UNKNOWN_VERSION, 1, 10, 68, 4}, {RAHMISVE_ANSWER_WRONG_SIZE, 1, 8, 68, 2},
        {RAHMISVE_ANSWER_WRONG_COUNT, 1, 10, 64, 2},     {RAHMISVE_ANSWER_WRONG_COUNT, 1, 10, RAHMISVE_MOST_WORDS + 4, 2},
        {RAHMISVE_ANSWER_WRONG_COUNT, 1, 10, 65535, 2},
    };
    for (size_t i = 0; i < sizeof wrong / sizeof *wrong; i++) {
        block = a_block();
        head(header_here, wrong[i][1], wrong[i][2], wrong[i][3], wrong[i][4]);
        copies_of(block, header_here);
        not_read(wrong[i][0], 2772, 68);
    }
    told("read: its refusals leave the room and give zeros");
}

/* ---- what a header asks for ----------------------------------------------------------------------------------------------------- */

static void planned(const uint8_t *header, size_t length, unsigned number, unsigned block, unsigned version, unsigned size,
                    unsigned records, size_t words, size_t field)
{
    fresh();
    IS(rahmisve_plan(header, length, &at.byte[1], &at.byte[3], &at.byte[5], &at.byte[7], &at.count[1], &at.count[3]) == number);
    IS(at.byte[1] == block && at.byte[3] == version && at.byte[5] == size && at.byte[7] == records);
    IS(at.count[1] == words && at.count[3] == field);
    for (int i = 0; i < 9; i += 2)
        IS(at.byte[i] == 0xFF);
    IS(ones(&at.count[0], 8) && ones(&at.count[2], 8) && ones(&at.count[4], 8));
}

static void plans(void)
{
    uint8_t h[29];
    memset(h, 0, sizeof h);
    head(h, RAHMISVE_BLOCK_0_ID, 8, 8040, 3);
    planned(h, 28, 0, 0, 3, 8, 0, 8040, 8040);
    head(h, 1, 10, RAHMISVE_MOST_WORDS, 2);
    planned(h, 28, 0, 1, 2, 10, 4, RAHMISVE_MOST_WORDS, MOST_FIELD);
    head(h, 2, 10, 54, 1);
    planned(h, 28, 0, 2, 1, 10, 3, 54, 2680);
    head(h, 2, 10, RAHMISVE_MOST_WORDS, 3);
    planned(h, 28, 0, 2, 3, 10, 4, RAHMISVE_MOST_WORDS, MOST_FIELD);
    head(h, 7, 10, 20, 3);
    planned(h, 28, 0, 7, 3, 10, 1, 20, 2680);
    head(h, 11, 6, 10720, 0);
    planned(h, 28, 0, 11, 0, 6, 0, 10720, 8040);
    told("plan: each number in its place");
    planned(NULL, 0, RAHMISVE_ANSWER_NO_HEADER, 0, 0, 0, 0, 0, 0);
    planned(h, 27, RAHMISVE_ANSWER_NO_HEADER, 0, 0, 0, 0, 0, 0);
    planned(h, 29, RAHMISVE_ANSWER_NO_HEADER, 0, 0, 0, 0, 0, 0);
    head(h, 255, 6, 10720, 0);
    planned(h, 28, RAHMISVE_ANSWER_UNKNOWN_BLOCK, 0, 0, 0, 0, 0, 0);
    head(h, 11, 6, 10720, 255);
    planned(h, 28, RAHMISVE_ANSWER_UNKNOWN_VERSION, 0, 0, 0, 0, 0, 0);
    head(h, 11, 7, 10720, 0);
    planned(h, 28, RAHMISVE_ANSWER_WRONG_SIZE, 0, 0, 0, 0, 0, 0);
    head(h, 11, 8, 10720, 0);
    planned(h, 28, RAHMISVE_ANSWER_WRONG_COUNT, 0, 0, 0, 0, 0, 0);
    told("plan: its refusals give zeros");
}

/* ---- records and placement ------------------------------------------------------------------------------------------------------ */

static void located(const uint8_t *header, size_t length, size_t words, uint32_t record, unsigned number, size_t start, size_t part)
{
    fresh();
    IS(rahmisve_record(header, length, words, record, &at.count[1], &at.count[3]) == number);
    IS(at.count[1] == start && at.count[3] == part);
    IS(ones(&at.count[0], 8) && ones(&at.count[2], 8) && ones(&at.count[4], 8));
}

static void record(void)
{
    uint8_t h[28];
    size_t part = RAHMISVE_MOST_WORDS / 4;
    head(h, 1, 10, RAHMISVE_MOST_WORDS, 2);
    for (uint32_t k = 1; k <= 4; k++)
        located(h, 28, RAHMISVE_MOST_WORDS, k, 0, (k - 1) * part, part);
    located(h, 28, (size_t)1 << 32, 2, 0, part, part);
    head(h, 2, 10, 54, 2);
    located(h, 28, 60, 3, 0, 36, 18);
    told("record: where each lies, with more words lent than a number of 32 bits holds");
    located(h, 28, 53, 3, RAHMISVE_ANSWER_SMALL_ROOM, 0, 0);
    located(h, 28, 0, 3, RAHMISVE_ANSWER_SMALL_ROOM, 0, 0);
    located(h, 28, 54, 0, RAHMISVE_ANSWER_NO_RECORD, 0, 0);
    located(h, 28, 54, 4, RAHMISVE_ANSWER_NO_RECORD, 0, 0);
    located(h, 28, 54, 256 + 1, RAHMISVE_ANSWER_NO_RECORD, 0, 0);
    located(h, 28, 54, 65536 + 1, RAHMISVE_ANSWER_NO_RECORD, 0, 0);
    located(h, 28, 54, UINT32_MAX, RAHMISVE_ANSWER_NO_RECORD, 0, 0);
    located(h, 27, 54, 1, RAHMISVE_ANSWER_NO_HEADER, 0, 0);
    located(NULL, 0, 54, 1, RAHMISVE_ANSWER_NO_HEADER, 0, 0);
    head(h, RAHMISVE_BLOCK_0_ID, 8, 8040, 2);
    located(h, 28, 8040, 1, RAHMISVE_ANSWER_NO_RECORD, 0, 0);
    head(h, 2, 10, 55, 2);
    located(h, 28, 55, 1, RAHMISVE_ANSWER_WRONG_COUNT, 0, 0);
    told("record: its refusals give an empty part");
}

static void placed(uint32_t block, uint32_t version, uint32_t k, unsigned number, unsigned channel, unsigned detector)
{
    fresh();
    IS(rahmisve_place(block, version, k, &at.byte[1], &at.byte[3]) == number);
    IS(at.byte[1] == channel && at.byte[3] == detector && at.byte[0] == 0xFF && at.byte[2] == 0xFF && at.byte[4] == 0xFF);
}

static void place(void)
{
    placed(1, 0, 3, 0, 5, 1);
    placed(1, 1, 2, 0, 4, 2);
    placed(1, 2, 4, 0, 3, 2);
    placed(2, 0, 3, 0, 3, 1);
    placed(2, 3, 1, 0, 4, 1);
    placed(2, 2, 3, 0, 6, 1);
    placed(3, 0, 1, 0, 1, 5);
    placed(10, 3, 1, 0, 1, 4);
    told("place: channel and detector, by block, version and record");
    placed(12, 9, 9, RAHMISVE_ANSWER_UNKNOWN_BLOCK, 0, 0);
    placed(256 + 1, 0, 1, RAHMISVE_ANSWER_UNKNOWN_BLOCK, 0, 0);
    placed(65536 + 1, 0, 1, RAHMISVE_ANSWER_UNKNOWN_BLOCK, 0, 0);
    placed(1, 4, 9, RAHMISVE_ANSWER_UNKNOWN_VERSION, 0, 0);
    placed(1, 256, 1, RAHMISVE_ANSWER_UNKNOWN_VERSION, 0, 0);
    placed(1, 65536, 1, RAHMISVE_ANSWER_UNKNOWN_VERSION, 0, 0);
    placed(1, 0, 0, RAHMISVE_ANSWER_NO_RECORD, 0, 0);
    placed(1, 0, 5, RAHMISVE_ANSWER_NO_RECORD, 0, 0);
    placed(1, 0, 256 + 1, RAHMISVE_ANSWER_NO_RECORD, 0, 0);
    placed(1, 0, UINT32_MAX, RAHMISVE_ANSWER_NO_RECORD, 0, 0);
    placed(0, 0, 1, RAHMISVE_ANSWER_NO_RECORD, 0, 0);
    placed(11, 0, 1, RAHMISVE_ANSWER_NO_RECORD, 0, 0);
    told("place: its refusals, of numbers too large for a byte too");
}

/* Up to version 2 block 2 has the counts of three records, in version 3 those of four; 84 is of both. */
static void second(void)
{
    uint8_t h[28];
    for (uint8_t version = 0; version < 3; version++) {
        head(h, 2, 10, 84, version);
        planned(h, 28, 0, 2, version, 10, 3, 84, 2680);
        located(h, 28, 84, 3, 0, 56, 28);
        located(h, 28, 84, 4, RAHMISVE_ANSWER_NO_RECORD, 0, 0);
        placed(2, version, 4, RAHMISVE_ANSWER_NO_RECORD, 0, 0);
        head(h, 2, 10, 51, version);
        planned(h, 28, 0, 2, version, 10, 3, 51, 2680);
        head(h, 2, 10, 68, version);
        planned(h, 28, RAHMISVE_ANSWER_WRONG_COUNT, 0, 0, 0, 0, 0, 0);
    }
    head(h, 2, 10, 84, 3);
    planned(h, 28, 0, 2, 3, 10, 4, 84, 2680);
    located(h, 28, 84, 4, 0, 63, 21);
    located(h, 28, 84, 5, RAHMISVE_ANSWER_NO_RECORD, 0, 0);
    placed(2, 3, 4, 0, 6, 2);
    placed(2, 3, 5, RAHMISVE_ANSWER_NO_RECORD, 0, 0);
    head(h, 2, 10, 51, 3);
    planned(h, 28, RAHMISVE_ANSWER_WRONG_COUNT, 0, 0, 0, 0, 0, 0);
    head(h, 2, 10, 68, 3);
    planned(h, 28, 0, 2, 3, 10, 4, 68, 2680);
    told("block 2: three records up to version 2, four in version 3");
}

/* ---- parity --------------------------------------------------------------------------------------------------------------------- */

typedef uint8_t (*layout)(const uint16_t *, size_t, uint8_t *);

static uint8_t imager(const uint16_t *words, size_t n, uint8_t *holds) { return rahmisve_parity_imager(words, n, holds); }
static uint8_t sounder(const uint16_t *words, size_t n, uint8_t *holds) { return rahmisve_parity_sounder(words, n, holds); }

/* Puts a word of section k out of order, for each k, and then the parity word behind it. */
static void sections(layout judge, int count, const int table[][3], const char *good_line, const char *refused_line)
{
    uint16_t *words = words_here + 1;
    for (int broken = 0; broken <= 2 * count; broken++) {
        stir_to(words_here, 24000, 8);
        for (int k = 0; k < count; k++) {
            uint16_t x = 0;
            for (int i = table[k][0]; i <= table[k][1]; i++)
                x = (uint16_t)(x ^ words[i - 1]);
            words[table[k][2] - 1] = x;
        }
        if (broken > 0)
            words[table[(broken - 1) / 2][broken % 2 ? 1 : 2] - 1] ^= 0x40;
        fresh();
        IS(judge(words, RAHMISVE_PARITY_WORDS, at.holds + 1) == 0);
        for (int k = 0; k < count; k++)
            IS(at.holds[k + 1] == (broken > 0 && (broken - 1) / 2 == k ? 0 : 1));
        IS(at.holds[0] == 0xFF && at.holds[count + 1] == 0xFF);
    }
    told(good_line);
    memcpy(was_words, words_here, sizeof was_words);
    for (size_t n = 8039; n <= 8041; n += 2) {
        fresh();
        IS(judge(words, n, at.holds + 1) == RAHMISVE_ANSWER_WRONG_LENGTH);
        IS(zeros(at.holds + 1, (size_t)count) && at.holds[count + 1] == 0xFF);
    }
    fresh();
    IS(judge(NULL, 0, at.holds + 1) == RAHMISVE_ANSWER_WRONG_LENGTH && zeros(at.holds + 1, (size_t)count));
    IS(memcmp(was_words, words_here, sizeof was_words) == 0);
    words[8039] = 256;
    fresh();
    IS(judge(words, 8040, at.holds + 1) == RAHMISVE_ANSWER_LARGE_WORD && zeros(at.holds + 1, (size_t)count) && at.holds[count + 1] == 0xFF);
    told(refused_line);
}

static void parity(void)
{
    static const int of_imager[][3] = {{1, 221, 222}, {223, 701, 702}, {703, 1181, 1182}, {1183, 7902, 7906}};
    static const int of_sounder[][3] = {{1, 221, 222}, {223, 2926, 2927}};
    sections(imager, 4, of_imager, "parity_imager: each section by itself", "parity_imager: its refusals give zeros");
    sections(sounder, 2, of_sounder, "parity_sounder: each section by itself", "parity_sounder: its refusals give zeros");
}

/* ---- leap days ------------------------------------------------------------------------------------------------------------------ */

enum { MOST_DAYS = RAHMISVE_MOST_LEAP_DAYS };

/* The list that is lent from here on, with something around it; at first there is none. */
static uint32_t list_room[MOST_DAYS + 3], was_list[MOST_DAYS + 3], *days;
static size_t days_length;

static void lend(const uint32_t *list, size_t length)
{
    memset(list_room, 0x77, sizeof list_room);
    memcpy(list_room + 1, list, length * sizeof *list);
    memcpy(was_list, list_room, sizeof list_room);
    days = list_room + 1;
    days_length = length;
}

static void lend_none(void)
{
    days = NULL;
    days_length = 0;
}

/* A list of one day. */
static void lend_day(uint32_t day) { lend(&day, 1); }

/* Day 181 of so many years, from 1950 on. */
static void lend_many(size_t length)
{
    uint32_t list[MOST_DAYS + 1];
    for (size_t i = 0; i < length; i++)
        list[i] = (uint32_t)(1950 + i) * 1000 + 181;
    lend(list, length);
}

static int list_is_kept(void) { return memcmp(list_room, was_list, sizeof list_room) == 0; }

/* Makes the call with each list that is refused: a number that is no day, or would be one in fewer bits; a day that equals the one before
 * it, lies before that or is impossible, at every place of the longest list; one day too many. */
static void with_bad_lists(void (*call)(void))
{
    static const uint32_t no_days[] = {
        0, 1000, 2016000, 2015366, 2016367, 2016999, 1900366, 9999366, 10000001, 65536000 + 2016366, 0x80000000u + 2016366, UINT32_MAX,
    };
    for (size_t i = 0; i < sizeof no_days / sizeof *no_days; i++) {
        lend_day(no_days[i]);
        call();
    }
    for (size_t i = 0; i < MOST_DAYS; i++)
        for (unsigned way = i ? 0 : 2; way < 3; way++) {
            lend_many(MOST_DAYS);
            days[i] = way == 2 ? days[i] + 186 : days[i - 1] - way;
            memcpy(was_list, list_room, sizeof list_room);
            call();
        }
    lend_many(MOST_DAYS + 1);
    call();
    lend_none();
}

/* ---- tags ----------------------------------------------------------------------------------------------------------------------- */

static const uint8_t day_60[9] = {0x20, 0x08, 0x06, 0x02, 0x35, 0x95, 0x99, 0x99, 0x00};
static const uint8_t day_61[8] = {0x20, 0x08, 0x06, 0x10, 0x00, 0x00, 0x00, 0x00};
static const uint8_t marked_tag[8] = {0x19, 0x87, 0xA3, 0x42, 0x14, 0x35, 0x67, 0x89};
static const uint32_t marked_time[7] = {1987, 234, 21, 43, 56, 789, 1};

/* A time and its tag, digit by digit, at the end of a leap day and elsewhere. */
static uint32_t time_here[7];
static uint8_t tag_here[8];

static void at_time(uint32_t year, uint32_t day, uint32_t hour, uint32_t minute, uint32_t second, uint32_t ms)
{
    const uint32_t numbers[6] = {year, day, hour, minute, second, ms};
    static const unsigned digits[6] = {4, 3, 2, 2, 2, 3};
    unsigned end = 0;
    memset(tag_here, 0, sizeof tag_here);
    memset(time_here, 0, sizeof time_here);
    for (int i = 0; i < 6; i++) {
        uint32_t rest = time_here[i] = numbers[i];
        end += digits[i];
        for (unsigned k = 1; k <= digits[i]; k++, rest /= 10)
            tag_here[(end - k) / 2] = (uint8_t)(tag_here[(end - k) / 2] | rest % 10 << ((end - k) % 2 ? 0 : 4));
    }
}

/* Reads that tag by the days that are lent, and writes it; the answer of both. */
static unsigned read_and_written(void)
{
    fresh();
    unsigned number = rahmisve_read_tag(tag_here, 8, days, days_length, at.time + 1);
    IS(number == 0 ? memcmp(at.time + 1, time_here, 28) == 0 : zeros(at.time + 1, 28));
    IS(rahmisve_write_tag(time_here, days, days_length, at.tag + 1) == number);
    IS(number == 0 ? memcmp(at.tag + 1, tag_here, 8) == 0 : zeros(at.tag + 1, 8));
    IS(ones(at.time, 4) && ones(at.time + 8, 4) && at.tag[0] == 0xFF && at.tag[9] == 0xFF);
    IS(days_length == 0 || list_is_kept());
    return number;
}

static void leap_seconds(void)
{
    static const uint32_t three[] = {2008366, 2015181, 2016366};
    lend(three, 3);
    for (uint32_t ms = 0; ms < 1000; ms += 333) {
        at_time(2016, 366, 23, 59, 60, ms);
        IS(read_and_written() == 0);
    }
    for (uint32_t minute = 0; minute < 24 * 60; minute++) {
        at_time(2015, 181, minute / 60, minute % 60, 60, 999);
        IS(read_and_written() == (minute == 24 * 60 - 1 ? 0 : RAHMISVE_ANSWER_BAD_TAG));
    }
    at_time(2016, 366, 23, 59, 61, 0);
    IS(read_and_written() == RAHMISVE_ANSWER_BAD_TAG);
    for (uint32_t day = 1; day <= 366; day++) {
        at_time(2016, day, 23, 59, 60, 0);
        IS(read_and_written() == (day == 366 ? 0 : RAHMISVE_ANSWER_BAD_TAG));
    }
    told("leap seconds: second 60 is good at 23:59 of a listed day, and at no other minute and on no other day");
    at_time(2016, 366, 23, 59, 60, 999);
    lend_none();
    IS(read_and_written() == RAHMISVE_ANSWER_BAD_TAG);
    lend_day(2016365);
    IS(read_and_written() == RAHMISVE_ANSWER_BAD_TAG);
    lend(three, 2);
    IS(read_and_written() == RAHMISVE_ANSWER_BAD_TAG);
    told("leap seconds: by no list, and by one without the day, second 60 is refused");
    for (uint32_t i = 0; i < MOST_DAYS; i++) {
        lend_many(MOST_DAYS);
        at_time(1950 + i, 181, 23, 59, 60, 7);
        IS(read_and_written() == 0);
        at_time(1950 + i, 182, 23, 59, 60, 7);
        IS(read_and_written() == RAHMISVE_ANSWER_BAD_TAG);
    }
    static const uint32_t edges[] = {1, 366, 1365, 1600366, 2000366, 9996366, 9999365};
    for (size_t i = 0; i < sizeof edges / sizeof *edges; i++) {
        lend_day(edges[i]);
        at_time(edges[i] / 1000, edges[i] % 1000, 23, 59, 60, 0);
        IS(read_and_written() == 0);
    }
    lend_none();
    told("leap seconds: each day of the longest list, and days at the edges of years");
}

static void read_by_a_bad_list(void)
{
    fresh();
    IS(rahmisve_read_tag(day_60, 8, days, days_length, at.time + 1) == RAHMISVE_ANSWER_BAD_LEAP_DAYS);
    IS(rahmisve_read_tag(day_60, 7, days, days_length, at.time + 1) == RAHMISVE_ANSWER_BAD_LEAP_DAYS);
    IS(rahmisve_read_tag(NULL, 0, days, days_length, at.time + 1) == RAHMISVE_ANSWER_BAD_LEAP_DAYS);
    IS(rahmisve_read_tag(bytes_there, 8, days, days_length, at.time + 1) == RAHMISVE_ANSWER_BAD_LEAP_DAYS);
    IS(zeros(at.time + 1, 28) && ones(at.time, 4) && ones(at.time + 8, 4) && list_is_kept());
}

static void read_tag(void)
{
    static const uint32_t time_60[7] = {2008, 60, 23, 59, 59, 999, 0};
    fresh();
    IS(rahmisve_read_tag(marked_tag, 8, NULL, 0, at.time + 1) == 0 && memcmp(at.time + 1, marked_time, 28) == 0);
    IS(ones(at.time, 4) && ones(at.time + 8, 4));
    IS(at.time[1 + RAHMISVE_TIME_YEAR] == 1987 && at.time[1 + RAHMISVE_TIME_DAY] == 234 && at.time[1 + RAHMISVE_TIME_HOUR] == 21);
    IS(at.time[1 + RAHMISVE_TIME_MINUTE] == 43 && at.time[1 + RAHMISVE_TIME_SECOND] == 56 && at.time[1 + RAHMISVE_TIME_MILLISECOND] == 789);
    IS(at.time[1 + RAHMISVE_TIME_FLYWHEEL] == 1);
    IS(rahmisve_read_tag(day_60, 8, NULL, 0, at.time + 1) == 0 && memcmp(at.time + 1, time_60, 28) == 0);
    lend_many(MOST_DAYS);
    IS(rahmisve_read_tag(day_60, 8, days, days_length, at.time + 1) == 0 && memcmp(at.time + 1, time_60, 28) == 0 && list_is_kept());
    told("read_tag: seven numbers, each in its place");
    uint8_t bad[8];
    memcpy(bad, day_60, 8);
    bad[7] = 0x9A;
    static const size_t lengths[] = {7, 9, 0};
    for (int i = 0; i < 3; i++) {
        fresh();
        IS(rahmisve_read_tag(lengths[i] ? day_60 : NULL, lengths[i], days, days_length, at.time + 1) == RAHMISVE_ANSWER_BAD_TAG);
        IS(zeros(at.time + 1, 28) && ones(at.time, 4) && ones(at.time + 8, 4));
    }
    fresh();
    IS(rahmisve_read_tag(bad, 8, days, days_length, at.time + 1) == RAHMISVE_ANSWER_BAD_TAG && zeros(at.time + 1, 28));
    memset(bytes_there, 0xFF, 8);
    with_bad_lists(read_by_a_bad_list);
    told("read_tag: its refusals give zeros, and that of the list comes first");
}

static void written_by_a_bad_list(void)
{
    static const uint32_t bad_year[7] = {10000, 60, 23, 59, 59, 999, 0};
    fresh();
    IS(rahmisve_write_tag(marked_time, days, days_length, at.tag + 1) == RAHMISVE_ANSWER_BAD_LEAP_DAYS);
    IS(rahmisve_write_tag(bad_year, days, days_length, at.tag + 1) == RAHMISVE_ANSWER_BAD_LEAP_DAYS);
    IS(zeros(at.tag + 1, 8) && at.tag[0] == 0xFF && at.tag[9] == 0xFF && list_is_kept());
}

static void write_tag(void)
{
    fresh();
    IS(rahmisve_write_tag(marked_time, NULL, 0, at.tag + 1) == 0 && memcmp(at.tag + 1, marked_tag, 8) == 0);
    IS(at.tag[0] == 0xFF && at.tag[9] == 0xFF);
    lend_many(MOST_DAYS);
    static const uint32_t marks[] = {2, 256, 65536, 0x80000000u};
    for (int i = 0; i < 4; i++) {
        uint32_t t[7];
        memcpy(t, marked_time, sizeof t);
        t[RAHMISVE_TIME_FLYWHEEL] = marks[i];
        fresh();
        IS(rahmisve_write_tag(t, days, days_length, at.tag + 1) == 0 && memcmp(at.tag + 1, marked_tag, 8) == 0 && list_is_kept());
    }
    told("write_tag: seven numbers, each in its place, and any number is a mark but 0");
    static const uint32_t over[6] = {10000, 366, 24, 60, 60, 1000};
    for (int place = 0; place < 6; place++)
        for (int way = 0; way < 4; way++) {
            uint32_t t[7];
            memcpy(t, marked_time, sizeof t);
            t[place] = way == 0 ? over[place] : way == 1 ? t[place] + 256u * 256u : way == 2 ? t[place] | 0x80000000u : 0xFFFFFFFFu;
            fresh();
            IS(rahmisve_write_tag(t, days, days_length, at.tag + 1) == RAHMISVE_ANSWER_BAD_TAG);
            IS(zeros(at.tag + 1, 8) && at.tag[0] == 0xFF && at.tag[9] == 0xFF);
            if (place >= 2 && place <= 4) {
                t[place] = marked_time[place] + 256;
                IS(rahmisve_write_tag(t, days, days_length, at.tag + 1) == RAHMISVE_ANSWER_BAD_TAG);
            }
        }
    static const uint32_t looks_leap[][7] = {{2016, 366, 23, 59, 256 + 60, 0, 0}, {65536 + 2016, 366, 23, 59, 60, 0, 0},
                                             {2016, 65536 + 366, 23, 59, 60, 0, 0}, {2016, 366, 256 + 23, 59, 60, 0, 0},
                                             {2016, 366, 23, 256 + 59, 60, 0, 0},   {2015, 1366, 23, 59, 60, 0, 0}};
    lend_day(2016366);
    for (size_t i = 0; i < sizeof looks_leap / sizeof *looks_leap; i++)
        IS(rahmisve_write_tag(looks_leap[i], days, days_length, at.tag + 1) == RAHMISVE_ANSWER_BAD_TAG && zeros(at.tag + 1, 8));
    with_bad_lists(written_by_a_bad_list);
    told("write_tag: its refusals, of numbers too large for any tag too, give zeros, and that of the list comes first");
}

/* The time between two tags, both ways, by the days that are lent. */
static void apart(const uint8_t *from, const uint8_t *to, int64_t ms)
{
    fresh();
    at.ms[1] = 0;
    IS(rahmisve_elapsed(from, 8, to, 8, days, days_length, &at.ms[1]) == 0 && at.ms[1] == ms);
    IS(rahmisve_elapsed(to, 8, from, 8, days, days_length, &at.ms[1]) == 0 && at.ms[1] == -ms);
    IS(at.ms[0] == -1 && at.ms[2] == -1 && (days_length == 0 || list_is_kept()));
}

static void elapsed_by_a_bad_list(void)
{
    static const size_t lengths[][2] = {{8, 8}, {7, 8}, {8, 9}, {0, 0}};
    for (int i = 0; i < 4; i++) {
        fresh();
        size_t from = lengths[i][0], to = lengths[i][1];
        IS(rahmisve_elapsed(from ? day_60 : NULL, from, to ? day_61 : NULL, to, days, days_length, &at.ms[1]) ==
           RAHMISVE_ANSWER_BAD_LEAP_DAYS);
        IS(at.ms[0] == -1 && at.ms[1] == 0 && at.ms[2] == -1 && list_is_kept());
    }
}

static const uint8_t ends[8] = {0x20, 0x16, 0x36, 0x62, 0x35, 0x95, 0x90, 0x00}; /* 23:59:59.000 of 2016 day 366 */
static const uint8_t leap[8] = {0x20, 0x16, 0x36, 0x62, 0x35, 0x96, 0x00, 0x00}; /* a second later */
static const uint8_t year_0[8] = {0x00, 0x00, 0x00, 0x10, 0x00, 0x00, 0x00, 0x00};
static const uint8_t year_9999[8] = {0x99, 0x99, 0x36, 0x52, 0x35, 0x95, 0x99, 0x99};

static void elapsed_over_leap_seconds(void)
{
    static const uint32_t bare[] = {2015181, 2016366};
    static const uint8_t over[8] = {0x20, 0x16, 0x36, 0x62, 0x35, 0x96, 0x09, 0x99};
    static const uint8_t next[8] = {0x20, 0x17, 0x00, 0x10, 0x00, 0x00, 0x00, 0x00};
    static const uint8_t morning[8] = {0x20, 0x16, 0x36, 0x60, 0x00, 0x00, 0x00, 0x00};
    apart(ends, next, 1000);
    lend_day(2016365);
    apart(ends, next, 1000);
    lend(bare, 2);
    apart(ends, leap, 1000);
    apart(leap, next, 1000);
    apart(over, next, 1);
    apart(ends, next, 2000);
    apart(morning, ends, 86399000);
    apart(morning, next, 86401000);
    apart(day_60, next, INT64_C(3228) * 86400000 + 2001);
    told("elapsed: a listed day has a second more, which no time on the day itself counts, and a day that is not listed has none");
    lend_many(MOST_DAYS);
    apart(year_0, year_9999, INT64_C(3652425) * 86400000 - 1 + 64 * 1000);
    apart(day_60, day_61, 1);
    at_time(1980, 181, 23, 59, 60, 0);
    uint8_t thirtieth[8];
    memcpy(thirtieth, tag_here, 8);
    at_time(1990, 181, 23, 59, 60, 0);
    apart(thirtieth, tag_here, INT64_C(3653) * 86400000 + 10 * 1000);
    told("elapsed: the longest list counts, each day of it once");
}

static void elapsed(void)
{
    lend_none();
    apart(day_60, day_61, 1);
    apart(day_60, day_60, 0);
    apart(year_0, year_9999, INT64_C(3652425) * 86400000 - 1);
    told("elapsed: forward, backward, none, and over ten thousand years");
    elapsed_over_leap_seconds();

    static const size_t lengths[][2] = {{7, 8}, {8, 7}, {9, 8}, {0, 8}, {8, 0}, {0, 0}};
    for (int i = 0; i < 6; i++) {
        fresh();
        size_t from = lengths[i][0], to = lengths[i][1];
        IS(rahmisve_elapsed(from ? day_60 : NULL, from, to ? day_61 : NULL, to, days, days_length, &at.ms[1]) == RAHMISVE_ANSWER_BAD_TAG);
        IS(at.ms[0] == -1 && at.ms[1] == 0 && at.ms[2] == -1);
    }
    lend_day(2015181);
    for (int i = 0; i < 2; i++) {
        fresh();
        IS(rahmisve_elapsed(i ? ends : leap, 8, i ? leap : ends, 8, days, days_length, &at.ms[1]) == RAHMISVE_ANSWER_BAD_TAG);
        IS(at.ms[0] == -1 && at.ms[1] == 0 && at.ms[2] == -1);
    }
    with_bad_lists(elapsed_by_a_bad_list);
    told("elapsed: its refusals give zero, and that of the list comes first");
}

/* ---- the Sounder's status ------------------------------------------------------------------------------------------------------- */

/* A block at an address that is no multiple of 4, with something around it, and what is to be said of it. */
static uint16_t *const status_words = words_here + 1;
static uint32_t status_wanted[13], tags_wanted[15][8];

static void put_pair(size_t word, uint32_t number)
{
    status_words[word - 1] = (uint16_t)(number >> 8);
    status_words[word] = (uint16_t)(number & 255);
}

/* Tag k of the block and what is to be said of it, 12 or the time that is at hand. */
static void put_tag(unsigned k, unsigned answer)
{
    for (unsigned i = 0; i < 8; i++)
        status_words[58 + 8 * k + i] = tag_here[i];
    memset(tags_wanted[k], 0, sizeof tags_wanted[k]);
    tags_wanted[k][RAHMISVE_SOUNDER_TAG_ANSWER] = answer;
    if (answer == 0)
        memcpy(tags_wanted[k] + RAHMISVE_SOUNDER_TAG_TIME, time_here, sizeof time_here);
}

/* A good block with good tags, of which no detector is suspect; its numbers differ from one another. */
static void a_status(void)
{
    static const uint32_t wanted[13] = {0, 0, 0, 0, 263, 65533, 12, 100, 397, 600, 1200, 349, 598};
    stir_to(words_here, 24000, 8);
    memcpy(status_wanted, wanted, sizeof wanted);
    memset(status_words + 32, 0, 20);
    put_pair(43, wanted[RAHMISVE_SOUNDER_RAW_BLOCKS]);
    put_pair(45, wanted[RAHMISVE_SOUNDER_BLOCKS]);
    for (unsigned k = 0; k < 7; k++)
        put_pair(181 + 2 * k, wanted[6 + k]);
    for (unsigned k = 0; k < 15; k++) {
        at_time(1994 + k, 10 + k, k, 20 + k, 40 + k, 700 + k);
        put_tag(k, 0);
    }
}

/* Judges so many of the words by the days that are lent. */
static unsigned judged(size_t length)
{
    memcpy(was_words, words_here, sizeof was_words);
    fresh();
    unsigned number = rahmisve_sounder_status(length ? status_words : NULL, length, days, days_length, at.status + 1, at.tags + 1);
    IS(ones(at.status, 4) && ones(at.status + 14, 4) && ones(at.tags, 32) && ones(at.tags + 16, 32));
    IS(memcmp(words_here, was_words, sizeof was_words) == 0 && (days_length == 0 || list_is_kept()));
    return number;
}

/* Asks for a detector of that block. */
static unsigned asked(size_t length, uint32_t channel, uint32_t detector)
{
    memcpy(was_words, words_here, sizeof was_words);
    fresh();
    unsigned number = rahmisve_sounder_suspect(length ? status_words : NULL, length, days, days_length, channel, detector, &at.fill[1],
                                               &at.byte[1]);
    IS(ones(at.fill, 4) && ones(at.fill + 2, 4) && at.byte[0] == 0xFF && at.byte[2] == 0xFF);
    IS(memcmp(words_here, was_words, sizeof was_words) == 0 && (days_length == 0 || list_is_kept()));
    return number;
}

/* The block is accepted, and every number is the wanted one. */
static void status_is(void)
{
    IS(judged(8040) == 0);
    IS(memcmp(at.status + 1, status_wanted, sizeof status_wanted) == 0 && memcmp(at.tags + 1, tags_wanted, sizeof tags_wanted) == 0);
}

/* The same of the detectors: whether each is suspect, how many are, and which is the first. */
static void suspects_are(const uint8_t suspect[76])
{
    unsigned count = 0, first = 76;
    for (unsigned k = 76; k-- > 0;)
        if (suspect[k])
            count++, first = k;
    status_wanted[RAHMISVE_SOUNDER_SUSPECTS] = count;
    status_wanted[RAHMISVE_SOUNDER_CHANNEL] = count ? first / 4 + 1 : 0;
    status_wanted[RAHMISVE_SOUNDER_DETECTOR] = count ? first % 4 + 1 : 0;
    status_is();
    for (unsigned k = 0; k < 76; k++)
        IS(asked(8040, k / 4 + 1, k % 4 + 1) == 0 && at.byte[1] == suspect[k] && at.fill[1] == 0);
}

/* Both calls refuse the block, whatever is asked for, and give zeros, but for the word. */
static void not_judged(unsigned number, uint32_t word, size_t length)
{
    static const uint32_t detectors[][2] = {{1, 1}, {19, 4}, {0, 0}, {20, 5}};
    IS(judged(length) == number && at.status[1 + RAHMISVE_SOUNDER_WORD] == word);
    IS(zeros(at.status + 2, 48) && zeros(at.tags + 1, 480));
    for (int i = 0; i < 4; i++)
        IS(asked(length, detectors[i][0], detectors[i][1]) == number && at.fill[1] == word && at.byte[1] == 0);
}

static void sounder_status(void)
{
    static const unsigned tags[15] = {
        RAHMISVE_SOUNDER_TAG_CURRENT,        RAHMISVE_SOUNDER_TAG_LINE_START, RAHMISVE_SOUNDER_TAG_LINE_END,
        RAHMISVE_SOUNDER_TAG_SET_AT_START,   RAHMISVE_SOUNDER_TAG_SET_AT_END, RAHMISVE_SOUNDER_TAG_PRIORITY_FRAME,
        RAHMISVE_SOUNDER_TAG_NORMAL_FRAME,   RAHMISVE_SOUNDER_TAG_SPACELOOK,  RAHMISVE_SOUNDER_TAG_ECAL,
        RAHMISVE_SOUNDER_TAG_BLACKBODY,      RAHMISVE_SOUNDER_TAG_STAR_SENSE, RAHMISVE_SOUNDER_TAG_RANGING,
        RAHMISVE_SOUNDER_TAG_VISIBLE_TABLES, RAHMISVE_SOUNDER_TAG_LIMITS,     RAHMISVE_SOUNDER_TAG_ORBIT,
    };
    const uint32_t *got = at.status + 1;
    a_status();
    status_words[32] = 0x04;
    status_wanted[RAHMISVE_SOUNDER_SUSPECTS] = 1;
    status_wanted[RAHMISVE_SOUNDER_CHANNEL] = status_wanted[RAHMISVE_SOUNDER_DETECTOR] = 2;
    status_is();
    IS(got[RAHMISVE_SOUNDER_WORD] == 0 && got[RAHMISVE_SOUNDER_SUSPECTS] == 1 && got[RAHMISVE_SOUNDER_CHANNEL] == 2);
    IS(got[RAHMISVE_SOUNDER_DETECTOR] == 2 && got[RAHMISVE_SOUNDER_RAW_BLOCKS] == 263 && got[RAHMISVE_SOUNDER_BLOCKS] == 65533);
    IS(got[RAHMISVE_SOUNDER_SCAN_OF_FRAME] == 12 && got[RAHMISVE_SOUNDER_SCAN] == 100 && got[RAHMISVE_SOUNDER_SCAN_NORTH] == 397);
    IS(got[RAHMISVE_SOUNDER_FRAME_WEST] == 600 && got[RAHMISVE_SOUNDER_FRAME_EAST] == 1200);
    IS(got[RAHMISVE_SOUNDER_FRAME_NORTH] == 349 && got[RAHMISVE_SOUNDER_FRAME_SOUTH] == 598);
    for (unsigned k = 0; k < 15; k++)
        IS(tags[k] == k && at.tags[1 + k][RAHMISVE_SOUNDER_TAG_TIME + RAHMISVE_TIME_YEAR] == 1994 + k);
    lend_many(MOST_DAYS);
    status_is();
    lend_none();
    for (uint32_t number = 0; number <= 65535; number += 21845) {
        put_pair(43, status_wanted[RAHMISVE_SOUNDER_RAW_BLOCKS] = number);
        put_pair(45, status_wanted[RAHMISVE_SOUNDER_BLOCKS] = 65535 - number);
        status_is();
    }
    told("sounder_status: thirteen numbers and fifteen tags, each in its place, and counts as they stand");
}

static void detectors_of_the_sounder(void)
{
    uint8_t suspect[76];
    a_status();
    memset(suspect, 0, sizeof suspect);
    suspects_are(suspect);
    for (unsigned k = 0; k < 76; k++) {
        memset(status_words + 32, 0, 20);
        memset(suspect, 0, sizeof suspect);
        status_words[32 + k / 8] = (uint16_t)(0x80 >> k % 8);
        suspect[k] = 1;
        suspects_are(suspect);
    }
    told("sounder_suspect: each detector by its bit, channel after channel, and no other");
    for (unsigned drawn = 1; drawn < 40; drawn++) {
        uint32_t state = drawn;
        for (unsigned k = 0; k < 76; k++) {
            state = state * 1664525 + 1013904223;
            suspect[k] = drawn == 1 || (state >> 16) % (drawn % 13 + 1) == 0;
            if (k % 8 == 0)
                status_words[32 + k / 8] = 0;
            status_words[32 + k / 8] = (uint16_t)(status_words[32 + k / 8] | (suspect[k] ? 0x80 >> k % 8 : 0));
        }
        suspects_are(suspect);
    }
    told("sounder_status: as many are suspect as are asked for one by one, and the first of them is the first");
}

static void ranges_of_the_frame(void)
{
    static const uint32_t ranges[7][2] = {{1, 396}, {1, 396}, {1, 1579}, {1, 1754}, {5, 1758}, {1, 1579}, {4, 1582}};
    for (unsigned k = 0; k < 7; k++) {
        const uint32_t least = ranges[k][0], most = ranges[k][1], outside[] = {0, least - 1, most + 1, 65535};
        const uint32_t word = 181 + 2 * k;
        a_status();
        put_pair(187, status_wanted[RAHMISVE_SOUNDER_FRAME_WEST] = 5);
        put_pair(189, status_wanted[RAHMISVE_SOUNDER_FRAME_EAST] = 1758);
        put_pair(word, status_wanted[6 + k] = least);
        status_is();
        put_pair(word, status_wanted[6 + k] = most);
        status_is();
        for (int i = 0; i < 4; i++) {
            put_pair(word, outside[i]);
            not_judged(RAHMISVE_ANSWER_OUT_OF_RANGE, word, 8040);
        }
    }
    told("frame fields: both ends of each range are good, and what is outside is refused by the field's first word");
}

static void fields_of_the_frame(void)
{
    a_status();
    put_pair(187, status_wanted[RAHMISVE_SOUNDER_FRAME_WEST] = 1200);
    status_is();
    put_pair(187, 1201);
    not_judged(RAHMISVE_ANSWER_OUT_OF_RANGE, 189, 8040);
    put_pair(187, 1755);
    not_judged(RAHMISVE_ANSWER_OUT_OF_RANGE, 187, 8040);
    a_status();
    put_pair(191, status_wanted[RAHMISVE_SOUNDER_FRAME_NORTH] = 1579);
    put_pair(193, status_wanted[RAHMISVE_SOUNDER_FRAME_SOUTH] = 4);
    status_is();
    told("frame fields: a west above its east is the eastern field's, equal ones are good, and north and south are not compared");
    for (uint32_t word = 193; word >= 181; word -= 2) {
        put_pair(word, 0);
        not_judged(RAHMISVE_ANSWER_OUT_OF_RANGE, word, 8040);
    }
    told("frame fields: of several out of range the lowest is named");
}

static void tags_of_the_sounder(void)
{
    for (unsigned k = 0; k < 15; k++) {
        a_status();
        at_time(2016, 366, 23, 59, 60, k);
        put_tag(k, RAHMISVE_ANSWER_BAD_TAG);
        status_is();
        lend_day(2016366);
        put_tag(k, 0);
        status_is();
        lend_none();
        memset(tag_here, 0, sizeof tag_here);
        put_tag(k, RAHMISVE_ANSWER_BAD_TAG);
        put_tag((k + 7) % 15, RAHMISVE_ANSWER_BAD_TAG);
        status_is();
        memcpy(tag_here, marked_tag, sizeof tag_here);
        memcpy(time_here, marked_time, sizeof time_here);
        put_tag(k, 0);
        status_is();
    }
    told("sounder_status: a bad tag refuses itself and no other, second 60 goes by the list, and the flywheel mark is given");
}

static void judged_by_a_bad_list(void) { not_judged(RAHMISVE_ANSWER_BAD_LEAP_DAYS, 0, 8040); }

/* A block with every ground for a refusal, mended one by one. */
static void refused_of_the_sounder(void)
{
    a_status();
    lend_day(0);
    put_pair(193, 3);
    status_words[41] = 0xFF;
    status_words[8039] = 256;
    not_judged(RAHMISVE_ANSWER_WRONG_LENGTH, 0, 0);
    for (size_t length = 8039; length <= 8041; length += 2)
        not_judged(RAHMISVE_ANSWER_WRONG_LENGTH, 0, length);
    not_judged(RAHMISVE_ANSWER_LARGE_WORD, 0, 8040);
    status_words[8039] = 255;
    for (unsigned spare = 1; spare < 16; spare++) {
        status_words[41] = (uint16_t)(0xF0 | spare);
        not_judged(RAHMISVE_ANSWER_SPARE_BIT, 0, 8040);
        status_words[41] = (uint16_t)spare;
        not_judged(RAHMISVE_ANSWER_SPARE_BIT, 0, 8040);
    }
    status_words[41] = 0xF0;
    not_judged(RAHMISVE_ANSWER_OUT_OF_RANGE, 193, 8040);
    put_pair(193, 4);
    with_bad_lists(judged_by_a_bad_list);
    told("sounder_status and sounder_suspect: 8, 14, 21, 22 and 19 in this order, with zeros but for the word of 22");
}

/* Channels and detectors that there are not, some of which would be where they are cut to fit. */
static void detectors_that_are_none(void)
{
    static const uint32_t none[] = {0, 20, 256 + 1, 65536 + 1, 0x80000001, UINT32_MAX};
    a_status();
    status_words[32] = 0xFF; /* channels 1 and 2 are suspect */
    for (size_t i = 0; i < sizeof none / sizeof *none; i++) {
        IS(asked(8040, none[i], 1) == RAHMISVE_ANSWER_NO_RECORD && at.byte[1] == 0 && at.fill[1] == 0);
        IS(asked(8040, 1, none[i]) == RAHMISVE_ANSWER_NO_RECORD && at.byte[1] == 0 && at.fill[1] == 0);
    }
    IS(asked(8040, 1, 5) == RAHMISVE_ANSWER_NO_RECORD && at.byte[1] == 0 && at.fill[1] == 0);
    told("sounder_suspect: last of all a channel or a detector that there is not is refused, of numbers too large for a byte too");
}

static void large_words_of_the_sounder(void)
{
    a_status();
    for (size_t i = 0; i < 8040; i++) {
        uint16_t was = status_words[i];
        status_words[i] = (uint16_t)(i % 3 == 0 ? 65535 : i % 3 == 1 ? 256 : was + 256);
        IS(judged(8040) == RAHMISVE_ANSWER_LARGE_WORD && zeros(at.status + 1, 52) && zeros(at.tags + 1, 480));
        status_words[i] = was;
    }
    status_is();
    told("sounder_status: a word above 255 is refused wherever it stands");
}

/* ---- the watch ------------------------------------------------------------------------------------------------------------------ */

static uint32_t watch_room[13], *const watch = watch_room + 1;

static unsigned offered(uint32_t block, uint32_t valid, const uint8_t *tag, size_t length)
{
    fresh();
    unsigned number =
        rahmisve_watch_offer(watch, block, valid, tag, length, days, days_length, &at.byte[1], &at.fill[1], &at.fill[3]);
    IS(at.byte[0] == 0xFF && at.byte[2] == 0xFF && (days_length == 0 || list_is_kept()));
    IS(ones(&at.fill[0], 4) && ones(&at.fill[2], 4) && ones(&at.fill[4], 4));
    IS(watch_room[0] == 0xABCDEF01 && watch_room[12] == 0xABCDEF02);
    return number;
}

/* What an offer handed over, a set and its count, and the set that it left. */
static void fill_is(uint32_t handed, uint32_t count, uint32_t left)
{
    IS(at.fill[1] == handed && at.fill[3] == count && watch[RAHMISVE_WATCH_FILL] == left);
}

/* An accepted offer, and what the watch holds then but for the set. */
static void takes(uint32_t block, uint32_t valid, const uint8_t *tag, unsigned verdict, uint32_t open, uint32_t expected, uint32_t limit)
{
    uint32_t time[7] = {0, 0, 0, 0, 0, 0, 0};
    if (open)
        IS(rahmisve_read_tag(tag, 8, days, days_length, time) == 0);
    IS(offered(block, valid, tag, 8) == 0 && at.byte[1] == verdict);
    IS(watch[RAHMISVE_WATCH_OPEN] == open && watch[RAHMISVE_WATCH_EXPECTED] == expected && watch[RAHMISVE_WATCH_LIMIT] == limit);
    IS(memcmp(watch + RAHMISVE_WATCH_LAST, time, 28) == 0);
}

/* The same where no block is fill. */
static void goes(uint32_t block, const uint8_t *tag, unsigned verdict, uint32_t open, uint32_t expected, uint32_t limit)
{
    takes(block, RAHMISVE_VALID, tag, verdict, open, expected, limit);
    fill_is(0, 0, 0);
}

/* An offer that leaves the watch as it is, whether the block is fill or not. */
static void stays(unsigned number, unsigned verdict, uint32_t block, const uint8_t *tag, size_t length)
{
    uint32_t was[RAHMISVE_WATCH_NUMBERS];
    memcpy(was, watch, sizeof was);
    for (uint32_t valid = 0; valid <= RAHMISVE_VALID; valid++) {
        IS(offered(block, valid, tag, length) == number && at.byte[1] == verdict);
        fill_is(0, 0, was[RAHMISVE_WATCH_FILL]);
        IS(memcmp(was, watch, sizeof was) == 0);
    }
}

static void lent(uint32_t open, uint32_t expected, const uint32_t *time, uint32_t limit)
{
    watch[RAHMISVE_WATCH_OPEN] = open;
    watch[RAHMISVE_WATCH_EXPECTED] = expected;
    memcpy(watch + RAHMISVE_WATCH_LAST, time, 28);
    watch[RAHMISVE_WATCH_LIMIT] = limit;
    watch[RAHMISVE_WATCH_FILL] = 0;
}

static void watch_begin(void)
{
    watch_room[0] = 0xABCDEF01;
    watch_room[12] = 0xABCDEF02;
    memset(watch, 0xFF, 44);
    IS(rahmisve_watch_begin(1000000, watch) == 0);
    IS(zeros(watch, 36) && watch[9] == 1000000 && watch[10] == 0);
    IS(rahmisve_watch_begin(RAHMISVE_LONGEST_WAIT_MS, watch) == 0 && zeros(watch, 36) && watch[RAHMISVE_WATCH_LIMIT] == 3600000);
    told("watch_begin: idle, with its limit, and its set empty");
    memset(watch, 0xEE, 44);
    IS(rahmisve_watch_begin(RAHMISVE_LONGEST_WAIT_MS + 1, watch) == RAHMISVE_ANSWER_LONG_LIMIT);
    IS(watch[0] == 0xEEEEEEEE && memcmp(watch, watch + 1, 40) == 0);
    IS(rahmisve_watch_begin(UINT32_MAX, watch) == RAHMISVE_ANSWER_LONG_LIMIT);
    IS(watch[0] == 0xEEEEEEEE && memcmp(watch, watch + 1, 40) == 0);
    IS(watch_room[0] == 0xABCDEF01 && watch_room[12] == 0xABCDEF02);
    told("watch_begin: its refusal leaves the record");
}

static void watch_offer(void)
{
    static const uint8_t later[8] = {0x20, 0x08, 0x06, 0x10, 0x00, 0x00, 0x10, 0x00};
    IS(rahmisve_watch_begin(500, watch) == 0);
    stays(0, RAHMISVE_VERDICT_STRAY, 5, day_60, 8);
    goes(0, day_60, RAHMISVE_VERDICT_OPENED, 1, 1, 500);
    for (uint32_t block = 1; block <= 9; block++)
        goes(block, block < 5 ? day_60 : day_61, RAHMISVE_VERDICT_KEPT, 1, block + 1, 500);
    goes(10, day_61, RAHMISVE_VERDICT_COMPLETE, 0, 0, 500);
    told("watch_offer: a whole scan, the eleven numbers after each offer");
    goes(0, day_60, RAHMISVE_VERDICT_OPENED, 1, 1, 500);
    goes(2, day_61, RAHMISVE_VERDICT_BROKEN, 0, 0, 500);
    goes(0, day_61, RAHMISVE_VERDICT_OPENED, 1, 1, 500);
    goes(1, day_60, RAHMISVE_VERDICT_CLOCK_BACK, 0, 0, 500);
    goes(0, day_61, RAHMISVE_VERDICT_OPENED, 1, 1, 500);
    goes(1, later, RAHMISVE_VERDICT_LATE, 0, 0, 500);
    goes(0, day_61, RAHMISVE_VERDICT_OPENED, 1, 1, 500);
    goes(0, day_60, RAHMISVE_VERDICT_CLOCK_BACK, 1, 1, 500);
    goes(0, marked_tag, RAHMISVE_VERDICT_CLOCK_BACK, 1, 1, 500);
    goes(11, marked_tag, RAHMISVE_VERDICT_BROKEN, 0, 0, 500);
    told("watch_offer: each closing, and a block 0 that closes and opens");

    static const uint32_t odd[7] = {1, 2, 3, 4, 5, 6, 7};
    static const uint32_t bad_hour[7] = {2008, 60, 256 + 23, 59, 59, 999, 0};
    static const uint32_t bad_year[7] = {65536 + 2008, 60, 23, 59, 59, 999, 0};
    static const uint32_t good_time[7] = {2008, 60, 23, 59, 59, 999, 77};
    lent(0, 99, odd, 500);
    stays(0, RAHMISVE_VERDICT_STRAY, 5, day_60, 8);
    goes(0, day_60, RAHMISVE_VERDICT_OPENED, 1, 1, 500);
    lent(256, 3, good_time, 500);
    goes(3, day_61, RAHMISVE_VERDICT_KEPT, 1, 4, 500);
    lent(0x80000000u, 10, good_time, 500);
    goes(10, day_61, RAHMISVE_VERDICT_COMPLETE, 0, 0, 500);
    told("watch_offer: a lent record with odd numbers in it");
    lent(256, 3, good_time, 500);
    stays(RAHMISVE_ANSWER_UNKNOWN_BLOCK, 0, 12, day_61, 8);
    stays(RAHMISVE_ANSWER_UNKNOWN_BLOCK, 0, 256 + 3, day_61, 8);
    stays(RAHMISVE_ANSWER_UNKNOWN_BLOCK, 0, 65536 + 3, NULL, 0);
    stays(RAHMISVE_ANSWER_BAD_TAG, 0, 3, day_60, 7);
    stays(RAHMISVE_ANSWER_BAD_TAG, 0, 3, day_60, 9);
    stays(RAHMISVE_ANSWER_BAD_TAG, 0, 3, NULL, 0);
    lent(1, 256 + 3, good_time, 500);
    stays(RAHMISVE_ANSWER_NO_RECORD, 0, 3, day_61, 8);
    lent(1, 0, good_time, 500);
    stays(RAHMISVE_ANSWER_NO_RECORD, 0, 3, day_61, 8);
    lent(7, 11, bad_hour, 3600001);
    stays(RAHMISVE_ANSWER_LONG_LIMIT, 0, 99, day_61, 8);
    watch[9] = 3600000;
    stays(RAHMISVE_ANSWER_NO_RECORD, 0, 99, day_61, 8);
    watch[1] = 10;
    stays(RAHMISVE_ANSWER_BAD_TAG, 0, 99, day_61, 8);
    lent(7, 10, bad_year, 500);
    stays(RAHMISVE_ANSWER_BAD_TAG, 0, 10, day_61, 8);
    lent(0, 0, odd, UINT32_MAX);
    stays(RAHMISVE_ANSWER_LONG_LIMIT, 0, 0, day_61, 8);
    told("watch_offer: its refusals leave the record to the bit");
}

/* Blocks 0 to 10 of a scan, 200 ms apart, from 23:59:59.000 of 2016 day 366 to the next midnight, over the leap second. */
static void at_leap(uint32_t block)
{
    if (block < 10)
        at_time(2016, 366, 23, 59, 59 + block / 5, block % 5 * 200);
    else
        at_time(2017, 1, 0, 0, 0, 0);
}

static void scan_over_a_leap_second(void)
{
    static const uint32_t three[] = {2008366, 2015181, 2016366};
    IS(rahmisve_watch_begin(200, watch) == 0);
    lend(three, 3);
    for (uint32_t block = 0; block <= 10; block++) {
        unsigned verdict = block == 0 ? RAHMISVE_VERDICT_OPENED : block == 10 ? RAHMISVE_VERDICT_COMPLETE : RAHMISVE_VERDICT_KEPT;
        at_leap(block);
        goes(block, tag_here, verdict, block < 10, block < 10 ? block + 1 : 0, 200);
    }
    told("watch_offer: a scan over a leap second is complete, in its true time");

    static const uint32_t no_leap[7] = {2016, 366, 23, 59, 59, 800, 0};
    lent(1, 5, no_leap, 200);
    at_leap(5);
    lend_none();
    stays(RAHMISVE_ANSWER_BAD_TAG, 0, 5, tag_here, 8);
    lend(three, 2);
    stays(RAHMISVE_ANSWER_BAD_TAG, 0, 5, tag_here, 8);
    lend(three, 3);
    goes(5, tag_here, RAHMISVE_VERDICT_KEPT, 1, 6, 200);
    at_leap(6);
    lend(three, 2);
    stays(RAHMISVE_ANSWER_BAD_TAG, 0, 6, tag_here, 8);
    stays(RAHMISVE_ANSWER_BAD_TAG, 0, 6, day_61, 8);
    stays(RAHMISVE_ANSWER_BAD_TAG, 0, 99, day_61, 8);
    lend(three, 3);
    goes(6, tag_here, RAHMISVE_VERDICT_KEPT, 1, 7, 200);
    at_leap(10);
    lent(1, 5, no_leap, 1199);
    goes(5, tag_here, RAHMISVE_VERDICT_LATE, 0, 0, 1199);
    lent(1, 5, no_leap, 1200);
    goes(5, tag_here, RAHMISVE_VERDICT_KEPT, 1, 6, 1200);
    lent(1, 5, no_leap, 200);
    lend_none();
    goes(5, tag_here, RAHMISVE_VERDICT_KEPT, 1, 6, 200);
    told("watch_offer: the list that is lent now judges and counts the last tag and the offered one");
}

/* In the order of the refusals: limit, expected block and set, then the list, then the rest. */
static void offered_by_a_bad_list(void)
{
    static const uint32_t bad_hour[7] = {2008, 60, 24, 59, 59, 999, 0};
    lent(1, 11, bad_hour, 3600001);
    watch[RAHMISVE_WATCH_FILL] = 1 << 11;
    stays(RAHMISVE_ANSWER_LONG_LIMIT, 0, 99, day_60, 7);
    watch[RAHMISVE_WATCH_LIMIT] = 500;
    stays(RAHMISVE_ANSWER_NO_RECORD, 0, 99, day_60, 7);
    watch[RAHMISVE_WATCH_EXPECTED] = 3;
    stays(RAHMISVE_ANSWER_BAD_FILL, 0, 99, day_60, 7);
    watch[RAHMISVE_WATCH_FILL] = 7;
    stays(RAHMISVE_ANSWER_BAD_LEAP_DAYS, 0, 99, day_60, 7);
    lent(1, 3, marked_time, 500);
    stays(RAHMISVE_ANSWER_BAD_LEAP_DAYS, 0, 99, NULL, 0);
    stays(RAHMISVE_ANSWER_BAD_LEAP_DAYS, 0, 3, marked_tag, 8);
    lent(0, 11, bad_hour, 3600001);
    watch[RAHMISVE_WATCH_FILL] = 1;
    stays(RAHMISVE_ANSWER_LONG_LIMIT, 0, 99, day_60, 7);
    watch[RAHMISVE_WATCH_LIMIT] = 500;
    stays(RAHMISVE_ANSWER_BAD_FILL, 0, 99, day_60, 7);
    watch[RAHMISVE_WATCH_FILL] = 0;
    stays(RAHMISVE_ANSWER_BAD_LEAP_DAYS, 0, 99, day_60, 7);
    stays(RAHMISVE_ANSWER_BAD_LEAP_DAYS, 0, 0, day_60, 8);
    stays(RAHMISVE_ANSWER_BAD_LEAP_DAYS, 0, 5, day_60, 8);
}

static void offers_by_bad_lists(void)
{
    with_bad_lists(offered_by_a_bad_list);
    told("watch_offer: a bad list is refused behind what the watch is, but for its last tag, and before all else, open or idle");
}

/* ---- which blocks were fill ----------------------------------------------------------------------------------------------------- */

static const uint32_t last_time[7] = {2008, 60, 23, 59, 59, 999, 0};                /* of day_60, a millisecond before day_61 */
static const uint8_t too_late[8] = {0x20, 0x08, 0x06, 0x10, 0x00, 0x00, 0x05, 0x00}; /* 501 ms after it */

static uint32_t blocks_in(uint32_t set)
{
    uint32_t count = 0;
    for (int bit = 0; bit < 32; bit++)
        count += set >> bit & 1;
    return count;
}

/* A block, fill or not, by each word that means it: those that a header can have, and those that are one of them where they are cut. */
static uint32_t word_of(int fill)
{
    static const uint32_t words[] = {0, 2, 255, 256, 257, 65536, 65537, 0x80000001, UINT32_MAX};
    static size_t next;
    return fill ? words[next++ % (sizeof words / sizeof *words)] : RAHMISVE_VALID;
}

/* A scan that completes, its fill blocks those of a set. */
static void scan_with(uint32_t set)
{
    for (uint32_t block = 0; block < 10; block++) {
        unsigned verdict = block == 0 ? RAHMISVE_VERDICT_OPENED : RAHMISVE_VERDICT_KEPT;
        takes(block, word_of(set >> block & 1), day_61, verdict, 1, block + 1, 500);
        fill_is(0, 0, set & ((2u << block) - 1));
    }
    takes(10, word_of(set >> 10 & 1), day_61, RAHMISVE_VERDICT_COMPLETE, 0, 0, 500);
    fill_is(set, blocks_in(set), 0);
}

static void scans_with_fill(void)
{
    static const uint32_t words[] = {0, 1, 2, 255, 256, 257, UINT32_MAX};
    for (size_t i = 0; i < sizeof words / sizeof *words; i++) {
        uint32_t fill = words[i] != 1;
        IS(rahmisve_watch_begin(500, watch) == 0);
        takes(0, words[i], day_61, RAHMISVE_VERDICT_OPENED, 1, 1, 500);
        fill_is(0, 0, fill);
        takes(1, words[i], day_61, RAHMISVE_VERDICT_KEPT, 1, 2, 500);
        fill_is(0, 0, fill * 3);
        takes(0, words[i], day_61, RAHMISVE_VERDICT_BROKEN, 1, 1, 500);
        fill_is(fill * 3, fill * 2, fill);
        lent(1, 10, last_time, 500);
        takes(10, words[i], day_61, RAHMISVE_VERDICT_COMPLETE, 0, 0, 500);
        fill_is(fill << 10, fill, 0);
    }
    told("watch_offer: every data valid word but 1 is fill, and none is cut");
    for (uint32_t set = 0; set < 1 << 11 && good; set++)
        scan_with(set);
    told("watch_offer: a complete scan hands over its fill blocks, block 10 among them, and their count, whichever they are");
}

/* A scan that another verdict than complete closes. The closing block is not in its set, and opens the next one's where it is block 0. */
static void closes(uint32_t expected, uint32_t set, uint32_t block, const uint8_t *tag, unsigned verdict)
{
    for (int fill = 0; fill < 2; fill++) {
        lent(1, expected, last_time, 500);
        watch[RAHMISVE_WATCH_FILL] = set;
        takes(block, word_of(fill), tag, verdict, block == 0, block == 0, 500);
        fill_is(set, blocks_in(set), fill && block == 0);
    }
}

static void closings_with_fill(void)
{
    for (uint32_t expected = 1; expected <= 10; expected++)
        for (uint32_t set = 0; set < 1u << expected && good; set++) {
            closes(expected, set, expected, marked_tag, RAHMISVE_VERDICT_CLOCK_BACK);
            closes(expected, set, 0, marked_tag, RAHMISVE_VERDICT_CLOCK_BACK);
            closes(expected, set, expected, too_late, RAHMISVE_VERDICT_LATE);
            closes(expected, set, 0, too_late, RAHMISVE_VERDICT_LATE);
            closes(expected, set, 11, day_61, RAHMISVE_VERDICT_BROKEN);
            closes(expected, set, 0, day_61, RAHMISVE_VERDICT_BROKEN);
            closes(expected, set, expected % 10 + 1, day_61, RAHMISVE_VERDICT_BROKEN);
        }
    told("watch_offer: every other closing hands over a set without its own block, and a block 0 that is fill begins the next one");
}

/* Each block that is not below the expected one, alone and with all that are. */
static void sets_out_of_bounds(void)
{
    for (uint32_t bit = 0; bit < 32; bit++) {
        for (uint32_t expected = 1; expected <= 10 && expected <= bit; expected++) {
            lent(bit, expected, last_time, 500);
            watch[RAHMISVE_WATCH_FILL] = 1u << bit;
            stays(RAHMISVE_ANSWER_BAD_FILL, 0, expected, day_61, 8);
            watch[RAHMISVE_WATCH_FILL] |= (1u << expected) - 1;
            stays(RAHMISVE_ANSWER_BAD_FILL, 0, 0, day_61, 8);
        }
        lent(0, 10, last_time, 500); /* an expected block that is not read */
        watch[RAHMISVE_WATCH_FILL] = 1u << bit;
        stays(RAHMISVE_ANSWER_BAD_FILL, 0, 0, day_61, 8);
        stays(RAHMISVE_ANSWER_BAD_FILL, 0, 5, day_61, 8);
    }
    told("watch_offer: a set with the expected block or one above it is refused, and any set of an idle watch");
}

/* A watch with every ground for a refusal, mended one by one. */
static void refused_for_the_set(void)
{
    static const uint32_t bad_hour[7] = {2008, 60, 24, 59, 59, 999, 0};
    static const uint32_t no_blocks[] = {0, 11, 256 + 3, UINT32_MAX};
    lend_none();
    lent(1, 11, bad_hour, 3600001);
    watch[RAHMISVE_WATCH_FILL] = UINT32_MAX;
    stays(RAHMISVE_ANSWER_LONG_LIMIT, 0, 99, NULL, 0);
    watch[RAHMISVE_WATCH_LIMIT] = 3600000;
    for (size_t i = 0; i < sizeof no_blocks / sizeof *no_blocks; i++) {
        watch[RAHMISVE_WATCH_EXPECTED] = no_blocks[i];
        stays(RAHMISVE_ANSWER_NO_RECORD, 0, 99, NULL, 0);
    }
    watch[RAHMISVE_WATCH_EXPECTED] = 3;
    stays(RAHMISVE_ANSWER_BAD_FILL, 0, 99, NULL, 0);
    watch[RAHMISVE_WATCH_FILL] = 7;
    stays(RAHMISVE_ANSWER_BAD_TAG, 0, 99, NULL, 0);
    memcpy(watch + RAHMISVE_WATCH_LAST, last_time, 28);
    stays(RAHMISVE_ANSWER_UNKNOWN_BLOCK, 0, 99, NULL, 0);
    stays(RAHMISVE_ANSWER_BAD_TAG, 0, 3, NULL, 0);
    takes(3, 0, day_61, RAHMISVE_VERDICT_KEPT, 1, 4, 3600000);
    fill_is(0, 0, 15);
    lent(0, 99, bad_hour, 3600001);
    watch[RAHMISVE_WATCH_FILL] = 1;
    stays(RAHMISVE_ANSWER_LONG_LIMIT, 0, 99, NULL, 0);
    watch[RAHMISVE_WATCH_LIMIT] = 500;
    stays(RAHMISVE_ANSWER_BAD_FILL, 0, 99, NULL, 0);
    watch[RAHMISVE_WATCH_FILL] = 0;
    stays(RAHMISVE_ANSWER_UNKNOWN_BLOCK, 0, 99, NULL, 0);
    stays(RAHMISVE_ANSWER_BAD_TAG, 0, 0, NULL, 0);
    stays(0, RAHMISVE_VERDICT_STRAY, 10, day_61, 8);
    told("watch_offer: the set is judged behind the expected block and before the last tag, and refusals and strays leave it");
}

/* ---- recordings ----------------------------------------------------------------------------------------------------------------- */

static void found(unsigned what, const uint8_t *recording, size_t recording_length, size_t from, unsigned tag, size_t start, size_t length)
{
    fresh();
    IS(rahmisve_next_field(recording, recording_length, from, &at.byte[1], &at.count[1], &at.count[3]) == what);
    IS(at.byte[1] == tag && at.count[1] == start && at.count[3] == length);
    IS(at.byte[0] == 0xFF && at.byte[2] == 0xFF);
    IS(ones(&at.count[0], 8) && ones(&at.count[2], 8) && ones(&at.count[4], 8));
}

/* A field of 258 bytes, 0x0102, with tag 7; an empty one with tag 200; one of a byte with tag 1. */
static void next_field(void)
{
    static uint8_t recording[268], longest[RAHMISVE_FIELD_BYTES] = {255, 255, 255};
    static const uint8_t first[] = {7, 1, 2}, rest[] = {200, 0, 0, 1, 0, 1, 9};
    stir_bytes(recording, sizeof recording);
    memcpy(recording, first, sizeof first);
    memcpy(recording + 261, rest, sizeof rest);
    found(RAHMISVE_FOUND_FIELD, recording, 268, 0, 7, RAHMISVE_FRONT_BYTES, 258);
    found(RAHMISVE_FOUND_FIELD, recording, 268, 261, 200, 264, 0);
    found(RAHMISVE_FOUND_FIELD, recording, 268, 264, 1, 267, 1);
    found(RAHMISVE_FOUND_FIELD, recording, 261, 0, 7, 3, 258);
    found(RAHMISVE_FOUND_FIELD, recording + 264, 4, 0, RAHMISVE_BLOCK_FIELD, 3, 1);
    found(RAHMISVE_FOUND_FIELD, longest, RAHMISVE_FIELD_BYTES, 0, 255, 3, 65535);
    told("next_field: tag, start and length, of an empty and of the longest field too");
    found(RAHMISVE_FOUND_END, recording, 268, 268, 0, 0, 0);
    found(RAHMISVE_FOUND_END, recording, 261, 261, 0, 0, 0);
    found(RAHMISVE_FOUND_END, recording, 268, 269, 0, 0, 0);
    found(RAHMISVE_FOUND_END, recording, 268, (size_t)-1, 0, 0, 0);
    found(RAHMISVE_FOUND_END, recording, 268, (size_t)1 << 32, 0, 0, 0);
    found(RAHMISVE_FOUND_END, NULL, 0, 0, 0, 0, 0);
    found(RAHMISVE_FOUND_END, NULL, 0, (size_t)-3, 0, 0, 0);
    told("next_field: the end, where it is and anywhere beyond it");
    found(RAHMISVE_FOUND_CUT, recording, 1, 0, 0, 0, 0);
    found(RAHMISVE_FOUND_CUT, recording, 2, 0, 0, 0, 0);
    found(RAHMISVE_FOUND_CUT, recording, 3, 0, 0, 0, 0);
    found(RAHMISVE_FOUND_CUT, recording, 260, 0, 0, 0, 0);
    found(RAHMISVE_FOUND_CUT, recording, 267, 264, 0, 0, 0);
    found(RAHMISVE_FOUND_CUT, recording, 268, 267, 0, 0, 0);
    found(RAHMISVE_FOUND_CUT, longest, RAHMISVE_FIELD_BYTES - 1, 0, 0, 0, 0);
    told("next_field: cut in the front and in the body");
}

/* The line of the first `length` bytes at bytes_there + 1, and room for `room` words. */
static unsigned line_there(uint64_t before, uint32_t tag, size_t length, size_t room)
{
    stir_words(words_there, 24000);
    memcpy(was_words, words_there, sizeof was_words);
    memcpy(was_bytes, bytes_there, sizeof was_bytes);
    fresh();
    unsigned answer = rahmisve_line(before, tag, length ? bytes_there + 1 : NULL, length, room ? words_there + 1 : NULL, room, &at.seq[1],
                                    &at.byte[1], &at.byte[3], &at.count[1]);
    IS(ones(&at.seq[0], 8) && ones(&at.seq[2], 8) && ones(&at.count[0], 8) && ones(&at.count[2], 8));
    IS(at.byte[0] == 0xFF && at.byte[2] == 0xFF && at.byte[4] == 0xFF);
    IS(memcmp(bytes_there, was_bytes, sizeof was_bytes) == 0);
    return answer;
}

static void not_lined(unsigned number, uint32_t tag, size_t length, size_t room)
{
    IS(line_there(41, tag, length, room) == number);
    IS(at.seq[1] == 42 && at.byte[1] == 0 && at.byte[3] == 0 && at.count[1] == 0);
    IS(memcmp(words_there, was_words, sizeof was_words) == 0);
}

static void line(void)
{
    uint8_t *block = a_block();
    static const uint64_t before[][2] = {{0, 1}, {41, 42}, {UINT64_C(0x100000006), UINT64_C(0x100000007)}, {UINT64_MAX, UINT64_MAX}};
    for (int i = 0; i < 4; i++) {
        IS(line_there(before[i][0], RAHMISVE_BLOCK_FIELD, 2772, 75) == RAHMISVE_ANSWER_ACCEPTED);
        IS(at.seq[1] == before[i][1] && at.byte[1] == 1 && at.byte[3] == 2 && at.count[1] == 68);
        memcpy(was_words + 1, words_here, 2 * 68);
        IS(memcmp(words_there, was_words, sizeof was_words) == 0);
    }
    told("line: each number in its place, the words in the room, and no field number above the largest");
    static const uint32_t tags[] = {0, 2, 255, 256 + 1, 65536 + 1, 0x80000001u};
    for (int i = 0; i < 6; i++)
        not_lined(RAHMISVE_ANSWER_OTHER_FIELD, tags[i], 2772, 75);
    not_lined(RAHMISVE_ANSWER_OTHER_FIELD, 2, 0, 0);
    not_lined(RAHMISVE_ANSWER_NO_HEADER, 1, 0, 0);
    not_lined(RAHMISVE_ANSWER_NO_HEADER, 1, 89, 75);
    not_lined(RAHMISVE_ANSWER_WRONG_LENGTH, 1, 2771, 75);
    not_lined(RAHMISVE_ANSWER_SMALL_ROOM, 1, 2772, 67);
    not_lined(RAHMISVE_ANSWER_SMALL_ROOM, 1, 2772, 0);
    block[90 + 2679] ^= 1;
    not_lined(RAHMISVE_ANSWER_CHECK_DISAGREES, 1, 2772, 75);
    told("line: another tag and a refused block leave the room and give zeros behind the field's number");
}

/* Each text into more room than it needs, into exactly enough, and into a byte less. */
enum text { FIRST, LINE, LAST };
struct numbers { uint64_t seq; uint32_t block, version; size_t word_count; uint32_t answer; };

static unsigned put_text(enum text which, struct numbers n, uint8_t *room, size_t length)
{
    fresh();
    if (which == FIRST)
        return rahmisve_first_text(room, length, &at.count[1]);
    if (which == LINE)
        return rahmisve_line_text(n.seq, n.block, n.version, n.word_count, n.answer, room, length, &at.count[1]);
    return rahmisve_last_text(n.answer, n.seq, room, length, &at.count[1]);
}

static void reads(enum text which, struct numbers n, const char *text)
{
    size_t length = strlen(text);
    for (int less = -1; less <= 1; less++) {
        size_t room = less < 0 ? RAHMISVE_LINE_BYTES : length - (size_t)less;
        stir_bytes(bytes_here, 200);
        memcpy(was_bytes, bytes_here, 200);
        if (less <= 0)
            memcpy(was_bytes + 1, text, length);
        IS(put_text(which, n, bytes_here + 1, room) == (less <= 0 ? RAHMISVE_ANSWER_ACCEPTED : RAHMISVE_ANSWER_SMALL_ROOM));
        IS(at.count[1] == (less <= 0 ? length : 0) && ones(&at.count[0], 8) && ones(&at.count[2], 8));
        IS(memcmp(bytes_here, was_bytes, 200) == 0);
    }
    IS(put_text(which, n, NULL, 0) == RAHMISVE_ANSWER_SMALL_ROOM && at.count[1] == 0);
}

static void text_of_line(uint64_t seq, uint32_t block, uint32_t version, size_t word_count, uint32_t answer, const char *text)
{
    struct numbers n = {seq, block, version, word_count, answer};
    reads(LINE, n, text);
}

static void text_of_last(uint32_t cut, uint64_t fields, const char *text)
{
    struct numbers n = {fields, 0, 0, 0, cut};
    reads(LAST, n, text);
}

static void texts(void)
{
    struct numbers none = {0, 0, 0, 0, 0};
    reads(FIRST, none, "seq block version words answer\n");
    told("first_text: byte for byte, and a room too small by one is as it was");
    text_of_line(1, 3, 2, 20, 0, "1 3 2 20 0\n");
    text_of_line(UINT64_C(10000000000), 11, 1, 10720, 0, "10000000000 11 1 10720 0\n");
    text_of_line(UINT64_MAX, 256, 65536, (size_t)-1, 0, "18446744073709551615 255 255 18446744073709551615 0\n");
    text_of_line(0, 0, 255, 0, 0, "0 0 255 0 0\n");
    text_of_line(2, 0, 0, 0, RAHMISVE_ANSWER_NO_HEADER, "2 - - - 1\n");
    text_of_line(7, 3, 2, 20, 17, "7 - - - 17\n");
    text_of_line(UINT64_MAX, 3, 2, 20, 256, "18446744073709551615 - - - 255\n");
    text_of_line(7, 3, 2, 20, 0x80000000u, "7 - - - 255\n");
    told("line_text: of a block and of a refusal, with numbers of every width, byte for byte");
    text_of_last(0, 2, "end 2\n");
    text_of_last(1, 0, "cut 0\n");
    text_of_last(256, 105, "cut 105\n");
    text_of_last(0x80000000u, UINT64_MAX, "cut 18446744073709551615\n");
    text_of_last(0, UINT64_C(0x100000000), "end 4294967296\n");
    told("last_text: end and cut, byte for byte");
}

/* ---- salvage -------------------------------------------------------------------------------------------------------------------- */

enum { TAPE_BYTES = 50000, ENTRIES = RAHMISVE_SALVAGE_ENTRIES(TAPE_BYTES), NUMBERS = ENTRIES * RAHMISVE_ENTRY_NUMBERS };
enum { RECORDING_BYTES = RAHMISVE_SALVAGE_BYTES(TAPE_BYTES) };

/* An input, at an odd address, and what is to come of it: a recording, a report, and how much each has. */
static struct {
    uint8_t before, input[TAPE_BYTES], recording[RECORDING_BYTES];
    size_t report[ENTRIES][RAHMISVE_ENTRY_NUMBERS];
    size_t length, bytes, entries, blocks;
} tape;

/* What is lent for that, each with something around it. */
static uint8_t recording_here[1 + RECORDING_BYTES + 1], was_recording[sizeof recording_here], was_input[TAPE_BYTES];
static size_t report_here[1 + NUMBERS + 1], was_report[1 + NUMBERS + 1];

static void new_tape(void) { memset(&tape, 0, sizeof tape); }

static void note(size_t bytes, unsigned found)
{
    size_t *entry = tape.report[tape.entries++];
    entry[RAHMISVE_ENTRY_START] = tape.length;
    entry[RAHMISVE_ENTRY_BYTES] = bytes;
    entry[RAHMISVE_ENTRY_FOUND] = found;
    tape.length += bytes;
}

static void add_junk(size_t bytes)
{
    stir_bytes(tape.input + tape.length, bytes);
    note(bytes, RAHMISVE_SPAN);
}

/* The block that is to be found there, as a field of the recording. */
static void add_field(const uint8_t *block, size_t bytes)
{
    uint8_t *field = tape.recording + tape.bytes;
    field[0] = RAHMISVE_BLOCK_FIELD;
    field[1] = (uint8_t)(bytes >> 8);
    field[2] = (uint8_t)(bytes & 255);
    memcpy(field + RAHMISVE_FRONT_BYTES, block, bytes);
    tape.bytes += RAHMISVE_FRONT_BYTES + bytes;
    tape.blocks++;
}

/* A block 1 of so many words, with the header copies in ruins that are named, as in "13"; its words are what is read to the scratch. */
static uint8_t *add_block(size_t count, size_t field, const char *ruins)
{
    static const unsigned changed[] = {RAHMISVE_CHANGED_FIRST, RAHMISVE_CHANGED_SECOND, RAHMISVE_CHANGED_THIRD};
    unsigned found = 0;
    uint8_t *block = tape.input + tape.length;
    head(header_here, 1, 10, (unsigned)count, 2);
    stir_to(words_here, count, 10);
    size_t bytes = block_of(block, words_here, count, 10, field);
    add_field(block, bytes);
    for (; *ruins; ruins++) {
        block[30 * (*ruins - '1') + 5] ^= 0x10;
        found += changed[*ruins - '1'];
    }
    memcpy(was_words + 1, words_here, 2 * count);
    note(bytes, found);
    return block;
}

static uint8_t *add_short(const char *ruins) { return add_block(68, 2680, ruins); }

/* Fills what is lent; a block that is added afterwards writes its words over what is expected of the scratch. */
static void stir_rooms(void)
{
    stir_words(words_there, 24000);
    memcpy(was_words, words_there, sizeof was_words);
    stir_bytes(recording_here, sizeof recording_here);
    memcpy(was_recording, recording_here, sizeof was_recording);
    memset(report_here, 0x77, sizeof report_here);
    memcpy(was_report, report_here, sizeof was_report);
}

/* Salvages the tape in rooms so long, and looks around the places. */
static unsigned salvage_in(size_t recording, size_t report, size_t scratch)
{
    memcpy(was_input, tape.input, sizeof was_input);
    fresh();
    unsigned number = rahmisve_salvage(tape.length ? tape.input : NULL, tape.length, recording ? recording_here + 1 : NULL, recording,
                                       report ? report_here + 1 : NULL, report, scratch ? words_there + 1 : NULL, scratch, &at.count[1],
                                       &at.count[3], &at.count[5]);
    for (int i = 0; i < 7; i += 2)
        IS(ones(&at.count[i], 8));
    IS(memcmp(tape.input, was_input, sizeof was_input) == 0);
    IS(memcmp(words_there, was_words, sizeof was_words) == 0);
    IS(memcmp(recording_here, was_recording, sizeof was_recording) == 0);
    IS(memcmp(report_here, was_report, sizeof was_report) == 0);
    return number;
}

/* The rooms as they are to be afterwards, and the places. */
static void salvaged(size_t recording, size_t report, size_t scratch)
{
    memcpy(was_recording + 1, tape.recording, tape.bytes);
    memcpy(was_report + 1, tape.report, tape.entries * sizeof *tape.report);
    IS(salvage_in(recording, report, scratch) == RAHMISVE_ANSWER_ACCEPTED);
    IS(at.count[1] == tape.bytes && at.count[3] == tape.entries && at.count[5] == tape.blocks);
}

/* The least rooms that the tape asks for, by the header and as the scope has it. */
static size_t least_bytes(void)
{
    size_t bytes = RAHMISVE_SALVAGE_BYTES(tape.length);
    IS(bytes == tape.length + 3 * (tape.length / 2772));
    return bytes;
}

static size_t least_numbers(void)
{
    size_t numbers = RAHMISVE_SALVAGE_ENTRIES(tape.length) * RAHMISVE_ENTRY_NUMBERS;
    IS(numbers == 6 * (tape.length / 2772) + 3);
    return numbers;
}

static void not_salvaged(unsigned number, size_t recording, size_t report, size_t scratch)
{
    stir_rooms();
    IS(salvage_in(recording, report, scratch) == number);
    IS(at.count[1] == 0 && at.count[3] == 0 && at.count[5] == 0);
}

/* Each room one too small; an empty input asks for no bytes of recording, so these cannot be fewer. */
static void small_rooms(void)
{
    size_t recording = least_bytes(), report = least_numbers(), scratch = RAHMISVE_MOST_WORDS;
    if (recording > 0)
        not_salvaged(RAHMISVE_ANSWER_SMALL_ROOM, recording - 1, report, scratch);
    not_salvaged(RAHMISVE_ANSWER_SMALL_ROOM, recording, report - 1, scratch);
    not_salvaged(RAHMISVE_ANSWER_SMALL_ROOM, recording, report, scratch - 1);
    not_salvaged(RAHMISVE_ANSWER_SMALL_ROOM, 0, 0, 0);
}

static void no_block(void) { not_salvaged(RAHMISVE_ANSWER_NO_BLOCK, least_bytes(), least_numbers(), RAHMISVE_MOST_WORDS); }

static void salvage(void)
{
    static const char *const ruins[] = {"12", "13", "23", "1", "2", "3"};
    stir_rooms();
    new_tape();
    add_junk(137);
    add_block(RAHMISVE_MOST_WORDS, MOST_FIELD, "");
    add_short("");
    add_junk(1);
    add_short("");
    add_junk(2771);
    salvaged(RECORDING_BYTES, NUMBERS, RAHMISVE_MOST_WORDS + 3);
    told("salvage: blocks with junk before, between and behind them, every number in its place, nothing behind what is written changed");
    for (int i = 0; i < 6; i++) {
        stir_rooms();
        new_tape();
        add_junk(1);
        add_short(ruins[i]);
        add_short(ruins[5 - i]);
        salvaged(least_bytes(), least_numbers(), RAHMISVE_MOST_WORDS);
    }
    told("salvage: one copy and two in ruins, each of them, in rooms just long enough");

    stir_rooms();
    new_tape();
    uint8_t *block = add_short("1");
    block[RAHMISVE_HEADER_ID] = 12;
    seal(block, 28);
    salvaged(least_bytes(), least_numbers(), RAHMISVE_MOST_WORDS);
    stir_rooms();
    new_tape();
    block = add_short("");
    block[27] = 0;
    seal(block, 28);
    tape.report[0][RAHMISVE_ENTRY_FOUND] = RAHMISVE_CHANGED_SECOND + RAHMISVE_CHANGED_THIRD;
    for (int k = 0; k < 3; k++)
        memcpy(tape.recording + RAHMISVE_FRONT_BYTES + 30 * k, block, 30);
    salvaged(least_bytes(), least_numbers(), RAHMISVE_MOST_WORDS);
    told("salvage: of copies that pass and differ the first that makes a block");
}

static void refused_by_salvage(void)
{
    new_tape();
    small_rooms();
    no_block();
    for (size_t bytes = 2771; bytes <= 2773; bytes++) {
        new_tape();
        add_junk(bytes);
        small_rooms();
        no_block();
    }
    stir_rooms();
    new_tape();
    add_short("");
    small_rooms();
    add_short("1");
    add_junk(5);
    small_rooms();
    told("salvage: a room too small by one, whatever the input holds, and nothing has changed");
    new_tape();
    add_short("123");
    no_block();
    new_tape();
    uint8_t *block = add_short("");
    tape.length--;
    no_block();
    block[90 + 2679] ^= 1;
    tape.length++;
    no_block();
    seal(block + 90, 2680);
    no_block();
    told("salvage: no block, nor a part or a damaged one, nor anything at NULL: nothing has changed");
}

int main(void)
{
    good = 1;
    version_and_answers();
    check_word();
    words_of_a_field();
    good_blocks();
    refused_by_the_writer();
    copies_that_pass();
    refused_by_the_reader();
    plans();
    record();
    place();
    second();
    parity();
    read_tag();
    write_tag();
    leap_seconds();
    elapsed();
    sounder_status();
    detectors_of_the_sounder();
    ranges_of_the_frame();
    fields_of_the_frame();
    tags_of_the_sounder();
    refused_of_the_sounder();
    detectors_that_are_none();
    large_words_of_the_sounder();
    watch_begin();
    watch_offer();
    scan_over_a_leap_second();
    offers_by_bad_lists();
    scans_with_fill();
    closings_with_fill();
    sets_out_of_bounds();
    refused_for_the_set();
    next_field();
    line();
    texts();
    salvage();
    refused_by_salvage();
    return !all_good;
}
