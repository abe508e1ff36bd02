/* walk FILE: takes the one block of a file apart, step by step, for docs/WALK.md. A line `== N` begins step N, and the lines behind it are
 * on the page. What is printed comes from the file and from the library, of the block as it is and as it is changed here and there. */
#include <stdio.h>
#include <string.h>

#include "rahmisve.h"

enum { CHECK_BYTES = 2, COPY_BYTES = RAHMISVE_HEADER_BYTES + CHECK_BYTES, COPIES_BYTES = RAHMISVE_COPY_MARKS * COPY_BYTES, BOUNDARY = 16 };

static uint8_t sent[RAHMISVE_MOST_BYTES + 1], block[RAHMISVE_MOST_BYTES + 1];
static uint16_t words[RAHMISVE_MOST_WORDS];
static uint8_t header[RAHMISVE_HEADER_BYTES], copies[RAHMISVE_COPY_MARKS];
static uint8_t number, version, size, records;
static size_t length, word_count, field_bytes;

static unsigned high(const uint8_t *at)
{
    return at[0] * 256u + at[1];
}

/* The block as it was sent, to be changed. */
static void anew(void)
{
    memcpy(block, sent, sizeof sent);
}

/* Puts the check word of a message behind it. */
static void seal(uint8_t *message, size_t bytes)
{
    unsigned check = rahmisve_check_word(message, bytes);
    message[bytes] = (uint8_t)(check >> 8);
    message[bytes + 1] = (uint8_t)(check & 255);
}

/* The block with another byte in all three header copies, each with its own check. */
static void say(size_t place, unsigned value)
{
    anew();
    for (int k = 0; k < RAHMISVE_COPY_MARKS; k++) {
        block[k * COPY_BYTES + place] = (uint8_t)value;
        seal(block + k * COPY_BYTES, RAHMISVE_HEADER_BYTES);
    }
}

/* What the changed block is answered, of so many bytes and with room for so many words. */
static unsigned answer_in(size_t bytes, size_t room)
{
    uint8_t given[RAHMISVE_HEADER_BYTES];
    size_t count;
    return rahmisve_read(block, bytes, words, room, given, copies, &count);
}

static void tell(unsigned answer)
{
    if (answer == RAHMISVE_ANSWER_ACCEPTED)
        printf("accepted\n");
    else
        printf("refused with %u\n", answer);
}

static void tell_block(void)
{
    tell(answer_in(length, RAHMISVE_MOST_WORDS));
}

static void print_bytes(const uint8_t *at, size_t bytes)
{
    for (size_t i = 0; i < bytes; i++)
        printf("%s%02X", i ? " " : "", at[i]);
}

static void print_bits(unsigned value, unsigned bits)
{
    while (bits--)
        putchar('0' + (value >> bits & 1));
}

/* A word as the powers of two that it is made of. */
static void print_powers(unsigned word)
{
    unsigned left = word;
    for (unsigned power = 0x8000; power; power /= 2)
        if (left & power) {
            left -= power;
            printf("%u%s", power, left ? " + " : " = ");
        }
    printf("%u\n", word);
}

static void step_whole(void)
{
    printf("== 1\n%zu bytes\n", length);
    printf("bytes 0 to %d: %d header copies of %d bytes\n", COPIES_BYTES - 1, RAHMISVE_COPY_MARKS, COPY_BYTES);
    printf("bytes %d to %zu: the information field\n", COPIES_BYTES, COPIES_BYTES + field_bytes - 1);
    printf("bytes %zu and %zu: its check word\n", length - 2, length - 1);
    anew();
    printf("the first %d bytes alone: ", COPIES_BYTES - 1);
    tell(answer_in(COPIES_BYTES - 1, RAHMISVE_MOST_WORDS));
}

static void step_copies(void)
{
    anew();
    answer_in(length, RAHMISVE_MOST_WORDS);
    printf("== 2\n");
    for (int k = 0; k < RAHMISVE_COPY_MARKS; k++)
        printf("copy %d, bytes %d to %d: %s\n", k + 1, k * COPY_BYTES, (k + 1) * COPY_BYTES - 1, copies[k] ? "passes" : "fails");
    block[5] ^= 0x10;
    printf("byte 5 turned from %02X to %02X: ", sent[5], block[5]);
    tell_block();
    for (int k = 0; k < RAHMISVE_COPY_MARKS; k++)
        printf("copy %d %s\n", k + 1, copies[k] ? "passes" : "fails");
    for (int k = 1; k < RAHMISVE_COPY_MARKS; k++)
        block[k * COPY_BYTES + 5] ^= 0x10;
    printf("the same in every copy: ");
    tell_block();
    anew();
    block[COPY_BYTES + RAHMISVE_HEADER_VERSION]++;
    seal(block + COPY_BYTES, RAHMISVE_HEADER_BYTES);
    printf("copy 2 with version %u and a check word of its own: ", block[COPY_BYTES + RAHMISVE_HEADER_VERSION]);
    tell_block();
}

/* The first byte into the register, bit after bit, with the generator that the library is seen to have: turning a message's last bit joins
 * it once more. */
static void print_first_byte(unsigned reg)
{
    const uint8_t zero = 0, one = 1;
    unsigned of_zero = rahmisve_check_word(&zero, 1), of_one = rahmisve_check_word(&one, 1), generator = of_zero ^ of_one;
    printf("the check word of 00: %04X\nthe check word of 01: %04X\n", of_zero, of_one);
    printf("they differ by %04X, which is x^16", generator);
    for (int power = 15; power > 0; power--)
        if (generator >> power & 1)
            printf(" + x^%d", power);
    printf("%s without its first term\nbyte 0 is %02X: ", generator & 1 ? " + 1" : "", sent[0]);
    print_bits(sent[0], 8);
    putchar('\n');
    for (int bit = 7; bit >= 0; bit--) {
        unsigned leaves = reg >> 15, comes = sent[0] >> bit & 1u;
        printf("%04X: %u leaves, the message has %u: ", reg, leaves, comes);
        reg = reg << 1 & 0xFFFF;
        printf("%04X", reg);
        if (leaves != comes) {
            reg ^= generator;
            printf(", joined with %04X: %04X", generator, reg);
        }
        putchar('\n');
    }
    printf("the register behind byte 0: %04X by hand, %04X by the library\n", reg, 0xFFFF ^ (unsigned)rahmisve_check_word(sent, 1));
}

static void step_check(void)
{
    unsigned start = 0xFFFF ^ rahmisve_check_word(sent, 0), check = rahmisve_check_word(sent, RAHMISVE_HEADER_BYTES);
    printf("== 3\nthe message: bytes 0 to %d\n", RAHMISVE_HEADER_BYTES - 1);
    printf("the register: %04X at the start, %04X at the end\n", start, 0xFFFF ^ check);
    printf("complemented: %04X\n", check);
    printf("received in bytes %d and %d: %04X\n", RAHMISVE_HEADER_BYTES, COPY_BYTES - 1, high(sent + RAHMISVE_HEADER_BYTES));
    anew();
    block[5] ^= 0x10;
    printf("the check word where byte 5 is %02X: %04X\n", block[5], (unsigned)rahmisve_check_word(block, RAHMISVE_HEADER_BYTES));
    printf("the check word of the ASCII digits 123456789: %04X\n", (unsigned)rahmisve_check_word((const uint8_t *)"123456789", 9));
    print_first_byte(start);
}

static void step_header(void)
{
    printf("== 4\nword %d: %02X, block %u\n", RAHMISVE_HEADER_ID + 1, header[RAHMISVE_HEADER_ID], number);
    printf("word %d: %02X, words of %u bits\n", RAHMISVE_HEADER_SIZE + 1, header[RAHMISVE_HEADER_SIZE], size);
    printf("words %d and %d: ", RAHMISVE_HEADER_COUNT + 1, RAHMISVE_HEADER_COUNT + 2);
    print_bytes(header + RAHMISVE_HEADER_COUNT, 2);
    printf(", a count of %u: C is %zu\n", high(header + RAHMISVE_HEADER_COUNT), word_count);
    printf("word %d: %02X, version %u\n", RAHMISVE_HEADER_VERSION + 1, header[RAHMISVE_HEADER_VERSION], version);
    printf("word %d: %02X, marked valid\n", RAHMISVE_HEADER_VALID + 1, header[RAHMISVE_HEADER_VALID]);
    printf("words %d to %d: ", RAHMISVE_HEADER_TIME + 1, RAHMISVE_HEADER_TIME + RAHMISVE_TAG_BYTES);
    print_bytes(header + RAHMISVE_HEADER_TIME, RAHMISVE_TAG_BYTES);
    printf(", the SPS time\nid 0: ");
    say(RAHMISVE_HEADER_ID, 0);
    tell_block();
    printf("version 4: ");
    say(RAHMISVE_HEADER_VERSION, 4);
    tell_block();
    printf("marked not valid: ");
    say(RAHMISVE_HEADER_VALID, 0);
    tell_block();
}

static void step_row(void)
{
    size_t start, long_;
    rahmisve_record(header, sizeof header, word_count, 1, &start, &long_);
    printf("== 5\nblock %u: words of %u bits, %u records\n", number, size, records);
    printf("%zu = %u x %zu, and %zu = %d + %zu: n is %zu\n", word_count, records, long_, long_, RAHMISVE_DOCUMENTATION_WORDS,
           long_ - RAHMISVE_DOCUMENTATION_WORDS, long_ - RAHMISVE_DOCUMENTATION_WORDS);
    printf("words of 8 bits: ");
    say(RAHMISVE_HEADER_SIZE, 8);
    tell_block();
    say(RAHMISVE_HEADER_COUNT + 1, header[RAHMISVE_HEADER_COUNT + 1] + 1u);
    printf("a count of %u: ", high(block + RAHMISVE_HEADER_COUNT));
    tell_block();
}

static void step_length(void)
{
    size_t bits = word_count * size;
    printf("== 6\n%zu x %u = %zu bits of words\n", word_count, size, bits);
    printf("up to a multiple of %d: %zu\n", BOUNDARY, (bits + BOUNDARY - 1) / BOUNDARY * BOUNDARY);
    printf("never fewer than %zu bits: %zu bytes\n", field_bytes * 8, field_bytes);
    printf("%d + %zu + %d = %zu bytes\n", COPIES_BYTES, field_bytes, CHECK_BYTES, COPIES_BYTES + field_bytes + CHECK_BYTES);
    printf("the check word begins at bit %zu = %d x %zu\n", (length - 2) * 8, BOUNDARY, (length - 2) * 8 / BOUNDARY);
    anew();
    printf("a byte fewer: ");
    tell(answer_in(length - 1, RAHMISVE_MOST_WORDS));
    printf("a byte more: ");
    tell(answer_in(length + 1, RAHMISVE_MOST_WORDS));
    printf("room for %zu words: ", word_count - 1);
    tell(answer_in(length, word_count - 1));
}

static void step_field_check(void)
{
    printf("== 7\nthe message: bytes %d to %zu\n", COPIES_BYTES, length - 3);
    printf("its check word: %04X\n", (unsigned)rahmisve_check_word(sent + COPIES_BYTES, field_bytes));
    printf("received in bytes %zu and %zu: %04X\n", length - 2, length - 1, high(sent + length - 2));
    anew();
    block[100] ^= 0x10;
    printf("byte 100 turned from %02X to %02X: ", sent[100], block[100]);
    tell_block();
}

static void step_fill(void)
{
    size_t first = word_count * size, bits = field_bytes * 8, last = COPIES_BYTES + field_bytes - 1, zeros = last + 1;
    while (sent[zeros - 1] == 0)
        zeros--;
    printf("== 8\nbits 0 to %zu of the field: %zu words\n", first - 1, word_count);
    printf("bits %zu to %zu: fill, %zu bits\n", first, bits - 1, bits - first);
    printf("zero from byte %zu to byte %zu: %zu bytes\n", zeros, last, last - zeros + 1);
    anew();
    block[COPIES_BYTES + first / 8] |= (uint8_t)(0x80 >> first % 8);
    seal(block + COPIES_BYTES, field_bytes);
    printf("bit %zu set, and a check word that says so: ", first);
    tell_block();
}

static void step_words(void)
{
    const uint8_t *field = sent + COPIES_BYTES;
    anew();
    answer_in(length, RAHMISVE_MOST_WORDS);
    printf("== 9\n4 words of %u bits in 5 bytes\n", size);
    print_bytes(field, 5);
    printf("\n");
    for (int i = 0; i < 5; i++) {
        print_bits(field[i], 8);
        putchar(i < 4 ? ' ' : '\n');
    }
    for (int i = 0; i < 4; i++) {
        print_bits(words[i], size);
        putchar(i < 3 ? ' ' : '\n');
    }
    printf("%u %u %u %u\n", words[0], words[1], words[2], words[3]);
    print_powers(words[0]);
    printf("%zu words: the first %u, the last %u\n", word_count, words[0], words[word_count - 1]);
}

static void step_records(void)
{
    size_t start, long_;
    uint8_t channel, detector;
    printf("== 10\n%zu words, %u records\n", word_count, records);
    for (unsigned k = 1; k <= records; k++) {
        rahmisve_record(header, sizeof header, word_count, k, &start, &long_);
        rahmisve_place(number, version, k, &channel, &detector);
        printf("record %u: %zu words from word %zu, %d of documentation, %u to %u, pixel %u, channel %u, detector %u\n", k, long_, start,
               RAHMISVE_DOCUMENTATION_WORDS, words[start], words[start + RAHMISVE_DOCUMENTATION_WORDS - 1],
               words[start + RAHMISVE_DOCUMENTATION_WORDS], channel, detector);
    }
    rahmisve_place(number, 1, 1, &channel, &detector);
    printf("record 1 in version 1: channel %u, detector %u\n", channel, detector);
    printf("record %u: ", records + 1u);
    tell(rahmisve_record(header, sizeof header, word_count, records + 1u, &start, &long_));
    printf("with %zu words lent: ", word_count - 1);
    tell(rahmisve_record(header, sizeof header, word_count - 1, 1, &start, &long_));
}

static void step_time(void)
{
    uint8_t tag[RAHMISVE_TAG_BYTES], begin[RAHMISVE_TAG_BYTES];
    uint32_t time[RAHMISVE_TIME_NUMBERS], midnight[RAHMISVE_TIME_NUMBERS] = {0};
    int64_t ms;

    memcpy(tag, header + RAHMISVE_HEADER_TIME, sizeof tag);
    rahmisve_read_tag(tag, sizeof tag, NULL, 0, time);
    printf("== 11\nwords %d to %d: ", RAHMISVE_HEADER_TIME + 1, RAHMISVE_HEADER_TIME + RAHMISVE_TAG_BYTES);
    print_bytes(tag, sizeof tag);
    printf("\n%u day %u, ", (unsigned)time[RAHMISVE_TIME_YEAR], (unsigned)time[RAHMISVE_TIME_DAY]);
    printf("%02u:%02u:%02u.%03u, flywheel %s\n", (unsigned)time[RAHMISVE_TIME_HOUR], (unsigned)time[RAHMISVE_TIME_MINUTE],
           (unsigned)time[RAHMISVE_TIME_SECOND], (unsigned)time[RAHMISVE_TIME_MILLISECOND], time[RAHMISVE_TIME_FLYWHEEL] ? "on" : "off");
    midnight[RAHMISVE_TIME_YEAR] = time[RAHMISVE_TIME_YEAR];
    midnight[RAHMISVE_TIME_DAY] = time[RAHMISVE_TIME_DAY];
    rahmisve_write_tag(midnight, NULL, 0, begin);
    rahmisve_elapsed(begin, sizeof begin, tag, sizeof tag, NULL, 0, &ms);
    printf("from midnight of the same day: %ld ms\n", (long)ms);
    rahmisve_elapsed(tag, sizeof tag, begin, sizeof begin, NULL, 0, &ms);
    printf("back to that midnight: %ld ms\n", (long)ms);
    tag[2] |= 0x80;
    rahmisve_read_tag(tag, sizeof tag, NULL, 0, time);
    rahmisve_elapsed(header + RAHMISVE_HEADER_TIME, sizeof tag, tag, sizeof tag, NULL, 0, &ms);
    printf("byte 3 as %02X: day %u, flywheel %s, %ld ms away\n", tag[2], (unsigned)time[RAHMISVE_TIME_DAY],
           time[RAHMISVE_TIME_FLYWHEEL] ? "on" : "off", (long)ms);
    tag[7] = 0x9A;
    printf("byte 8 as %02X: ", tag[7]);
    tell(rahmisve_read_tag(tag, sizeof tag, NULL, 0, time));
}

static void step_back(void)
{
    size_t bytes;
    anew();
    answer_in(length, RAHMISVE_MOST_WORDS);
    memset(block, 0xFF, sizeof block);
    unsigned answer = rahmisve_write(header, sizeof header, words, word_count, block, sizeof block, &bytes);
    printf("== 12\n%d header bytes and %zu words: ", RAHMISVE_HEADER_BYTES, word_count);
    tell(answer);
    printf("%zu bytes, %s\n", bytes, bytes == length && memcmp(block, sent, length) == 0 ? "those of the file" : "others than the file's");
    printf("a word of %u: ", 1u << size);
    words[0] = (uint16_t)(1u << size);
    tell(rahmisve_write(header, sizeof header, words, word_count, block, sizeof block, &bytes));
}

int main(int argc, char **argv)
{
    FILE *file = argc == 2 ? fopen(argv[1], "rb") : NULL;
    if (!file) {
        fprintf(stderr, "usage: walk FILE\n");
        return 2;
    }
    length = fread(sent, 1, RAHMISVE_MOST_BYTES, file);
    fclose(file);
    if (rahmisve_read(sent, length, words, RAHMISVE_MOST_WORDS, header, copies, &word_count) != RAHMISVE_ANSWER_ACCEPTED ||
        rahmisve_plan(header, sizeof header, &number, &version, &size, &records, &word_count, &field_bytes) != RAHMISVE_ANSWER_ACCEPTED) {
        fprintf(stderr, "%s: no block\n", argv[1]);
        return 1;
    }
    step_whole();
    step_copies();
    step_check();
    step_header();
    step_row();
    step_length();
    step_field_check();
    step_fill();
    step_words();
    step_records();
    step_time();
    step_back();
    return 0;
}
