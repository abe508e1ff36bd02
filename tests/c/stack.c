/* Calls each function, accepted, on a stack of its own that was painted before, and looks how far down the paint is gone. Prints for each
 * how many bytes that is, with the return address and with those of its arguments that go over the stack. For x86-64. */
#include <stdio.h>
#include <string.h>

#include "rahmisve.h"

static uint8_t stack[65536] __attribute__((aligned(16)));

static uint8_t header[RAHMISVE_HEADER_BYTES], common[RAHMISVE_HEADER_BYTES], copies[RAHMISVE_COPY_MARKS], block[RAHMISVE_MOST_BYTES];
static uint8_t one[4], text[RAHMISVE_LINE_BYTES], holds[RAHMISVE_IMAGER_MARKS], tag[RAHMISVE_TAG_BYTES], field[RAHMISVE_MOST_BYTES];
static uint8_t recording[RAHMISVE_SALVAGE_BYTES(sizeof block)];
static uint16_t words[RAHMISVE_MOST_WORDS], documentation[RAHMISVE_SOUNDER_WORDS];
static uint32_t time[RAHMISVE_TIME_NUMBERS], watch[RAHMISVE_WATCH_NUMBERS], days[RAHMISVE_MOST_LEAP_DAYS], fill[2];
static uint32_t status[RAHMISVE_SOUNDER_NUMBERS], tags[RAHMISVE_SOUNDER_TAGS][RAHMISVE_SOUNDER_TAG_NUMBERS];
static size_t bytes, count[3], report[RAHMISVE_SALVAGE_ENTRIES(sizeof block)][RAHMISVE_ENTRY_NUMBERS];
static uint64_t seq;
static int64_t ms;

/* Each answers 0. */
static uint8_t version(void) { return rahmisve_version() != RAHMISVE_VERSION; }
static uint8_t write(void) { return rahmisve_write(header, sizeof header, words, 68, block, sizeof block, &bytes); }
static uint8_t read(void) { return rahmisve_read(block, bytes, words, RAHMISVE_MOST_WORDS, common, copies, count); }
static uint8_t plan(void) { return rahmisve_plan(header, sizeof header, one, one + 1, one + 2, one + 3, count, count + 1); }
static uint8_t record(void) { return rahmisve_record(header, sizeof header, 68, 2, count, count + 1); }
static uint8_t place(void) { return rahmisve_place(1, 2, 3, one, one + 1); }
static uint8_t parity_imager(void) { return rahmisve_parity_imager(words, RAHMISVE_PARITY_WORDS, holds); }
static uint8_t parity_sounder(void) { return rahmisve_parity_sounder(words, RAHMISVE_PARITY_WORDS, holds); }
static uint8_t write_tag(void) { return rahmisve_write_tag(time, days, RAHMISVE_MOST_LEAP_DAYS, tag); }
static uint8_t read_tag(void) { return rahmisve_read_tag(tag, sizeof tag, days, RAHMISVE_MOST_LEAP_DAYS, time); }
static uint8_t elapsed(void) { return rahmisve_elapsed(tag, sizeof tag, tag, sizeof tag, days, RAHMISVE_MOST_LEAP_DAYS, &ms); }
static uint8_t sounder_status(void)
{
    return rahmisve_sounder_status(documentation, RAHMISVE_SOUNDER_WORDS, days, RAHMISVE_MOST_LEAP_DAYS, status, tags);
}
static uint8_t sounder_suspect(void)
{
    return rahmisve_sounder_suspect(documentation, RAHMISVE_SOUNDER_WORDS, days, RAHMISVE_MOST_LEAP_DAYS, 19, 4, fill, one);
}
static uint8_t watch_begin(void) { return rahmisve_watch_begin(500, watch); }
static uint8_t watch_offer(void) /* the first opens a scan; each one behind it closes that, hands a set over and opens the next */
{
    return rahmisve_watch_offer(watch, 0, 0, tag, sizeof tag, days, RAHMISVE_MOST_LEAP_DAYS, one, fill, fill + 1);
}
static uint8_t next_field(void) { return rahmisve_next_field(block, bytes, 0, one, count, count + 1) == RAHMISVE_FOUND_END; }
static uint8_t line(void) { return rahmisve_line(0, 1, block, bytes, words, RAHMISVE_MOST_WORDS, &seq, one, one + 1, count); }
static uint8_t first_text(void) { return rahmisve_first_text(text, sizeof text, count); }
static uint8_t line_text(void) { return rahmisve_line_text((uint64_t)-1, 255, 255, (size_t)-1, 0, text, sizeof text, count); }
static uint8_t last_text(void) { return rahmisve_last_text(1, (uint64_t)-1, text, sizeof text, count); }
static uint8_t salvage(void)
{
    return rahmisve_salvage(block, sizeof block, recording, sizeof recording, report[0], sizeof report / sizeof report[0][0], words,
                            RAHMISVE_MOST_WORDS, count, count + 1, count + 2);
}
static uint8_t check_word(void) { return rahmisve_check_word(block, bytes) == 0; }
static uint8_t take_words(void) { return rahmisve_take_words(field, sizeof field, 10, 68, words, RAHMISVE_MOST_WORDS); }
static uint8_t put_words(void) { return rahmisve_put_words(words, 68, 10, field, sizeof field); }

#define CALL(name) {"rahmisve_" #name, name}
static const struct { const char *name; uint8_t (*call)(void); } calls[] = {
    CALL(version),         CALL(write),          CALL(read),        CALL(plan),       CALL(record),     CALL(place),
    CALL(parity_imager),   CALL(parity_sounder), CALL(write_tag),   CALL(read_tag),   CALL(elapsed),    CALL(sounder_status),
    CALL(sounder_suspect), CALL(watch_begin),    CALL(watch_offer), CALL(next_field), CALL(line),       CALL(first_text),
    CALL(line_text),       CALL(last_text),      CALL(salvage),     CALL(check_word), CALL(take_words), CALL(put_words),
};

/* How far down the paint is gone after a call on the painted stack. */
static size_t depth(uint8_t (*call)(void), int paint)
{
    size_t clean = 0;
    memset(stack, paint, sizeof stack);
    __asm__ volatile("movq %%rsp, %%rbx\n\t"
                     "movq %1, %%rsp\n\t"
                     "callq *%0\n\t"
                     "movq %%rbx, %%rsp"
                     :
                     : "r"(call), "r"(stack + sizeof stack)
                     : "rax", "rbx", "rcx", "rdx", "rsi", "rdi", "r8", "r9", "r10", "r11", "memory", "cc", "xmm0", "xmm1", "xmm2", "xmm3",
                       "xmm4", "xmm5", "xmm6", "xmm7", "xmm8", "xmm9", "xmm10", "xmm11", "xmm12", "xmm13", "xmm14", "xmm15");
    while (clean < sizeof stack && stack[clean] == (uint8_t)paint)
        clean++;
    return sizeof stack - clean;
}

/* A Sounder documentation block whose fifteen tags are those of the time at hand. */
static void document(void)
{
    rahmisve_write_tag(time, days, RAHMISVE_MOST_LEAP_DAYS, tag);
    for (size_t i = 0; i < RAHMISVE_SOUNDER_TAGS * RAHMISVE_TAG_BYTES; i++)
        documentation[59 - 1 + i] = tag[i % RAHMISVE_TAG_BYTES];
    for (size_t word = 182; word <= 194; word += 2)
        documentation[word - 1] = 5;
}

int main(void)
{
    header[RAHMISVE_HEADER_ID] = 1;
    header[RAHMISVE_HEADER_SIZE] = 10;
    header[RAHMISVE_HEADER_COUNT + 1] = 68 + RAHMISVE_EXTRA_WORDS;
    for (uint32_t i = 0; i < RAHMISVE_MOST_LEAP_DAYS; i++)
        days[i] = (1950 + i) * 1000 + 181;
    /* the last of them, and its last second */
    time[RAHMISVE_TIME_YEAR] = 1949 + RAHMISVE_MOST_LEAP_DAYS;
    time[RAHMISVE_TIME_DAY] = 181;
    time[RAHMISVE_TIME_HOUR] = 23;
    time[RAHMISVE_TIME_MINUTE] = 59;
    time[RAHMISVE_TIME_SECOND] = 60;
    document();
    for (size_t i = 0; i < sizeof calls / sizeof *calls; i++) {
        /* once beforehand, so that what is bound on first use is bound; then with two paints, as a byte may have the colour of one */
        if (calls[i].call() != 0) {
            fprintf(stderr, "%s is refused\n", calls[i].name);
            return 1;
        }
        size_t a = depth(calls[i].call, 0xA5), b = depth(calls[i].call, 0x5A);
        printf("%lu %s\n", (unsigned long)(a > b ? a : b), calls[i].name);
    }
    return 0;
}
