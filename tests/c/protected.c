/* protected: calls that leave a watch as it was, on one in write-protected memory. They do not write it, or the program ends by a fault.
 * Prints a line `ok - ..` or `not ok - ..` for each thing tried.
 * protected written: a call that does write the watch, and therefore has to end by a fault. */
#define _DEFAULT_SOURCE
#include <stdio.h>
#include <string.h>
#include <sys/mman.h>

#include "rahmisve.h"

enum { PAGE_BYTES = 65536 }; /* a multiple of any machine's page */

static const uint32_t idle[RAHMISVE_WATCH_NUMBERS] = {0, 99, 1, 2, 3, 4, 5, 6, 7, 500, 0};
static const uint32_t open[RAHMISVE_WATCH_NUMBERS] = {1, 3, 2008, 60, 23, 59, 59, 999, 0, 500, 5}; /* blocks 0 and 2 were fill */
static const uint8_t tag[RAHMISVE_TAG_BYTES] = {0x20, 0x08, 0x06, 0x10, 0x00, 0x00, 0x00, 0x00};
static const uint32_t leap_days[] = {2008366, 2008366}; /* one is a good list, both are none */

static uint32_t *watch;
static size_t days = 1;
static int all_good = 1;

/* The watch has these numbers but for one, and from here on nothing may write it. */
static int hold(const uint32_t *numbers, size_t place, uint32_t number)
{
    if (mprotect(watch, PAGE_BYTES, PROT_READ | PROT_WRITE) != 0)
        return 0;
    memcpy(watch, numbers, RAHMISVE_WATCH_NUMBERS * sizeof *watch);
    watch[place] = number;
    return mprotect(watch, PAGE_BYTES, PROT_READ) == 0;
}

/* Whether an offer, of a block that is fill, comes out so, and hands over nothing. */
static int offered(unsigned answer, unsigned verdict, uint32_t block, size_t tag_length)
{
    uint8_t did;
    uint32_t fill, count;
    return rahmisve_watch_offer(watch, block, 0, tag, tag_length, leap_days, days, &did, &fill, &count) == answer && did == verdict &&
           fill == 0 && count == 0;
}

static void told(int good, const char *what)
{
    printf("%s - %s does not write the watch\n", good ? "ok" : "not ok", what);
    all_good &= good;
}

static void not_written(void)
{
    int good = hold(idle, RAHMISVE_WATCH_OPEN, 0);
    told(good && rahmisve_watch_begin(RAHMISVE_LONGEST_WAIT_MS + 1, watch) == RAHMISVE_ANSWER_LONG_LIMIT, "a refused beginning");
    told(offered(RAHMISVE_ANSWER_ACCEPTED, RAHMISVE_VERDICT_STRAY, 5, RAHMISVE_TAG_BYTES), "a stray");
    good = offered(RAHMISVE_ANSWER_UNKNOWN_BLOCK, RAHMISVE_VERDICT_REFUSED, 12, RAHMISVE_TAG_BYTES);
    told(good && offered(RAHMISVE_ANSWER_BAD_TAG, RAHMISVE_VERDICT_REFUSED, 0, 7), "an offer refused by an idle watch");
    good = hold(open, RAHMISVE_WATCH_OPEN, 7) && offered(RAHMISVE_ANSWER_UNKNOWN_BLOCK, RAHMISVE_VERDICT_REFUSED, 12, RAHMISVE_TAG_BYTES);
    told(good && offered(RAHMISVE_ANSWER_BAD_TAG, RAHMISVE_VERDICT_REFUSED, 3, 7), "an offer refused by an open watch");
    good = hold(open, RAHMISVE_WATCH_LIMIT, RAHMISVE_LONGEST_WAIT_MS + 1) &&
           offered(RAHMISVE_ANSWER_LONG_LIMIT, RAHMISVE_VERDICT_REFUSED, 3, RAHMISVE_TAG_BYTES);
    good = good && hold(open, RAHMISVE_WATCH_EXPECTED, 11) &&
           offered(RAHMISVE_ANSWER_NO_RECORD, RAHMISVE_VERDICT_REFUSED, 3, RAHMISVE_TAG_BYTES);
    good = good && hold(open, RAHMISVE_WATCH_FILL, 8) &&
           offered(RAHMISVE_ANSWER_BAD_FILL, RAHMISVE_VERDICT_REFUSED, 3, RAHMISVE_TAG_BYTES);
    good = good && hold(idle, RAHMISVE_WATCH_FILL, 1) &&
           offered(RAHMISVE_ANSWER_BAD_FILL, RAHMISVE_VERDICT_REFUSED, 0, RAHMISVE_TAG_BYTES);
    good = good && hold(open, RAHMISVE_WATCH_LAST + RAHMISVE_TIME_HOUR, 24) &&
           offered(RAHMISVE_ANSWER_BAD_TAG, RAHMISVE_VERDICT_REFUSED, 3, RAHMISVE_TAG_BYTES);
    told(good, "an offer refused for the watch");
    days = 2;
    good = hold(idle, RAHMISVE_WATCH_OPEN, 0) &&
           offered(RAHMISVE_ANSWER_BAD_LEAP_DAYS, RAHMISVE_VERDICT_REFUSED, 0, RAHMISVE_TAG_BYTES);
    good = good && hold(open, RAHMISVE_WATCH_OPEN, 1) &&
           offered(RAHMISVE_ANSWER_BAD_LEAP_DAYS, RAHMISVE_VERDICT_REFUSED, 3, RAHMISVE_TAG_BYTES);
    told(good, "an offer refused for its leap days");
}

int main(int argc, char **argv)
{
    (void)argv;
    void *page = mmap(NULL, PAGE_BYTES, PROT_READ | PROT_WRITE, MAP_PRIVATE | MAP_ANONYMOUS, -1, 0);
    if (page == MAP_FAILED) {
        perror("mmap");
        return 2;
    }
    watch = page;
    if (argc > 1)
        return !hold(open, RAHMISVE_WATCH_OPEN, 1) || offered(RAHMISVE_ANSWER_ACCEPTED, RAHMISVE_VERDICT_KEPT, 3, RAHMISVE_TAG_BYTES);
    not_written();
    return !all_good;
}
