/* rahmisve.h: GVAR blocks, recordings and salvage of them, CDA time tags, the Sounder's status and the scan watch, from C. This file is
 * the manual.
 *
 * The archive librahmisve.a holds proved code: for every input whatever, a function below answers what its definition says, reads and
 * writes nothing outside the buffers lent to it, and returns. docs/LINKING.md says how to make the archive, how to link it and what it
 * needs of a machine; docs/SCOPE.md has the format, which sizes and counts each block has (Field sizes) and the ground of every number.
 *
 * VERSION. RAHMISVE_VERSION is the version of this file, rahmisve_version() that of the archive. Every change of a signature, a size or a
 * place raises it, every new or changed number of an answer, a verdict or a find, and every change of what a block's row allows or its
 * records hold: 2 gave block 2 its fourth record in version 3 of the format, 3 brought answer 18, 4 the leap days and answer 19, 5 the
 * watch's set of fill blocks and answer 20, 6 the Sounder's status and answers 21 and 22. Where `rahmisve_version() != RAHMISVE_VERSION`
 * the program was built with the header of another archive, and nothing else below may be called.
 *
 * ANSWERS. A function returns its answer: 0, which is accepted, or the number of a refusal, each named once in the list below. Of several
 * grounds the first one decides, in the order that stands with the function. Three functions refuse nothing and return something else:
 * rahmisve_version a version, rahmisve_next_field what it found, rahmisve_check_word a check word. Mind the zeros: answer 0 is accepted,
 * but verdict 0 of a watch is a refused offer, and found 0 is the end of a recording.
 *
 * PLACES AND ROOMS. What else belongs to an answer goes to the places that the caller lends for it: `header`, `word_count`, `start` and
 * the like. A place is written on every call, on a refusal with zeros; only `seq` of rahmisve_line has its number then too, and the word
 * that answer 22 speaks of is named. A room, which is a `room`, the `field` that rahmisve_put_words fills, or the `recording`, `report` and
 * `scratch` of rahmisve_salvage, is written only by an accepted call; a refusal leaves it, and a watch, as it was, to the bit.
 *
 * MEMORY. Everything lent belongs to the caller, before and after. The library keeps no pointer, allocates nothing, keeps nothing
 * between calls, has no variables of its own, does no input or output and does not touch errno. So calls may be made from several
 * threads at once, as long as none of them writes what another one uses.
 *
 * POINTERS. A buffer is a pointer and, behind it, how many elements it has: `block`, `block_length`. Nothing else is read or written.
 * Where the length is 0 the pointer is not followed, and may be NULL. The caller sees to four things, which nothing can check:
 *   - A pointer leads to as many elements as its length says, or as its declaration below says.
 *   - A buffer of bytes may stand at any address. One of uint16_t or uint32_t, and a place or row of uint32_t, uint64_t, int64_t or size_t,
 *     is aligned as the C compiler aligns that type; storage declared or allocated as such is.
 *   - A place for an answer is always written, so it may not be NULL, not even where the call is refused. Neither may a watch or a time.
 *   - What a call writes may not overlap anything else that is lent to it. What it only reads may overlap: rahmisve_elapsed may be
 *     given one tag twice.
 * They are all that is asked. There is no number, no length and no content that is not allowed.
 *
 * NUMBERS. Words of the specification, blocks' records among them, count from 1 there and here; places in a buffer (`start`, `at`) count
 * from 0. Numbers come in as uint32_t so that none is cut to fit: 256 is not block 0 but an unknown block. C is the count of a block's
 * words, the ones that are read to the room; what stands in a header is C + 2. A mark is 1 where something is so, else 0.
 */
#ifndef RAHMISVE_H
#define RAHMISVE_H

#include <stddef.h>
#include <stdint.h>

#ifdef __cplusplus
extern "C" {
#endif

/* ---- Version -------------------------------------------------------------------------------------------------------------------- */

#define RAHMISVE_VERSION 6

/* The version of the archive that is linked. */
uint32_t rahmisve_version(void);

/* ---- Answers -------------------------------------------------------------------------------------------------------------------- */

/* The one list of answers: for each its name, its number and a text. The numbers rise from 0 without a gap, so a program makes its own
 * table of texts by
 *
 *     #define TEXT(name, number, text) text,
 *     static const char *const texts[] = {RAHMISVE_ANSWERS(TEXT)};
 *
 * and texts[answer] says what it means. A comment says where a number has more grounds than its text names. */
#define RAHMISVE_ANSWERS(ANSWER) \
    ANSWER(ACCEPTED, 0, "accepted") \
    ANSWER(NO_HEADER, 1, "a block of fewer than 90 bytes, or a header not of 28 bytes") \
    ANSWER(NO_COPY_PASSES, 2, "none of the three header copies passes its check") \
    ANSWER(COPIES_DIFFER, 3, "two header copies pass and differ") \
    ANSWER(UNKNOWN_BLOCK, 4, "an unknown block id, or a block number above 11") \
    ANSWER(UNKNOWN_VERSION, 5, "a version above 3") \
    ANSWER(WRONG_SIZE, 6, "a word size that the block cannot have, or outside 1 to 16") \
    ANSWER(WRONG_COUNT, 7, "the block cannot have this count of words") \
    ANSWER(WRONG_LENGTH, 8, "not the required number of bytes or words") /* too few bits, where words are taken out of a field */ \
    ANSWER(SMALL_ROOM, 9, "too little room, or too few words") /* fewer than C words, where a record is asked for */ \
    ANSWER(CHECK_DISAGREES, 10, "the check word is not that of the field") \
    ANSWER(FILL_NOT_ZERO, 11, "a bit behind the last word is 1") \
    ANSWER(BAD_TAG, 12, "a bad time tag") /* one not of eight bytes too; an open watch whose last tag is bad */ \
    ANSWER(NO_RECORD, 13, "no such record, detector or expected block") /* an open watch that expects no block 1 to 10 */ \
    ANSWER(LARGE_WORD, 14, "a word too large for its size") \
    ANSWER(OTHER_FIELD, 15, "a field of a recording with another tag than 1") \
    ANSWER(LONG_LIMIT, 16, "a waiting limit above 3,600,000 ms") \
    ANSWER(OFF_BOUNDARY, 17, "a check word off its 16-bit boundary") /* which no block has: every field is a multiple of 16 bits */ \
    ANSWER(NO_BLOCK, 18, "no start has an acceptable block") \
    ANSWER(BAD_LEAP_DAYS, 19, "more than 64 leap days, two that do not rise, or one that no year has") \
    ANSWER(BAD_FILL, 20, "a set of fill blocks that the watch cannot have") /* one not below the expected block; any, while idle */ \
    ANSWER(SPARE_BIT, 21, "a bit behind those of the Sounder's detectors is 1") \
    ANSWER(OUT_OF_RANGE, 22, "a frame field out of its range") /* its first word is named; the eastern one too, if west is above it */

/* RAHMISVE_ANSWER_ACCEPTED, RAHMISVE_ANSWER_NO_HEADER and so on, and how many numbers there are. */
#define RAHMISVE_CONSTANT(name, number, text) RAHMISVE_ANSWER_##name = number,
enum { RAHMISVE_ANSWERS(RAHMISVE_CONSTANT) RAHMISVE_ANSWER_NUMBERS };
#undef RAHMISVE_CONSTANT

/* ---- Blocks --------------------------------------------------------------------------------------------------------------------- */

#define RAHMISVE_HEADER_BYTES 28  /* a header: the first 28 bytes of a copy, without its check word */
#define RAHMISVE_COPY_MARKS 3     /* a mark for each header copy in front of a block */
#define RAHMISVE_AROUND_BYTES 92  /* bytes of a block around its field: three copies of 30, and the check word */
#define RAHMISVE_MOST_WORDS 21008 /* words of the longest block: a room of so many holds those of any */
#define RAHMISVE_MOST_BYTES 26352 /* bytes of the longest block */

/* Places in a header. What stands in the others is not looked at: the writer writes it as it is, the reader gives it back. */
#define RAHMISVE_HEADER_ID 0      /* the block id: the number of the block, or RAHMISVE_BLOCK_0_ID */
#define RAHMISVE_HEADER_SIZE 1    /* bits of a word */
#define RAHMISVE_HEADER_COUNT 2   /* two bytes, the high one first: C + RAHMISVE_EXTRA_WORDS */
#define RAHMISVE_HEADER_VERSION 7 /* 0 to 3: 0 and 1 are GOES I to L, 2 is GOES M and N, 3 is GOES O and P */
#define RAHMISVE_HEADER_VALID 8   /* the data valid word, RAHMISVE_VALID or another number; not looked at either, but offered to a watch */
#define RAHMISVE_HEADER_TIME 16   /* the tag of the SPS time, RAHMISVE_TAG_BYTES long; not looked at either, but offered to a watch */
#define RAHMISVE_VALID 1          /* what the data valid word says of valid data; with any other number there the block is fill */
#define RAHMISVE_BLOCK_0_ID 240   /* the id of block 0; those of blocks 1 to 11 are their numbers */
#define RAHMISVE_EXTRA_WORDS 2    /* what a header's count has beyond C, for the check word */

/* Reads a block: 90 bytes of header copies, the field, 2 bytes of check word, and no more. Accepted, its C words stand at the front of
 * the room, which may be longer, and nothing behind them has changed; `header` has the common header, `word_count` is C, and copies[k] is
 * the mark of header copy k + 1: whether it passed its check.
 * Refusals: 1, 2, 3, 4, 5, 6, 7, 8, 17, 9, 10, 11. */
uint8_t rahmisve_read(const uint8_t *block, size_t block_length, uint16_t *room, size_t room_length,
                      uint8_t header[RAHMISVE_HEADER_BYTES], uint8_t copies[RAHMISVE_COPY_MARKS], size_t *word_count);

/* What a header asks for: the block's number, 0 to 11, its version, the bits of its words, how many detector records it has (4 in block 1;
 * 3 in block 2, but 4 in version 3; 1 in blocks 3 to 10; 0 in blocks 0 and 11), C, and how many bytes the field of so many words takes; the
 * block has RAHMISVE_AROUND_BYTES more.
 * Refusals: 1, 4, 5, 6, 7. */
uint8_t rahmisve_plan(const uint8_t *header, size_t header_length, uint8_t *block, uint8_t *version, uint8_t *size, uint8_t *records,
                      size_t *word_count, size_t *field_bytes);

/* Writes the block of a header and its C words to the front of the room, which may be longer: three equal header copies with their
 * checks, the field with zeros behind the last word, its check word. `bytes` is the length of the block. Which sizes and counts are a
 * block's: docs/SCOPE.md, Field sizes.
 * Refusals: 1, 4, 5, 6, 7, 8, 9, 14. */
uint8_t rahmisve_write(const uint8_t *header, size_t header_length, const uint16_t *words, size_t words_length, uint8_t *room,
                       size_t room_length, size_t *bytes);

/* ---- Detector records ----------------------------------------------------------------------------------------------------------- */

#define RAHMISVE_DOCUMENTATION_WORDS 16 /* words of line documentation at the front of a record; its pixels stand behind them */

/* Where a record, from 1, lies in the words that the block with this header was read to: `length` of them from `start` on.
 * `word_count` is how many words the caller has there: C, or more, as where it is the whole room. Fewer than C is refusal 9. In block 2 the
 * version says how many records share the words: 84 are three records of 28 up to version 2, four of 21 in version 3.
 * Refusals: 1, 4, 5, 6, 7, 13, 9. */
uint8_t rahmisve_record(const uint8_t *header, size_t header_length, size_t word_count, uint32_t record, size_t *start, size_t *length);

/* Which channel and detector a record, from 1, holds: the fixed placement of an upright spacecraft without co-registration.
 * Refusals: 4, 5, 13. */
uint8_t rahmisve_place(uint32_t block, uint32_t version, uint32_t record, uint8_t *channel, uint8_t *detector);

/* ---- Longitudinal parity -------------------------------------------------------------------------------------------------------- */

#define RAHMISVE_PARITY_WORDS 8040 /* words of a block with parity sections */
#define RAHMISVE_IMAGER_MARKS 4    /* a mark for each section of the Imager's block */
#define RAHMISVE_SOUNDER_MARKS 2   /* the same for the Sounder's */

/* Judges block 1 of the Imager spacelook set, section by section: holds[k] is 1 where the parity of section k + 1 holds. It comes as a
 * block 11 with words of eight bits; which block 11 is one, the host finds out, since the SAD ID is not read here.
 * Refusals: 8 where there are not 8,040 words, 14 for a word above 255. */
uint8_t rahmisve_parity_imager(const uint16_t *words, size_t words_length, uint8_t holds[RAHMISVE_IMAGER_MARKS]);

/* The same for block 1 of the Sounder spacelook set, which has two sections. */
uint8_t rahmisve_parity_sounder(const uint16_t *words, size_t words_length, uint8_t holds[RAHMISVE_SOUNDER_MARKS]);

/* ---- Time tags ------------------------------------------------------------------------------------------------------------------ */

#define RAHMISVE_TAG_BYTES 8       /* a time tag as it is sent */
#define RAHMISVE_TIME_NUMBERS 7    /* a time: seven numbers in a row */
#define RAHMISVE_MOST_LEAP_DAYS 64 /* how many leap days may be lent */

/* Places in a time. */
#define RAHMISVE_TIME_YEAR 0        /* 0 to 9999 */
#define RAHMISVE_TIME_DAY 1         /* of the year, from 1 */
#define RAHMISVE_TIME_HOUR 2        /* 0 to 23 */
#define RAHMISVE_TIME_MINUTE 3      /* 0 to 59 */
#define RAHMISVE_TIME_SECOND 4      /* 0 to 59; at 23:59 on a leap day that is lent, 60 too */
#define RAHMISVE_TIME_MILLISECOND 5 /* 0 to 999 */
#define RAHMISVE_TIME_FLYWHEEL 6    /* the flywheel mark: given back as 1 or 0; taken, any number but 0 puts it on */

/* A leap day is a day whose last minute has 61 seconds. Such days are announced and cannot be computed, so the caller lends a list of them
 * with every tag. There a leap day is one number, year x 1000 + day of the year: 2016366 is 2016 day 366. The numbers rise strictly, and
 * there are at most RAHMISVE_MOST_LEAP_DAYS. Of
 *
 *     static const uint32_t leap_days[] = {2012182, 2015181, 2016366};
 *
 * `leap_days, 3` is lent. The list is only read, and nothing of it is kept: threads may share one. NULL and 0 lend an empty list, by which
 * no day is a leap day and every day has 86,400,000 ms. docs/LINKING.md says where a list comes from.
 * Second 60 is good at 23:59 on a listed day, with any millisecond, and nowhere else. A time counts 1,000 ms more for each listed day
 * before its own day. So 23:59:60.000 comes 1,000 ms after 23:59:59.000, and 1,000 ms before the midnight that follows.
 * Answer 19 speaks of the list alone, and comes before the tag is looked at: there are more than RAHMISVE_MOST_LEAP_DAYS, a number is not
 * above the one before it, or it is no day of the years 0 to 9999, as 2015000, 2015366 and 10000001 are none. No tag is accepted with such
 * a list: mend it, or lend none.
 * Lend one list throughout, since times are comparable where one list counted them. It may grow meanwhile: a later day at its end changes
 * no answer on tags before that day. */

/* Reads a tag of eight bytes.
 * Refusals: 19 for the list, then 12. */
uint8_t rahmisve_read_tag(const uint8_t *tag, size_t tag_length, const uint32_t *leap_days, size_t leap_days_length,
                          uint32_t time[RAHMISVE_TIME_NUMBERS]);

/* Writes the tag of a time.
 * Refusals: 19 for the list, then 12 where a number is out of bounds; `tag` is a place, and has zeros then. */
uint8_t rahmisve_write_tag(const uint32_t time[RAHMISVE_TIME_NUMBERS], const uint32_t *leap_days, size_t leap_days_length,
                           uint8_t tag[RAHMISVE_TAG_BYTES]);

/* The time from one tag to another in milliseconds, leap seconds between them counted, negative where the second is earlier. The flywheel
 * mark does not enter it.
 * Refusals: 19 for the list, then 12. */
uint8_t rahmisve_elapsed(const uint8_t *from, size_t from_length, const uint8_t *to, size_t to_length, const uint32_t *leap_days,
                         size_t leap_days_length, int64_t *ms);

/* ---- Sounder status ------------------------------------------------------------------------------------------------------------- */

#define RAHMISVE_SOUNDER_WORDS 8040     /* words of a Sounder documentation block, each of eight bits */
#define RAHMISVE_SOUNDER_CHANNELS 19    /* channels of the Sounder, from 1 */
#define RAHMISVE_SOUNDER_DETECTORS 4    /* detectors of a channel, from 1 */
#define RAHMISVE_SOUNDER_NUMBERS 13     /* a status: thirteen numbers in a row */
#define RAHMISVE_SOUNDER_TAGS 15        /* time tags of such a block */
#define RAHMISVE_SOUNDER_TAG_NUMBERS 8  /* what is said of one: its answer, and a time of seven numbers behind it */

/* Places in a status. Counts and fields are numbers of two words, as the block has them. */
#define RAHMISVE_SOUNDER_WORD 0           /* with answer 22 the first word of the field, 181, 183 and so on to 193; else 0 */
#define RAHMISVE_SOUNDER_SUSPECTS 1       /* how many detectors are suspect, 0 to 76 */
#define RAHMISVE_SOUNDER_CHANNEL 2        /* the first suspect detector: its channel, 1 to 19, or 0 where none is suspect */
#define RAHMISVE_SOUNDER_DETECTOR 3       /* and its number in that channel, 1 to 4, or 0 */
#define RAHMISVE_SOUNDER_RAW_BLOCKS 4     /* words 43-44, SRBCT: how many blocks of raw data the scan has; any number */
#define RAHMISVE_SOUNDER_BLOCKS 5         /* words 45-46, SGBCT: how many blocks 11 the scan has, this one too; any number */
#define RAHMISVE_SOUNDER_SCAN_OF_FRAME 6  /* words 181-182, RSSCT: the scan, counted from the start of the frame; 1 to 396 */
#define RAHMISVE_SOUNDER_SCAN 7           /* words 183-184, ASSCT: the scan, counted from the north; 1 to 396 */
#define RAHMISVE_SOUNDER_SCAN_NORTH 8     /* words 185-186, SNSLN: the northernmost line of the scan; 1 to 1579 */
#define RAHMISVE_SOUNDER_FRAME_WEST 9     /* words 187-188, SWFPX: the westernmost pixel of the frame; 1 to 1754, not above the next */
#define RAHMISVE_SOUNDER_FRAME_EAST 10    /* words 189-190, SEFPX: the easternmost pixel of the frame; 5 to 1758 */
#define RAHMISVE_SOUNDER_FRAME_NORTH 11   /* words 191-192, SNFLN: the northernmost line of the frame; 1 to 1579 */
#define RAHMISVE_SOUNDER_FRAME_SOUTH 12   /* words 193-194, SSFLN: the southernmost line of the frame; 4 to 1582 */

/* Places in what is said of a tag. */
#define RAHMISVE_SOUNDER_TAG_ANSWER 0 /* 0, or 12 for a bad tag, with zeros behind it */
#define RAHMISVE_SOUNDER_TAG_TIME 1   /* a time: RAHMISVE_SOUNDER_TAG_TIME + RAHMISVE_TIME_YEAR is where its year stands */

/* The tags in the order of the block, eight words each from word 59 on. */
#define RAHMISVE_SOUNDER_TAG_CURRENT 0         /* TSCURR: current SPS time */
#define RAHMISVE_SOUNDER_TAG_LINE_START 1      /* TSCLS: the scan line starts */
#define RAHMISVE_SOUNDER_TAG_LINE_END 2        /* TSCLE: the scan line ends */
#define RAHMISVE_SOUNDER_TAG_SET_AT_START 3    /* TCSLS: the calibration set at the line's start */
#define RAHMISVE_SOUNDER_TAG_SET_AT_END 4      /* TCSLE: the calibration set at the line's end */
#define RAHMISVE_SOUNDER_TAG_PRIORITY_FRAME 5  /* TSPFS: the priority frame starts */
#define RAHMISVE_SOUNDER_TAG_NORMAL_FRAME 6    /* TSNFS: the normal frame starts */
#define RAHMISVE_SOUNDER_TAG_SPACELOOK 7       /* TSSPC: last spacelook calibration */
#define RAHMISVE_SOUNDER_TAG_ECAL 8            /* TSECL: last electronic calibration */
#define RAHMISVE_SOUNDER_TAG_BLACKBODY 9       /* TSBBC: last blackbody calibration */
#define RAHMISVE_SOUNDER_TAG_STAR_SENSE 10     /* TSSTR: last star sense */
#define RAHMISVE_SOUNDER_TAG_RANGING 11        /* TLRAN: last ranging measurement */
#define RAHMISVE_SOUNDER_TAG_VISIBLE_TABLES 12 /* TSVIT: the normalization tables used */
#define RAHMISVE_SOUNDER_TAG_LIMITS 13         /* TSCLMT: the limits in force */
#define RAHMISVE_SOUNDER_TAG_ORBIT 14          /* TSONA: the orbit and attitude set in force */

/* Judges a Sounder documentation block, which comes as a block 11 with words of eight bits. Which block 11 is one, the host finds out,
 * since the SAD ID is not read here; docs/LINKING.md says how, and examples/sounder.c does it.
 * Accepted, `status` says how many of the 76 detectors are suspect and which one is the first, and has the counts and the frame fields;
 * tags[k] says of each tag whether it is good by these leap days, and which time it is. A bad tag refuses itself and nothing else, so look
 * at its answer; on a refusal of the block all are zeros.
 * Refusals: 8 where there are not RAHMISVE_SOUNDER_WORDS words, 14 for a word above 255, 21 for a bit that is 1 among the last four of
 * word 42, 22 for a frame field out of its range, the lowest of them, 19 for the list. A western pixel above the eastern one is the eastern
 * field out of its range, 189. */
uint8_t rahmisve_sounder_status(const uint16_t *words, size_t words_length, const uint32_t *leap_days, size_t leap_days_length,
                                uint32_t status[RAHMISVE_SOUNDER_NUMBERS],
                                uint32_t tags[RAHMISVE_SOUNDER_TAGS][RAHMISVE_SOUNDER_TAG_NUMBERS]);

/* Whether one detector of such a block is suspect: `suspect` is 1 where it is. With answer 22 `word` is the first word of the frame field,
 * as status[RAHMISVE_SOUNDER_WORD] is above; else it is 0.
 * Refusals: those above in their order, then 13 for a channel outside 1 to 19 or a detector outside 1 to 4. */
uint8_t rahmisve_sounder_suspect(const uint16_t *words, size_t words_length, const uint32_t *leap_days, size_t leap_days_length,
                                 uint32_t channel, uint32_t detector, uint32_t *word, uint8_t *suspect);

/* ---- The scan watch ------------------------------------------------------------------------------------------------------------- */

#define RAHMISVE_WATCH_NUMBERS 11        /* a watch: eleven numbers in a row, which the host keeps */
#define RAHMISVE_LONGEST_WAIT_MS 3600000 /* the largest waiting limit */

/* Places in a watch. The host may read, copy and store them; a stored watch is for one version, so store RAHMISVE_VERSION beside it. One of
 * version 4 has ten numbers, without the set, and is no watch of version 5: begin anew, with the limit that is the last of the ten. Any
 * number may stand in any place: one out of bounds is refused by the offer that would use it. Beginning, and every closing that opens no
 * new scan, leave zeros in the expected block, the last tag and the set. A watch has no clock: only an offer closes a scan, and in silence
 * it stays open. */
#define RAHMISVE_WATCH_OPEN 0     /* 1 where a scan is open, 0 where the watch is idle; any number but 0 counts as open */
#define RAHMISVE_WATCH_EXPECTED 1 /* the next expected block, 1 to 10; not read while idle */
#define RAHMISVE_WATCH_LAST 2     /* the last tag, a time of seven numbers (places 2 to 8); not read while idle */
#define RAHMISVE_WATCH_LIMIT 9    /* the waiting limit in ms, at most RAHMISVE_LONGEST_WAIT_MS */
#define RAHMISVE_WATCH_FILL 10    /* the fill blocks of the open scan so far, a set of numbers below the expected one; empty while idle */

/* A block is fill where its data valid word is any number but RAHMISVE_VALID. The watch takes it like any other block, in its order and its
 * time, and notes it. Which blocks of a scan were fill is a set, and a set is one number: bit b, 1 << b, stands for block b, and 0 is the
 * empty set. So `fill >> 3 & 1` is 1 where block 3 was fill, and 1060, which is 1 << 2 | 1 << 5 | 1 << 10, is blocks 2, 5 and 10.
 * The watch keeps the set of the open scan, and the offer that closes the scan hands it over with the count of its blocks, whatever closes
 * it. Of a complete scan the set has any of blocks 0 to 10, the closing block 10 too where that is fill. Any other closing block is none of
 * the scan that it closes, and not in the set. A closing block 0 that is fill is in the set of the scan that it opens. */

/* The verdict: what an offer did. */
#define RAHMISVE_VERDICT_REFUSED 0    /* nothing: the answer says why */
#define RAHMISVE_VERDICT_STRAY 1      /* nothing: a block other than 0 came to an idle watch; the answer is accepted */
#define RAHMISVE_VERDICT_OPENED 2     /* block 0 opened a scan */
#define RAHMISVE_VERDICT_KEPT 3       /* the expected block came in time */
#define RAHMISVE_VERDICT_CLOCK_BACK 4 /* closed: the tag is earlier than the last one */
#define RAHMISVE_VERDICT_LATE 5       /* closed: the wait was longer than the limit */
#define RAHMISVE_VERDICT_BROKEN 6     /* closed: not the expected block */
#define RAHMISVE_VERDICT_COMPLETE 7   /* closed: block 10, and the scan is complete */

/* Begins an idle watch with a waiting limit in ms. Refusal: 16, and the watch is not written. */
uint8_t rahmisve_watch_begin(uint32_t limit, uint32_t watch[RAHMISVE_WATCH_NUMBERS]);

/* Offers a block, its data valid word, the bytes of its tag and the leap days to count by. `verdict` says what that did. A closing offer of
 * block 0 also opens a new scan, so look at watch[RAHMISVE_WATCH_OPEN]; after any other closing the watch is idle.
 * `valid` may be any number, header[RAHMISVE_HEADER_VALID] as a rule: every one but RAHMISVE_VALID is fill, 257 too. A host that does not
 * ask for fill offers RAHMISVE_VALID, and each set is empty. Where the offer closes a scan, `fill` is the set of that scan's fill blocks
 * and `count` is how many they are, 0 to 11. Everywhere else both are zeros; what the open scan has so far is watch[RAHMISVE_WATCH_FILL].
 * How much fill makes a complete scan useless, the host decides.
 * Where the offer is refused, and where it is a stray, the watch is only read, and may stand in write-protected memory. Any other offer
 * writes it number by number: threads that share a watch take a lock, and where an interrupt uses it too, interrupts are off meanwhile.
 * A watch keeps no leap days: those of this offer judge and count its last tag as well as the offered one. So lend one list from block 0 to
 * the end of the scan. With one list and one limit throughout, a scan that completes took at most ten times the limit. A last tag with
 * second 60 is bad by a list that does not have its day.
 * Refusals: 16, 13 and 20 for the watch, 19 for the list, 12 for the watch's last tag, then 4 for the block, 12 for its tag; 13 and the
 * first 12 only while a scan is open. 20 is given for a set with the expected block or one above it, which every bit from 1 << 10 on is,
 * and for an idle watch whose set is not empty. A watch that was begun and then only offered to never has such a set: its numbers came from
 * elsewhere. With 19 the list is wrong, and the watch may go on: offer the same again with a good list. A watch that is refused itself
 * stays so by the same list, whatever is offered, block 0 too: begin it anew. 12 is for the watch where rahmisve_read_tag accepts the
 * offered tag by that list. */
uint8_t rahmisve_watch_offer(uint32_t watch[RAHMISVE_WATCH_NUMBERS], uint32_t block, uint32_t valid, const uint8_t *tag,
                             size_t tag_length, const uint32_t *leap_days, size_t leap_days_length, uint8_t *verdict, uint32_t *fill,
                             uint32_t *count);

/* ---- Recordings ----------------------------------------------------------------------------------------------------------------- */

/* A recording is fields, one after the other: a tag of one byte, the length of the body in two, the high one first, and the body. */
#define RAHMISVE_FRONT_BYTES 3     /* tag and length, in front of a body */
#define RAHMISVE_FIELD_BYTES 65538 /* the longest field with its front: a buffer of so many bytes is enough to read any recording */
#define RAHMISVE_LINE_BYTES 105    /* five columns of 21 bytes, a bound that no line of the listing reaches: a room of so many holds any */
#define RAHMISVE_BLOCK_FIELD 1     /* the tag of a field that holds a block */

/* What stands in a recording. */
#define RAHMISVE_FOUND_END 0   /* nothing more */
#define RAHMISVE_FOUND_FIELD 1 /* a whole field */
#define RAHMISVE_FOUND_CUT 2   /* the recording stops inside a field */

/* What stands in a recording from byte `at` on, which may lie beyond its end. Of a whole field `tag` is its tag, `start` where its body
 * starts and `length` how long that is; the next field is at start + length. Where there is none they are zeros.
 * Where only a part of a recording is in memory, END and CUT mean that more of it is needed: examples/watch.c goes on with it. A buffer
 * of fewer than RAHMISVE_FIELD_BYTES may be too small for a field: skip that by its front, whose bytes 1 and 2 are the length of the body.
 * It refuses nothing, and returns what it found. */
uint8_t rahmisve_next_field(const uint8_t *recording, size_t recording_length, size_t at, uint8_t *tag, size_t *start, size_t *length);

/* The listing's line of the field behind `before` complete ones. `seq` is the field's number, before + 1 (or `before`, where no number is
 * larger), and the one place that is not zero on a refusal. Accepted, the body was read as by rahmisve_read, with its words in the room;
 * `block`, `version` and `word_count` are what its header says, which rahmisve_read gives whole.
 * Refusals: 15 where the tag is not RAHMISVE_BLOCK_FIELD, then those of rahmisve_read. */
uint8_t rahmisve_line(uint64_t before, uint32_t tag, const uint8_t *body, size_t body_length, uint16_t *room, size_t room_length,
                      uint64_t *seq, uint8_t *block, uint8_t *version, size_t *word_count);

/* The texts of the listing, each a line with its LF and no NUL, to the front of the room, which may be longer; `bytes` is its length.
 * The first line names the columns. The line of a field has the five numbers that rahmisve_line gives; where the answer is not 0, dashes
 * stand for three of them. The last line says `cut` where that is not 0, else `end`, and how many complete fields there were. A block, a
 * version or an answer above 255 counts as 255.
 * Refusal: 9. */
uint8_t rahmisve_first_text(uint8_t *room, size_t room_length, size_t *bytes);
uint8_t rahmisve_line_text(uint64_t seq, uint32_t block, uint32_t version, size_t word_count, uint32_t answer, uint8_t *room,
                           size_t room_length, size_t *bytes);
uint8_t rahmisve_last_text(uint32_t cut, uint64_t fields, uint8_t *room, size_t room_length, size_t *bytes);

/* ---- Salvage -------------------------------------------------------------------------------------------------------------------- */

#define RAHMISVE_LEAST_BYTES 2772 /* bytes of the shortest block */
#define RAHMISVE_ENTRY_NUMBERS 3  /* an entry of the report: three numbers in a row, of a piece of the input */

/* Places in an entry. */
#define RAHMISVE_ENTRY_START 0 /* where the piece starts in the input */
#define RAHMISVE_ENTRY_BYTES 1 /* how many bytes it has there, never 0 */
#define RAHMISVE_ENTRY_FOUND 2 /* what was found: RAHMISVE_SPAN, or a block with its changed copies */

/* What was found. A block's is the sum over its header copies whose bytes changed, 0 where none did: those that differ from the copy
 * that was used, whether they passed their checks or not. */
#define RAHMISVE_CHANGED_FIRST 1
#define RAHMISVE_CHANGED_SECOND 2
#define RAHMISVE_CHANGED_THIRD 4
#define RAHMISVE_SPAN 8 /* no block: a span that was skipped */

/* The rooms for an input of n bytes, which is evaluated twice: the bytes of the recording, and the entries of the report. The scratch words
 * are RAHMISVE_MOST_WORDS, whatever the input. */
#define RAHMISVE_SALVAGE_BYTES(n) ((n) + (n) / RAHMISVE_LEAST_BYTES * RAHMISVE_FRONT_BYTES)
#define RAHMISVE_SALVAGE_ENTRIES(n) ((n) / RAHMISVE_LEAST_BYTES * 2 + 1)

/* Finds the blocks in an input that does not say where they are: bytes as they came, with junk before, between and behind blocks. The
 * search takes the lowest start from which a header copy that passes, put in all three places, makes an acceptable block; of the three
 * copies the first that does, whatever the others hold. It goes on behind that block's end.
 * Accepted, the blocks so made stand at the front of `recording`, each with three equal copies as a field with RAHMISVE_BLOCK_FIELD as its
 * tag; `bytes` is how long that recording is. At the front of `report` each block has an entry, and so has each span that was skipped, in
 * the order of the input, which they cover once; there are `entries` of them, and `blocks` of these are blocks. Nothing behind either has
 * changed. Each block is read to the front of the scratch words in turn, over the one before: the last block's words stand there, and
 * behind them what longer ones left.
 * As everywhere, a length counts elements, so of `size_t report[ENTRIES][RAHMISVE_ENTRY_NUMBERS]`
 *
 *     report[0], ENTRIES * RAHMISVE_ENTRY_NUMBERS
 *
 * is lent, and report[i][RAHMISVE_ENTRY_START] is where piece i starts.
 * Refusals: 9 where a room is smaller than the input's length asks for above, whatever the input holds; 18. */
uint8_t rahmisve_salvage(const uint8_t *input, size_t input_length, uint8_t *recording, size_t recording_length, size_t *report,
                         size_t report_length, uint16_t *scratch, size_t scratch_length, size_t *bytes, size_t *entries, size_t *blocks);

/* ---- What a block is made of ---------------------------------------------------------------------------------------------------- */

/* The check word of a message, which follows it high byte first. It refuses nothing, and returns the check word. */
uint16_t rahmisve_check_word(const uint8_t *message, size_t message_length);

/* Takes the first `count` words of `size` bits, 1 to 16, out of a field, to the front of the room.
 * Refusals: 6, 8 where the field has fewer bits, 9. */
uint8_t rahmisve_take_words(const uint8_t *field, size_t field_length, uint32_t size, size_t count, uint16_t *room,
                            size_t room_length);

/* Puts words of `size` bits, 1 to 16, into a field, all of which is written: zeros stand behind the last word.
 * Refusals: 6, 9 where the field has fewer bits, 14. */
uint8_t rahmisve_put_words(const uint16_t *words, size_t words_length, uint32_t size, uint8_t *field, size_t field_length);

#ifdef __cplusplus
}
#endif

#endif
