/* Two ways in C to read and write a GVAR block, to time a library beside them; src/idiomatic.rs is a third.
 *
 * Each has the same five functions. check: the check word of len bytes.
 * unpack, pack: words of 6, 8 or 10 bits, most significant bit first; pack
 * clears the rest of the field. read, write: the number of the specification,
 * 0 for an accepted block. A refusal changes nothing that was lent. The first
 * has the search for blocks among junk too: rahmisve_salvage of rahmisve.h. */
#ifndef BASELINE_H
#define BASELINE_H

#include <stddef.h>
#include <stdint.h>

#define BASELINE(name)                                                              \
    uint16_t name##_check(const uint8_t *bytes, size_t len);                        \
    void name##_unpack(const uint8_t *field, size_t field_len, size_t size,         \
                       uint16_t *words, size_t count);                              \
    void name##_pack(const uint16_t *words, size_t count, size_t size,              \
                     uint8_t *field, size_t field_len);                             \
    size_t name##_read(const uint8_t *block, size_t len, uint16_t *room,            \
                       size_t room_len, uint8_t header[28]);                        \
    size_t name##_write(const uint8_t *header, size_t header_len,                   \
                        const uint16_t *words, size_t count, uint8_t *dest,         \
                        size_t dest_len);

BASELINE(plain)
BASELINE(good)

uint8_t plain_salvage(const uint8_t *input, size_t len, uint8_t *recording, size_t recording_len, size_t *report,
                      size_t report_len, uint16_t *scratch, size_t scratch_len, size_t *bytes, size_t *entries,
                      size_t *blocks);

#endif
