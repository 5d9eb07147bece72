/* lent.h: one call of the library beside the same call of the reference, on memory with unreadable pages on both sides. */

#ifndef LENT_H
#define LENT_H

#include <stddef.h>
#include <stdint.h>

enum call_name {
    CALL_CHECK,
    CALL_UNPACK,
    CALL_PACK,
    CALL_PRESS,
    CALL_TO_NORMAL,
    CALL_TO_STRIPPED,
    CALL_TABLES,
    CALL_DECODE,
    CALL_CODE,
    CALL_ADPCM,
    CALL_PERIOD,
    CALL_NAMES
};

/* Lengths count what the slice holds: bytes, values of decoding and coding, numbers of a table. */
struct call {
    enum call_name name;
    size_t rows;     /* rows and channels: of unpacking and packing */
    size_t channels;
    const void *input;
    size_t input_len;
    size_t room;     /* of what is lent for the answer; of the tables, that for patterns */
    size_t rooms[3]; /* of the other tables: instruments, samples, tunes */
    size_t width;    /* of decoding and coding */
    size_t length;   /* of an ADPCM sample: how many values */
    uint64_t note;   /* note and finetune: of a period */
    int64_t finetune;
};

/* The most bytes of a call's input or room. */
#define LENT_MOST (4 * 16777216 + 65536)

/* The most numbers that a table is lent with. */
#define LENT_TABLE_MOST 16384

/* Maps the memory, and takes over the signals of wild reads and writes. The input of a call that differs goes to dump_path. */
void lent_start(const char *dump_path);

/* Names the group that calls belong to from now on. */
void lent_group(const char *group);

/* Makes the call twice, with its buffers against either end of the mapped memory and other bytes in what is lent, and compares
   the answer and every byte afterwards with the reference's. Returns the answer. On a difference it says so and exits with 1. */
uint64_t lent_compare(const struct call *call);

/* Says that a call's answer is not the one that was expected, and exits with 1. */
void lent_unexpected(const struct call *call, const char *expected, uint64_t got);

/* Calls made so far, and how many of one name were answered with one refusal number. */
uint64_t lent_calls(void);
uint64_t lent_seen(enum call_name name, unsigned number);

const char *call_text(enum call_name name);

#endif
