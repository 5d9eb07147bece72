/* reference.h: the rules once more, in plain C, written from the rules paper alone. It shares nothing with the proved
   code; the comparison and the benchmark hold the library against it.

   Memory rules are those of the library: what is written must not overlap what is read, a refused call changes nothing. */

#ifndef REFERENCE_H
#define REFERENCE_H

#include <stddef.h>
#include <stdint.h>

/* A second copy of the reference in one program (faulty.c) makes the calls its own by defining this as static. */
#ifndef REFERENCE_CALL
#define REFERENCE_CALL
#endif

/* number 0 (with place 0): accepted. */
struct reference_refusal {
    uint32_t number;
    uint32_t place;
};

/* What an accepted check reports; all 0 behind a refusal. */
struct reference_checked {
    struct reference_refusal refusal;
    uint32_t end;
    uint32_t channels;
    uint32_t patterns;
    uint32_t instruments;
    uint32_t samples;
};

struct reference_pattern_row {
    uint32_t data_place;
    uint32_t data_size;
    uint32_t rows;
};

struct reference_instrument_row {
    uint32_t place;
    uint32_t samples;
    uint32_t first_sample; /* the next sample's number where samples is 0 */
};

struct reference_sample_row {
    uint32_t header_place;
    uint32_t data_place;
    uint32_t length; /* in bytes, as they are stored */
    uint32_t width;  /* 8 or 16 */
    uint32_t loop_kind; /* 0 none, 1 forward, 2 both ways; without a loop its start and length are 0, too */
    uint32_t loop_start; /* in samples, as is the length */
    uint32_t loop_length;
    int8_t finetune;
    int8_t relative_note;
};

/* Three lent tables, with the number of rows that each has room for. */
struct reference_tables {
    struct reference_pattern_row *patterns;
    size_t pattern_room;
    struct reference_instrument_row *instruments;
    size_t instrument_room;
    struct reference_sample_row *samples;
    size_t sample_room;
};

enum reference_kind { REFERENCE_PATTERN, REFERENCE_INSTRUMENT, REFERENCE_SAMPLE_HEADER, REFERENCE_END };

/* One structure of a file; kind REFERENCE_END with place 0 behind the last one, and of a refused file. */
struct reference_structure {
    struct reference_refusal refusal;
    enum reference_kind kind;
    uint32_t place;
};

/* Refusal and one result number: the rows of unpacking, the length of pressing and converting, the count of values or bytes of
   deltas, the count of ADPCM values. */
struct reference_count {
    struct reference_refusal refusal;
    uint32_t count;
};

struct reference_packed {
    struct reference_refusal refusal;
    uint32_t length;
    uint32_t rows;
};

struct reference_period {
    struct reference_refusal refusal;
    uint32_t dividend;
    uint32_t divisor;
};

/* A sample's data inside the file; 0 and 0 behind a refusal. */
struct reference_stretch {
    struct reference_refusal refusal;
    uint32_t place;
    uint32_t length;
};

REFERENCE_CALL struct reference_checked reference_check(const uint8_t *file, size_t file_len);

/* As the check; then 14 if a table is too short; then the tables are filled. */
REFERENCE_CALL struct reference_checked reference_check_tables(const uint8_t *file, size_t file_len,
                                                               const struct reference_tables *tables);

/* The first structure that starts at or after a place, in file order (an instrument, its sample headers, the next one). */
REFERENCE_CALL struct reference_structure reference_structure_from(const uint8_t *file, size_t file_len, size_t place);

/* The structure of a number, counted from 0 in file order. */
REFERENCE_CALL struct reference_structure reference_structure_at(const uint8_t *file, size_t file_len, size_t number);

REFERENCE_CALL struct reference_count reference_unpack(size_t rows, size_t channels, const uint8_t *data, size_t data_len,
                                                       uint8_t *cells, size_t cells_len);

REFERENCE_CALL struct reference_packed reference_pack(size_t rows, size_t channels, const uint8_t *cells, size_t cells_len,
                                                      uint8_t *out, size_t out_len);

/* Either kind of module in its own kind. */
REFERENCE_CALL struct reference_count reference_press(const uint8_t *file, size_t file_len, uint8_t *out, size_t out_len);

/* Either kind as a normal module, or as a stripped one: 2 if that would be over the limit, just before 14. */
REFERENCE_CALL struct reference_count reference_to_normal(const uint8_t *file, size_t file_len, uint8_t *out, size_t out_len);
REFERENCE_CALL struct reference_count reference_to_stripped(const uint8_t *file, size_t file_len, uint8_t *out, size_t out_len);

/* Reading deltas into values, and coding values as deltas; value_room counts values, room counts bytes. */
REFERENCE_CALL struct reference_count reference_delta_decode(size_t width, const uint8_t *bytes, size_t byte_count,
                                                             int16_t *values, size_t value_room);
REFERENCE_CALL struct reference_count reference_delta_code(size_t width, const int16_t *values, size_t value_count,
                                                           uint8_t *bytes, size_t room);

/* An ADPCM sample's stored bytes into values; length is the header's, how many values. */
REFERENCE_CALL struct reference_count reference_adpcm_decode(size_t length, const uint8_t *bytes, size_t byte_count,
                                                             int16_t *values, size_t value_room);

/* A period as a dividend and a divisor; 0 and 0 behind a refusal. */
REFERENCE_CALL struct reference_period reference_period(uint64_t note, int64_t finetune);

/* Where a sample of a lent table stands in the file. */
REFERENCE_CALL struct reference_stretch reference_sample_stretch(size_t file_len, const struct reference_sample_row *rows,
                                                                 size_t rows_lent, size_t number);

/* The loader's one number for each of its calls. */
REFERENCE_CALL uint64_t reference_loader_check(const uint8_t *file, size_t file_len);
REFERENCE_CALL uint64_t reference_loader_unpack(size_t rows, size_t channels, const uint8_t *data, size_t data_len,
                                                uint8_t *cells, size_t cells_len);
REFERENCE_CALL uint64_t reference_loader_pack(size_t rows, size_t channels, const uint8_t *cells, size_t cells_len,
                                              uint8_t *out, size_t out_len);
REFERENCE_CALL uint64_t reference_loader_press(const uint8_t *file, size_t file_len, uint8_t *out, size_t out_len);
REFERENCE_CALL uint64_t reference_loader_to_normal(const uint8_t *file, size_t file_len, uint8_t *out, size_t out_len);
REFERENCE_CALL uint64_t reference_loader_to_stripped(const uint8_t *file, size_t file_len, uint8_t *out, size_t out_len);

/* Tables of flat numbers: three to a pattern, three to an instrument; of a sample seven, and its two tunes apart. Lengths count
   numbers, and what is left of a last row that is not whole counts for none. */
REFERENCE_CALL uint64_t reference_loader_tables(const uint8_t *file, size_t file_len, uint32_t *patterns, size_t patterns_len,
                                                uint32_t *instruments, size_t instruments_len, uint32_t *samples,
                                                size_t samples_len, int8_t *tunes, size_t tunes_len);

/* More than 16,777,216 bytes to decode or values to code get 16. */
REFERENCE_CALL uint64_t reference_loader_decode(size_t width, const uint8_t *bytes, size_t bytes_len, int16_t *values,
                                                size_t values_len);
REFERENCE_CALL uint64_t reference_loader_code(size_t width, const int16_t *values, size_t values_len, uint8_t *bytes,
                                              size_t bytes_len);

/* A length above 33,554,432 gets 16. */
REFERENCE_CALL uint64_t reference_loader_adpcm(size_t length, const uint8_t *bytes, size_t bytes_len, int16_t *values,
                                               size_t values_len);

REFERENCE_CALL uint64_t reference_loader_period(uint64_t note, int64_t finetune);

#endif
