/* reference_test.c: the reference's patterns, tables, structures, stripped modules, conversions, deltas, ADPCM samples and stretches,
   held against numbers and files worked out by hand from the rules paper; and laws between them over generated modules. */

#include "modules.h"
#include "reference.h"

#include <stdbool.h>
#include <stdio.h>
#include <stdlib.h>
#include <string.h>

#define COUNT(array) (sizeof(array) / sizeof((array)[0]))

static unsigned long held;

static void must_at(bool holds, const char *what, int line)
{
    held++;
    if (holds)
        return;
    fprintf(stderr, "reference_test.c:%d: does not hold: %s\n", line, what);
    exit(1);
}

#define must(condition) must_at(condition, #condition, __LINE__)

/* Deltas */

static void deltas_hold_the_papers_pieces(void)
{
    const uint8_t narrow[] = {0x00, 0x01, 0xFF, 0x02, 0x01, 0xFE}, wraps[] = {0x7F, 0x01}, wide[] = {0xFF, 0x7F, 0x01, 0x00};
    const int16_t narrow_values[] = {0, 1, 0, 2, 3, 1};
    int16_t values[8];
    uint8_t bytes[8];
    must(reference_delta_decode(8, narrow, 6, values, 6).count == 6 && memcmp(values, narrow_values, 12) == 0);
    must(reference_delta_code(8, values, 6, bytes, 6).count == 6 && memcmp(bytes, narrow, 6) == 0);
    must(reference_delta_decode(8, wraps, 2, values, 2).count == 2 && values[0] == 127 && values[1] == -128);
    must(reference_delta_code(8, values, 2, bytes, 2).count == 2 && memcmp(bytes, wraps, 2) == 0);
    must(reference_delta_decode(16, wide, 4, values, 2).count == 2 && values[0] == 32767 && values[1] == -32768);
    must(reference_delta_code(16, values, 2, bytes, 4).count == 4 && memcmp(bytes, wide, 4) == 0);
}

static void deltas_refuse_in_order(void)
{
    const uint8_t bytes[4] = {1, 2, 3, 4};
    const int16_t value[1] = {128}, least[1] = {-129}, fits[2] = {127, -128};
    int16_t values[4] = {7, 7, 7, 7};
    uint8_t out[4] = {9, 9, 9, 9};
    must(reference_delta_decode(12, bytes, 3, values, 0).refusal.number == 16);
    must(reference_delta_decode(0, bytes, 0, values, 0).refusal.number == 16);
    must(reference_delta_decode(16, bytes, 3, values, 0).refusal.number == 16);
    must(reference_delta_decode(16, bytes, 4, values, 1).refusal.number == 14);
    must(reference_delta_decode(8, bytes, 4, values, 3).refusal.number == 14);
    must(reference_delta_code(12, value, 1, out, 0).refusal.number == 16);
    must(reference_delta_code(8, value, 1, out, 0).refusal.number == 16);
    must(reference_delta_code(8, least, 1, out, 4).refusal.number == 16);
    must(reference_delta_code(8, fits, 2, out, 1).refusal.number == 14);
    must(reference_delta_code(16, value, 1, out, 1).refusal.number == 14);
    must(values[0] == 7 && out[0] == 9);
    must(reference_delta_decode(8, NULL, 0, NULL, 0).refusal.number == 0);
    must(reference_delta_code(16, NULL, 0, NULL, 0).refusal.number == 0);
    must(reference_delta_decode(8, bytes, 2, values, 4).count == 2 && values[1] == 3 && values[2] == 7);
}

static void deltas_come_back(void)
{
    struct chance chance = {4001};
    for (unsigned round = 0; round < 300; round++) {
        uint8_t bytes[64], again[64];
        int16_t values[64];
        size_t width = round % 2 ? 16 : 8, count = 2 * chance_below(&chance, 33);
        for (size_t i = 0; i < count; i++)
            bytes[i] = (uint8_t)chance_next(&chance);
        struct reference_count read = reference_delta_decode(width, bytes, count, values, 64);
        must(read.count == count * 8 / width);
        struct reference_count coded = reference_delta_code(width, values, read.count, again, 64);
        must(coded.refusal.number == 0 && coded.count == count && memcmp(bytes, again, count) == 0);
    }
}

/* Patterns */

static bool all_zeros(const uint8_t *bytes, size_t count)
{
    for (size_t i = 0; i < count; i++)
        if (bytes[i] != 0)
            return false;
    return true;
}

/* No data give the rows asked for, and fill room for them alone. */
static void no_data_keep_their_rows(void)
{
    static uint8_t cells[256 * 64 * 5];
    for (size_t rows = 1; rows <= 256; rows++)
        for (size_t channels = 1; channels <= 64; channels += 21) {
            size_t room = rows * channels * 5;
            memset(cells, 7, sizeof cells);
            must(reference_unpack(rows, channels, NULL, 0, cells, room - 1).refusal.number == 14 && cells[0] == 7);
            struct reference_count unpacked = reference_unpack(rows, channels, NULL, 0, cells, room);
            must(unpacked.refusal.number == 0 && unpacked.count == rows && all_zeros(cells, room));
            must(room == sizeof cells || cells[room] == 7);
        }
    must(reference_unpack(0, 1, NULL, 0, cells, sizeof cells).refusal.number == 16);
    must(reference_unpack(257, 1, NULL, 0, cells, sizeof cells).refusal.number == 16);
}

/* Empty cells alone take no bytes, whatever the rows; one cell that isn't empty, and the others take a byte each. */
static void silence_packs_to_nothing(void)
{
    static uint8_t cells[256 * 64 * 5];
    uint8_t out[128];
    for (size_t rows = 1; rows <= 256; rows++) {
        struct reference_packed packed = reference_pack(rows, 64, cells, rows * 64 * 5, NULL, 0);
        must(packed.refusal.number == 0 && packed.length == 0 && packed.rows == rows);
    }
    cells[1] = 9; /* the first cell's instrument, then 63 empty cells and 31 */
    const uint8_t first[3] = {0x82, 9, 0x80};
    struct reference_packed longer = reference_pack(32, 2, cells, 320, out, sizeof out);
    must(longer.length == 65 && longer.rows == 32 && memcmp(out, first, 3) == 0 && out[64] == 0x80);
    must(reference_pack(32, 1, cells, 160, out, 33).length == 33);
    must(reference_pack(32, 1, cells, 160, out, 32).refusal.number == 14);
    cells[1] = 0;
}

/* One cell: what it packs to, and that this reads as it. */
static void cell_packs_to(const uint8_t cell[5], const uint8_t *stored, size_t length)
{
    uint8_t out[6], read[5];
    must(reference_pack(1, 1, cell, 5, out, length - 1).refusal.number == 14);
    must(reference_pack(1, 1, cell, 5, out, length).length == length && memcmp(out, stored, length) == 0);
    must(reference_unpack(1, 1, stored, length, read, 5).count == 1 && memcmp(read, cell, 5) == 0);
}

static void every_note_is_kept(void)
{
    for (unsigned note = 1; note < 256; note++) {
        const uint8_t alone[] = {(uint8_t)note, 0, 0, 0, 0}, alone_stored[] = {0x81, (uint8_t)note};
        const uint8_t tie[] = {(uint8_t)note, 2, 3, 4, 0}, tie_stored[] = {0x8F, (uint8_t)note, 2, 3, 4};
        const uint8_t full[] = {(uint8_t)note, 2, 3, 4, 5}, full_stored[] = {0x9F, (uint8_t)note, 2, 3, 4, 5};
        uint8_t read[5];
        cell_packs_to(alone, alone_stored, 2);
        cell_packs_to(tie, tie_stored, 5);
        cell_packs_to(full, note < 128 ? full : full_stored, note < 128 ? 5 : 6);
        must(reference_unpack(1, 1, full_stored, 6, read, 5).count == 1 && memcmp(read, full, 5) == 0);
        if (note < 128)
            must(reference_unpack(1, 1, alone, 5, read, 5).count == 1 && memcmp(read, alone, 5) == 0);
    }
    const uint8_t none[] = {0, 2, 3, 4, 5}, none_stored[] = {0x9E, 2, 3, 4, 5};
    cell_packs_to(none, none_stored, 5);
}

/* 256 rows of full cells, of six bytes each: 64,512 at 42 channels, 66,048 at 43. */
static void fifteen_starts_at_43_channels(void)
{
    static uint8_t cells[256 * 64 * 5], out[65535];
    memset(cells, 255, sizeof cells);
    struct reference_packed most = reference_pack(256, 42, cells, 256 * 42 * 5, out, 64512);
    must(most.refusal.number == 0 && most.length == 64512 && most.rows == 256 && out[64506] == 0x9F && out[64511] == 255);
    must(reference_pack(256, 42, cells, 256 * 42 * 5, out, 64511).refusal.number == 14);
    must(reference_pack(256, 43, cells, 256 * 43 * 5, out, sizeof out).refusal.number == 15);
    must(reference_pack(256, 43, cells, 256 * 43 * 5, NULL, 0).refusal.number == 15);
    for (size_t cell = 0; cell < 513; cell++) /* 66,048 - 513 = 65,535 */
        cells[5 * cell] = 127;
    must(reference_pack(256, 43, cells, 256 * 43 * 5, out, sizeof out).length == 65535);
    cells[0] = 128;
    must(reference_pack(256, 43, cells, 256 * 43 * 5, out, sizeof out).refusal.number == 15);
}

/* A module laid out by hand */

#define PUT(place, width, number) field_put(file, (struct field){place, width}, number)

enum { HAND_LENGTH = 1500 };

/* Two patterns (one stored in no bytes), an empty instrument, one of two samples, an empty one.

     0  header, size 278                     388  instrument 1: I = 264, two samples, H = 41
   338  pattern 0: L = 10, 1 row, S = 2      652  its sample headers, at 652 and 693
   350  pattern 1: L = 9, 7 rows, S = 0      734  data of 3 bytes, then of 4 (16-bit)
   359  instrument 0: I = 29, no samples     741  instrument 2: I = 30, no samples; the end is 771 */
static void hand_module(uint8_t *file)
{
    memset(file, 0xEE, HAND_LENGTH);
    file[37] = 0x1A;
    PUT(58, 2, 0x0104);
    PUT(60, 4, 278);
    PUT(64, 2, 1), PUT(66, 2, 0), PUT(68, 2, 2), PUT(70, 2, 2), PUT(72, 2, 3);
    PUT(338, 4, 10), PUT(343, 2, 1), PUT(345, 2, 2), PUT(348, 2, 0x8080);
    PUT(350, 4, 9), PUT(355, 2, 7), PUT(357, 2, 0);
    PUT(359, 4, 29), PUT(386, 2, 0);
    PUT(388, 4, 264), PUT(415, 2, 2), PUT(417, 4, 41);
    PUT(652, 4, 3), PUT(660, 4, 0), PUT(665, 1, 0x80), PUT(666, 1, 0), PUT(668, 1, 0x7F), PUT(669, 1, 0);
    PUT(693, 4, 4), PUT(701, 4, 0), PUT(706, 1, 0xFF), PUT(707, 1, 0x10), PUT(709, 1, 0x80), PUT(710, 1, 0);
    PUT(741, 4, 30), PUT(768, 2, 0);
}

static void put_loop(uint8_t *file, uint32_t header, uint32_t start, uint32_t length, uint32_t type)
{
    PUT(header + 4, 4, start), PUT(header + 8, 4, length), PUT(header + 14, 1, type);
}

static void tables_of_the_hand_module(void)
{
    uint8_t file[HAND_LENGTH];
    struct reference_pattern_row patterns[3];
    struct reference_instrument_row instruments[4];
    struct reference_sample_row samples[3];
    memset(samples, 0x55, sizeof samples);
    struct reference_tables tables = {patterns, 3, instruments, 4, samples, 3};
    hand_module(file);
    struct reference_checked checked = reference_check_tables(file, sizeof file, &tables);
    must(checked.refusal.number == 0 && checked.refusal.place == 0 && checked.end == 771);
    must(checked.channels == 2 && checked.patterns == 2 && checked.instruments == 3 && checked.samples == 2);
    must(patterns[0].data_place == 348 && patterns[0].data_size == 2 && patterns[0].rows == 1);
    must(patterns[1].data_place == 359 && patterns[1].data_size == 0 && patterns[1].rows == 7);
    must(instruments[0].place == 359 && instruments[0].samples == 0 && instruments[0].first_sample == 0);
    must(instruments[1].place == 388 && instruments[1].samples == 2 && instruments[1].first_sample == 0);
    must(instruments[2].place == 741 && instruments[2].samples == 0 && instruments[2].first_sample == 2);
    must(samples[0].header_place == 652 && samples[0].data_place == 734 && samples[0].length == 3 && samples[0].width == 8);
    must(samples[0].finetune == -128 && samples[0].relative_note == 127);
    must(samples[1].header_place == 693 && samples[1].data_place == 737 && samples[1].length == 4 && samples[1].width == 16);
    must(samples[1].finetune == -1 && samples[1].relative_note == -128);
    must(samples[2].header_place == 0x55555555);
}

/* The loader's form of the same: flat numbers, and numbers behind the last row stay. */
static void flat_tables_of_the_hand_module(void)
{
    const uint32_t want_patterns[] = {348, 2, 1, 359, 0, 7}, want_instruments[] = {359, 0, 0, 388, 2, 0, 741, 0, 2, 7, 7};
    const uint32_t want_samples[] = {652, 734, 3, 8, 2, 1, 2, 693, 737, 4, 16, 0, 0, 0, 7, 7, 7, 7, 7, 7};
    const int8_t want_tunes[] = {-128, 127, -1, -128, 7};
    uint8_t file[HAND_LENGTH];
    uint32_t patterns[6], instruments[11], samples[20] = {[14] = 7, 7, 7, 7, 7, 7};
    int8_t tunes[5] = {[4] = 7};
    instruments[9] = instruments[10] = 7;
    hand_module(file);
    put_loop(file, 652, 1, 2, 2);
    must(reference_loader_tables(file, sizeof file, patterns, 6, instruments, 11, samples, 20, tunes, 5) == 771);
    must(memcmp(patterns, want_patterns, sizeof patterns) == 0 && memcmp(instruments, want_instruments, sizeof instruments) == 0);
    must(memcmp(samples, want_samples, sizeof samples) == 0 && memcmp(tunes, want_tunes, sizeof tunes) == 0);
    must(reference_loader_tables(file, sizeof file, patterns, 5, instruments, 9, samples, 14, tunes, 4) == (uint64_t)14 << 32);
    must(reference_loader_tables(file, sizeof file, patterns, 6, instruments, 8, samples, 14, tunes, 4) == (uint64_t)14 << 32);
    must(reference_loader_tables(file, sizeof file, patterns, 6, instruments, 9, samples, 13, tunes, 4) == (uint64_t)14 << 32);
    must(reference_loader_tables(file, sizeof file, patterns, 6, instruments, 9, samples, 14, tunes, 3) == (uint64_t)14 << 32);
    must(reference_loader_tables(file, 770, NULL, 0, NULL, 0, NULL, 0, NULL, 0) == ((uint64_t)1 << 32 | 741));
}

/* The limit is tried before anything is read, and before room. */
static void deltas_have_a_limit(void)
{
    const uint8_t byte[1] = {0xFF};
    const int16_t value[1] = {-1};
    int16_t decoded[1];
    uint8_t coded[2];
    must(reference_loader_decode(8, byte, 1, decoded, 1) == 1 && decoded[0] == -1);
    must(reference_loader_code(16, value, 1, coded, 2) == 2 && coded[0] == 0xFF && coded[1] == 0xFF);
    must(reference_loader_decode(8, NULL, 16777216, NULL, 0) == (uint64_t)14 << 32);
    must(reference_loader_decode(8, NULL, 16777217, NULL, 0) == (uint64_t)16 << 32);
    must(reference_loader_decode(16, NULL, 16777218, NULL, 8388609) == (uint64_t)16 << 32);
    must(reference_loader_code(16, NULL, 16777216, NULL, 0) == (uint64_t)14 << 32);
    must(reference_loader_code(16, NULL, 16777217, NULL, 33554434) == (uint64_t)16 << 32);
}

/* ADPCM: document 001's table and indexes, with one value that wraps behind them. */
static const uint8_t adpcm_bytes[] = {0x00, 0x01, 0x02, 0x04, 0x08, 0x10, 0x20, 0x40, 0xFF, 0xFE, 0xFC, 0xF8,
                                      0xF0, 0xE0, 0xD0, 0xC0, 0x00, 0x08, 0x00, 0x18, 0x31, 0x02, 0x81, 0x77};

static void adpcm_holds_the_descriptions_example(void)
{
    const int16_t want[] = {0, 0, -1, -1, -1, -1, -2, -1, 0, 4, 6, 6, 7, 6, 70, -122};
    int16_t values[16];
    for (size_t length = 13; length <= 16; length++) {
        memset(values, 0x55, sizeof values);
        must(reference_adpcm_decode(length, adpcm_bytes, 16 + (length + 1) / 2, values, 16).count == length);
        must(memcmp(values, want, length * sizeof want[0]) == 0);
        must(length == 16 || values[length] == 0x5555);
    }
}

static void adpcm_refuses_in_order(void)
{
    int16_t values[14] = {7};
    must(reference_adpcm_decode(0, NULL, 0, NULL, 0).refusal.number == 0 && reference_adpcm_decode(0, NULL, 0, NULL, 0).count == 0);
    must(reference_adpcm_decode(0, adpcm_bytes, 16, values, 14).refusal.number == 16);
    must(reference_adpcm_decode(1, adpcm_bytes, 17, values, 0).refusal.number == 14);
    must(reference_adpcm_decode(14, adpcm_bytes, 22, values, 0).refusal.number == 16);
    must(reference_adpcm_decode(14, adpcm_bytes, 24, values, 14).refusal.number == 16);
    must(reference_adpcm_decode(14, adpcm_bytes, 23, values, 13).refusal.number == 14);
    must(reference_adpcm_decode(SIZE_MAX, adpcm_bytes, 15, values, 14).refusal.number == 16);
    must(reference_adpcm_decode(SIZE_MAX, adpcm_bytes, 16, values, 14).refusal.number == 16);
    must(values[0] == 7);
    must(reference_loader_adpcm(14, adpcm_bytes, 23, values, 14) == 14 && values[9] == 4);
    must(reference_loader_adpcm(33554432, NULL, 16777232, NULL, 0) == (uint64_t)14 << 32);
    must(reference_loader_adpcm(33554433, NULL, 16777233, NULL, 0) == (uint64_t)16 << 32);
}

/* The hand module with its first sample of kind AD: 3 values take 18 bytes, and what lies behind moves by 15. */
static void adpcm_in_the_hand_module(void)
{
    uint8_t file[HAND_LENGTH];
    struct reference_pattern_row patterns[2];
    struct reference_instrument_row instruments[3];
    struct reference_sample_row samples[2];
    struct reference_tables tables = {patterns, 2, instruments, 3, samples, 2};
    hand_module(file);
    PUT(669, 1, 0xAD);
    PUT(756, 4, 30), PUT(783, 2, 0);
    must(reference_check_tables(file, sizeof file, &tables).end == 786);
    must(samples[0].data_place == 734 && samples[0].length == 18 && samples[0].width == 8);
    must(samples[1].data_place == 752 && samples[1].length == 4 && instruments[2].place == 756);
    must(reference_check(file, 751).refusal.number == 1 && reference_check(file, 751).refusal.place == 734);
    PUT(666, 1, 0x10);
    must(reference_check(file, sizeof file).refusal.number == 12 && reference_check(file, sizeof file).refusal.place == 652);
    PUT(652, 4, 0);
    must(reference_check(file, sizeof file).refusal.number == 12);
    PUT(666, 1, 0);
    PUT(652, 4, 0xFFFFFFFF); /* its 2^31 + 16 bytes do not wrap */
    must(reference_check(file, sizeof file).refusal.number == 1 && reference_check(file, sizeof file).refusal.place == 734);
}

static bool loops_so(const struct reference_sample_row *row, uint32_t kind, uint32_t start, uint32_t length)
{
    return row->loop_kind == kind && row->loop_start == start && row->loop_length == length;
}

/* Loops of its samples of 3 values of 8 bits and 2 of 16: in samples, and 0 in all three where there is none. */
static void loops_in_the_hand_module(void)
{
    uint8_t file[HAND_LENGTH];
    struct reference_pattern_row patterns[2];
    struct reference_instrument_row instruments[3];
    struct reference_sample_row samples[2];
    struct reference_tables tables = {patterns, 2, instruments, 3, samples, 2};
    hand_module(file);
    put_loop(file, 652, 1, 2, 2), put_loop(file, 693, 2, 2, 0x11);
    must(reference_check_tables(file, sizeof file, &tables).end == 771);
    must(loops_so(&samples[0], 2, 1, 2) && loops_so(&samples[1], 1, 1, 1));
    put_loop(file, 652, 1, 2, 0), put_loop(file, 693, 2, 0, 0x12); /* no loop bits; no loop length */
    must(reference_check_tables(file, sizeof file, &tables).end == 771);
    must(loops_so(&samples[0], 0, 0, 0) && loops_so(&samples[1], 0, 0, 0));
}

/* Half samples: 13 where a 16-bit sample loops, behind its other causes and 12. */
static void odd_loops_in_the_hand_module(void)
{
    static const struct {
        uint32_t start, length, type, number;
    } loops[] = {{1, 2, 0x11, 13}, {2, 1, 0x12, 13}, {1, 1, 0x11, 13}, {2, 2, 0x11, 0}, {1, 1, 0x10, 0}, {1, 0, 0x11, 0}, {1, 3, 1, 0}};
    uint8_t file[HAND_LENGTH];
    hand_module(file);
    for (size_t i = 0; i < sizeof loops / sizeof loops[0]; i++) {
        put_loop(file, 693, loops[i].start, loops[i].length, loops[i].type);
        struct reference_refusal refusal = reference_check(file, sizeof file).refusal;
        must(refusal.number == loops[i].number && refusal.place == (loops[i].number == 0 ? 0 : 693));
    }
    put_loop(file, 693, 1, 1, 0x11);
    PUT(710, 1, 0xAD);
    must(reference_check(file, sizeof file).refusal.number == 12);
}

static void a_short_table_leaves_all_alone(void)
{
    uint8_t file[HAND_LENGTH];
    hand_module(file);
    for (unsigned which = 0; which < 3; which++) {
        struct reference_pattern_row patterns[2] = {{1, 1, 1}};
        struct reference_instrument_row instruments[3] = {{1, 1, 1}};
        struct reference_sample_row samples[2] = {{1, 1, 1, 1, 1, 1, 1, 1, 1}};
        struct reference_tables tables = {patterns, 2, instruments, 3, samples, 2};
        tables.pattern_room -= which == 0;
        tables.instrument_room -= which == 1;
        tables.sample_room -= which == 2;
        struct reference_checked checked = reference_check_tables(file, sizeof file, &tables);
        must(checked.refusal.number == 14 && checked.refusal.place == 0 && checked.end == 0 && checked.samples == 0);
        must(patterns[0].data_place == 1 && instruments[0].place == 1 && samples[0].header_place == 1);
    }
}

/* Both patterns are silent: they keep their rows, 1 and 7, and have no data. 336 + 9 + 9 + 29 + (263 + 2 x 40 + 7) + 29 = 762. */
static void press_of_the_hand_module(void)
{
    const uint8_t want[] = {9, 0, 0, 0, 0, 1, 0, 0, 0, 9, 0, 0, 0, 0, 7, 0, 0, 0, 29, 0, 0, 0};
    uint8_t file[HAND_LENGTH], pressed[762], again[762];
    hand_module(file);
    must(reference_press(file, sizeof file, pressed, 761).refusal.number == 14);
    must(reference_press(file, sizeof file, pressed, 762).count == 762);
    must(memcmp(pressed, "Extended module: ", 17) == 0 && memcmp(pressed + 336, want, sizeof want) == 0);
    must(reference_press(pressed, 762, again, 762).count == 762 && memcmp(pressed, again, 762) == 0);
    PUT(343, 2, 0); /* rows of 0, and of 257, are refused with data and without */
    must(reference_check(file, sizeof file).refusal.number == 6 && reference_check(file, sizeof file).refusal.place == 338);
    PUT(343, 2, 1), PUT(355, 2, 0);
    must(reference_check(file, sizeof file).refusal.number == 6 && reference_check(file, sizeof file).refusal.place == 350);
    PUT(355, 2, 257);
    must(reference_check(file, sizeof file).refusal.number == 6 && reference_check(file, sizeof file).refusal.place == 350);
}

static void structures_of_the_hand_module(void)
{
    const struct { enum reference_kind kind; uint32_t place; } all[] = {
        {REFERENCE_PATTERN, 338}, {REFERENCE_PATTERN, 350}, {REFERENCE_INSTRUMENT, 359}, {REFERENCE_INSTRUMENT, 388},
        {REFERENCE_SAMPLE_HEADER, 652}, {REFERENCE_SAMPLE_HEADER, 693}, {REFERENCE_INSTRUMENT, 741}, {REFERENCE_END, 0}};
    uint8_t file[HAND_LENGTH];
    hand_module(file);
    for (size_t i = 0; i < COUNT(all) + 3; i++) {
        struct reference_structure structure = reference_structure_at(file, sizeof file, i);
        size_t want = i < COUNT(all) ? i : COUNT(all) - 1;
        must(structure.refusal.number == 0 && structure.kind == all[want].kind && structure.place == all[want].place);
    }
    size_t next = 0;
    for (size_t place = 0; place <= sizeof file + 1; place++) {
        while (all[next].kind != REFERENCE_END && all[next].place < place)
            next++;
        struct reference_structure structure = reference_structure_from(file, sizeof file, place);
        must(structure.kind == all[next].kind && structure.place == all[next].place);
    }
    file[37] = 0;
    must(reference_structure_at(file, sizeof file, 0).refusal.number == 3);
    must(reference_structure_from(file, sizeof file, 9999).refusal.number == 3);
}

static void stretches(void)
{
    const struct reference_sample_row rows[] = {{.data_place = 10, .length = 5},
                                                {.data_place = 20, .length = 0},
                                                {.data_place = 21, .length = 0},
                                                {.data_place = 10, .length = 11},
                                                {.data_place = 0xFFFFFFFF, .length = 0xFFFFFFFF}};
    struct reference_stretch first = reference_sample_stretch(20, rows, COUNT(rows), 0);
    must(first.refusal.number == 0 && first.place == 10 && first.length == 5);
    struct reference_stretch at_end = reference_sample_stretch(20, rows, COUNT(rows), 1);
    must(at_end.refusal.number == 0 && at_end.place == 20 && at_end.length == 0);
    for (size_t number = 2; number < COUNT(rows) + 2; number++) {
        struct reference_stretch none = reference_sample_stretch(20, rows, COUNT(rows), number);
        must(none.refusal.number == 16 && none.refusal.place == 0 && none.place == 0 && none.length == 0);
    }
    must(reference_sample_stretch(20, rows, 1, SIZE_MAX).refusal.number == 16);
}

/* Over generated modules: structures are what the tables name, and regions follow one another without gap or overlap. */
static void tables_and_structures_agree(const struct module *module)
{
    static struct reference_pattern_row patterns[256];
    static struct reference_instrument_row instruments[128];
    static struct reference_sample_row samples[2048];
    struct reference_tables tables = {patterns, 256, instruments, 128, samples, 2048};
    struct reference_checked checked = reference_check_tables(module->bytes, module->length, &tables);
    must(checked.refusal.number == 0);
    size_t number = 0, end = field_get(module->bytes, (struct field){60, 4}) + 60;
    for (uint32_t i = 0; i < checked.patterns; i++) {
        struct reference_structure structure = reference_structure_at(module->bytes, module->length, number++);
        must(structure.kind == REFERENCE_PATTERN && structure.place == end);
        end = patterns[i].data_place + patterns[i].data_size;
    }
    for (uint32_t i = 0; i < checked.instruments; i++) {
        struct reference_structure structure = reference_structure_at(module->bytes, module->length, number++);
        must(structure.kind == REFERENCE_INSTRUMENT && structure.place == end && instruments[i].place == end);
        end += field_get(module->bytes, (struct field){(uint32_t)end, 4});
        for (uint32_t j = 0; j < instruments[i].samples; j++) {
            const struct reference_sample_row *row = &samples[instruments[i].first_sample + j];
            structure = reference_structure_at(module->bytes, module->length, number++);
            must(structure.kind == REFERENCE_SAMPLE_HEADER && structure.place == row->header_place);
            must(reference_structure_from(module->bytes, module->length, row->header_place).place == row->header_place);
            end = row->data_place + row->length;
        }
    }
    must(end == checked.end && reference_structure_at(module->bytes, module->length, number).kind == REFERENCE_END);
}

static void generated_modules(void)
{
    struct chance chance = {4002};
    struct module module = {0};
    for (unsigned round = 0; round < 200; round++) {
        struct shape shape = shape_by_chance(&chance, false);
        module_build(&module, &shape, &chance);
        tables_and_structures_agree(&module);
    }
    module_free(&module);
}

/* Stripped modules */

/* Bytes that a worked file is put together of. */
struct bytes {
    uint8_t at[8000];
    size_t length;
};

static void add_number(struct bytes *to, uint32_t width, uint32_t number)
{
    field_put(to->at, (struct field){(uint32_t)to->length, width}, number);
    to->length += width;
}

static void add(struct bytes *to, size_t count, uint8_t byte)
{
    memset(to->at + to->length, byte, count);
    to->length += count;
}

static void add_counting(struct bytes *to, size_t count)
{
    for (size_t i = 1; i <= count; i++)
        add(to, 1, (uint8_t)i);
}

/* A module of nulls with one pattern of 64 empty rows, whose header has these numbers and so many order entries. */
static struct bytes headed(uint32_t mark, uint32_t version, uint32_t size, const char *id, uint8_t tracker, size_t orders,
                           uint32_t instruments)
{
    struct bytes file = {.length = 0};
    memcpy(file.at, id, strlen(id));
    file.length = 17;
    add(&file, 20, 0);
    add_number(&file, 1, mark);
    add(&file, 20, tracker);
    add_number(&file, 2, version);
    add_number(&file, 4, size);
    const uint32_t numbers[] = {1, 0, 1, 1, instruments, 0, 6, 125};
    for (size_t i = 0; i < COUNT(numbers); i++)
        add_number(&file, 2, numbers[i]);
    add(&file, orders, 0);
    add_number(&file, 4, 9), add_number(&file, 1, 0), add_number(&file, 2, 64), add_number(&file, 2, 0);
    return file;
}

static const char id[] = "Extended module: ";

/* In their shortest form: 345 bytes, and 90. */
static struct bytes small_normal(uint32_t instruments)
{
    return headed(0x1A, 0x0104, 276, id, 0, 256, instruments);
}

static struct bytes small_stripped(uint32_t instruments)
{
    return headed(0, 0, 21, "", 0, 1, instruments);
}

/* An instrument of nulls up to its sample count. */
static void add_count(struct bytes *to, uint32_t size, uint32_t width, uint32_t samples)
{
    add_number(to, 4, size);
    add(to, 23, 0);
    add_number(to, width, samples);
}

/* One sample of five bytes, whose header is its length: in the shortest form; and with an I and an H that are larger than they need
   be. */
static struct bytes five_stripped(bool longer)
{
    struct bytes file = small_stripped(1);
    add_count(&file, longer ? 35 : 30, 2, 1);
    add_number(&file, longer ? 4 : 1, longer ? 3 : 1);
    add(&file, longer ? 2 : 0, 0);
    add_number(&file, longer ? 3 : 1, 5);
    add_counting(&file, 5);
    return file;
}

static struct bytes five_normal(void)
{
    struct bytes file = small_normal(1);
    add_count(&file, 263, 2, 1);
    add_number(&file, 4, 40);
    add(&file, 230, 0);
    add_number(&file, 4, 5);
    add(&file, 36, 0);
    add_counting(&file, 5);
    return file;
}

/* One sample whose header is cut behind the last byte that isn't 0: of kind AD and one value, and its type; or a loop at 16 bits. */
static struct bytes one_value(uint32_t type)
{
    struct bytes file = small_stripped(1);
    add_count(&file, 30, 2, 1);
    add_number(&file, 1, 18);
    add_number(&file, 4, 1), add(&file, 10, 0), add_number(&file, 1, type), add(&file, 2, 0), add_number(&file, 1, 0xAD);
    add(&file, 17, 7);
    return file;
}

static struct bytes looped(uint32_t start, uint32_t size)
{
    struct bytes file = small_stripped(1);
    add_count(&file, 30, 2, 1);
    add_number(&file, 1, 15);
    add_number(&file, 4, 4), add_number(&file, 4, start), add_number(&file, 4, size), add(&file, 2, 0), add_number(&file, 1, 17);
    add(&file, 4, 7);
    return file;
}

static bool checks_to(const struct bytes *file, uint32_t end, uint32_t instruments, uint32_t samples)
{
    struct reference_checked checked = reference_check(file->at, file->length);
    return checked.refusal.number == 0 && checked.end == end && checked.channels == 1 && checked.patterns == 1 &&
           checked.instruments == instruments && checked.samples == samples;
}

static bool refused_with(const struct bytes *file, uint32_t number, uint32_t place)
{
    struct reference_checked checked = reference_check(file->at, file->length);
    return checked.refusal.number == number && checked.refusal.place == place && checked.end == 0;
}

typedef struct reference_count (*writer)(const uint8_t *file, size_t file_len, uint8_t *out, size_t out_len);

/* What is written, with just the room for it; a byte less is 14, and leaves the output as it was. */
static bool writes(writer write, const struct bytes *file, const struct bytes *want)
{
    uint8_t out[8000];
    memset(out, 0x5A, sizeof out);
    struct reference_count less = write(file->at, file->length, out, want->length - 1);
    bool untouched = less.refusal.number == 14 && less.refusal.place == 0 && out[0] == 0x5A;
    struct reference_count written = write(file->at, file->length, out, want->length);
    return untouched && written.refusal.number == 0 && written.count == want->length && out[want->length] == 0x5A &&
           memcmp(out, want->at, want->length) == 0;
}

static void stripped_headers(void)
{
    struct bytes file = small_stripped(0);
    must(file.length == 90 && checks_to(&file, 90, 0, 0));
    /* neither pair of mark and version */
    file = headed(0, 0x0104, 276, id, 0, 256, 0), must(refused_with(&file, 3, 0));
    file = headed(0x1A, 0, 276, id, 0, 256, 0), must(refused_with(&file, 3, 0));
    /* header size below 20 + song length; a normal header's of 21 */
    file = headed(0, 0, 20, "", 0, 0, 0), must(refused_with(&file, 4, 0));
    file = headed(0x1A, 0x0104, 21, id, 0, 1, 0), must(refused_with(&file, 4, 0));
    /* by the song length as it stands: 4 of 65,535 orders, 5 of none */
    file = small_stripped(0), file.at[64] = file.at[65] = 255, must(refused_with(&file, 4, 0));
    file = small_stripped(0), file.at[64] = 0, must(refused_with(&file, 5, 0));
    /* a normal header's size is fine, and one cut off is not */
    file = headed(0, 0, 276, "", 0, 256, 0), must(checks_to(&file, 345, 0, 0));
    file = small_stripped(0), file.length = 80, must(refused_with(&file, 1, 0));
    file.length = 79, file.at[37] = 1, must(refused_with(&file, 1, 0));
}

static void stripped_instruments(void)
{
    struct bytes file = small_stripped(1);
    /* three bytes; I = 3; I = 5 in 4 bytes; I = 40 in 28, and 17 samples; 17 samples; and 16 */
    add_number(&file, 3, 4), must(refused_with(&file, 1, 90));
    file = small_stripped(1), add_number(&file, 4, 3), must(refused_with(&file, 10, 90));
    file = small_stripped(1), add_number(&file, 4, 5), must(refused_with(&file, 1, 90));
    file = small_stripped(1), add_number(&file, 4, 4), must(checks_to(&file, 94, 1, 0));
    file = small_stripped(1), add_count(&file, 40, 1, 17), must(refused_with(&file, 1, 90));
    file = small_stripped(1), add_count(&file, 28, 1, 17), must(refused_with(&file, 10, 90));
    file = small_stripped(1), add_count(&file, 28, 1, 16), must(checks_to(&file, 118, 1, 16));
    /* the count at offset I reads as 0: "greater than" is a slip */
    file = small_stripped(1), add_count(&file, 27, 1, 16), must(checks_to(&file, 117, 1, 0));
    /* a cut goes through a number: of 272 samples I = 28 leaves 16 */
    file = small_stripped(1), add_count(&file, 28, 2, 272), must(checks_to(&file, 118, 1, 16));
    file = small_stripped(1), add_count(&file, 29, 2, 272), must(refused_with(&file, 10, 90));
    /* no 11: H of 39, and H cut off; a header that is not there is 1 */
    file = small_stripped(1), add_count(&file, 30, 2, 1), add_number(&file, 1, 39), add(&file, 39, 0), must(checks_to(&file, 159, 1, 1));
    file.length--, must(refused_with(&file, 1, 90));
    /* without samples nothing from 29 on is read */
    file = small_stripped(1), add_count(&file, 33, 2, 0), add(&file, 4, 255), must(checks_to(&file, 123, 1, 0));
}

static void stripped_samples(void)
{
    struct bytes file = one_value(0);
    must(checks_to(&file, 155, 1, 1) && writes(reference_press, &file, &file));
    file = one_value(16), must(refused_with(&file, 12, 120));
    file = looped(2, 2), must(checks_to(&file, 139, 1, 1));
    file = looped(2, 4), must(refused_with(&file, 13, 120));
    file = looped(1, 2), must(refused_with(&file, 13, 120));
    file = looped(0, 3), must(refused_with(&file, 13, 120));
    file = five_stripped(true), must(checks_to(&file, 133, 1, 1));
    file.length--, must(refused_with(&file, 1, 128));
}

/* With H = 0 the headers stand at one place, and are handed over one by one. */
static void stripped_structures(void)
{
    const struct { enum reference_kind kind; uint32_t place; } all[] = {
        {REFERENCE_PATTERN, 81}, {REFERENCE_INSTRUMENT, 90}, {REFERENCE_SAMPLE_HEADER, 118}, {REFERENCE_SAMPLE_HEADER, 118},
        {REFERENCE_END, 0}};
    struct bytes file = small_stripped(1);
    add_count(&file, 28, 1, 2);
    for (size_t i = 0; i < COUNT(all) + 2; i++) {
        struct reference_structure structure = reference_structure_at(file.at, file.length, i);
        size_t want = i < COUNT(all) ? i : COUNT(all) - 1;
        must(structure.refusal.number == 0 && structure.kind == all[want].kind && structure.place == all[want].place);
    }
    /* the file tells the kind, not an instrument whose own byte 37 is 1 */
    file = small_stripped(1), add_count(&file, 38, 2, 1), add(&file, 8, 0), add(&file, 1, 1);
    must(reference_structure_at(file.at, file.length, 1).place == 90 && reference_structure_at(file.at, file.length, 2).place == 128);
}

/* Headers of 14 bytes: the tunes in front of that are read, and the type, behind it, is 0. */
static void stripped_tables(void)
{
    struct bytes file = small_stripped(2);
    struct reference_pattern_row patterns[1];
    struct reference_instrument_row instruments[2];
    struct reference_sample_row samples[2];
    struct reference_tables tables = {patterns, 1, instruments, 2, samples, 2};
    add_number(&file, 4, 4);
    add_count(&file, 30, 2, 2);
    add_number(&file, 1, 14);
    add_number(&file, 4, 3), add(&file, 9, 255), add(&file, 1, 0x80);
    add_number(&file, 4, 4), add(&file, 9, 255), add(&file, 1, 0x7F);
    add(&file, 7, 255);
    must(reference_check_tables(file.at, file.length, &tables).end == 159);
    must(patterns[0].data_place == 90 && patterns[0].data_size == 0 && patterns[0].rows == 64);
    must(instruments[0].place == 90 && instruments[0].samples == 0 && instruments[0].first_sample == 0);
    must(instruments[1].place == 94 && instruments[1].samples == 2 && instruments[1].first_sample == 0);
    must(samples[0].header_place == 124 && samples[0].data_place == 152 && samples[0].length == 3 && samples[0].width == 8);
    must(samples[1].header_place == 138 && samples[1].data_place == 155 && samples[1].length == 4 && samples[1].width == 8);
    must(samples[0].finetune == -128 && samples[0].relative_note == 0 && samples[1].finetune == 127);
}

static void stripped_presses(void)
{
    struct bytes file = five_stripped(true), want = five_stripped(false), none = small_stripped(1), plain = small_stripped(0);
    /* the smallest H, then the smallest I */
    must(writes(reference_press, &file, &want) && writes(reference_press, &want, &want));
    file = small_stripped(1), add_number(&file, 4, 28), add(&file, 24, 0);
    add_number(&none, 4, 4);
    must(writes(reference_press, &file, &none) && writes(reference_press, &none, &none));
    /* what is not content: ID text, tracker name, what stands behind the orders, and behind I */
    file = headed(0, 0, 276, id, 'F', 256, 0), file.at[81] = file.at[335] = 9;
    must(writes(reference_press, &file, &plain));
    file = small_stripped(1), add_number(&file, 4, 300), add(&file, 23, 0), add(&file, 2, 0), add(&file, 271, 255);
    must(writes(reference_press, &file, &none));
    /* restart at song length reads as 0 */
    file = small_stripped(0), file.at[66] = 1;
    must(writes(reference_press, &file, &plain));
}

/* The last byte that isn't 0 is kept, wherever it stands: in the name, the type, and with a sample the note map to the fadeout; H is
   then the last of any header. */
static void stripped_sizes(void)
{
    for (uint32_t last = 4; last < 27; last++) {
        struct bytes file = small_stripped(1), want = small_stripped(1);
        add_number(&file, 4, 29), add(&file, 25, 0), file.at[90 + last] = 7;
        add_number(&want, 4, last + 1), add(&want, last - 4, 0), add(&want, 1, 7);
        must(writes(reference_press, &file, &want));
    }
    for (uint32_t last = 33; last < 241; last++) {
        struct bytes file = small_stripped(1), want = small_stripped(1);
        add_count(&file, 263, 2, 1), add_number(&file, 4, 40), add(&file, 208, 0), add(&file, 22, 9), add(&file, 40, 0);
        file.at[90 + last] = 7;
        add_count(&want, last + 1, 2, 1), add(&want, last - 29, 0), add(&want, 1, 7);
        must(writes(reference_press, &file, &want));
    }
    for (uint32_t last = 18; last < 40; last++) {
        struct bytes file = small_stripped(1), want = small_stripped(1);
        add_count(&file, 33, 2, 3), add_number(&file, 4, 41), add(&file, 3 * 41, 0);
        file.at[90 + 33 + 41 + last] = 7, file.at[90 + 33 + 2 * 41 + 3] = 0, file.at[90 + 33 + 2 * 41 + 5] = 8;
        file.at[90 + 33 + 40] = 9; /* no part of the first header */
        add_count(&want, 30, 2, 3), add_number(&want, 1, last + 1), add(&want, 3 * (last + 1), 0);
        want.at[90 + 30 + last + 1 + last] = 7, want.at[90 + 30 + 2 * (last + 1) + 5] = 8;
        must(writes(reference_press, &file, &want));
    }
}

/* Both ways, without a tracker name; and to the kind that a file has already. */
static void conversions(void)
{
    struct bytes named = headed(0x1A, 0x0104, 276, id, 'F', 256, 0), normal = small_normal(0), stripped = small_stripped(0);
    must(writes(reference_to_stripped, &named, &stripped) && writes(reference_to_normal, &named, &normal));
    must(writes(reference_press, &named, &named));
    must(writes(reference_to_stripped, &normal, &stripped) && writes(reference_to_normal, &stripped, &normal));
    must(writes(reference_to_normal, &normal, &normal) && writes(reference_to_stripped, &stripped, &stripped));
    normal = five_normal(), stripped = five_stripped(false);
    must(writes(reference_to_stripped, &normal, &stripped) && writes(reference_to_normal, &stripped, &normal));
    stripped = five_stripped(true);
    must(writes(reference_to_normal, &stripped, &normal));
    /* the file's own refusals come first */
    stripped.length--;
    must(reference_to_normal(stripped.at, stripped.length, NULL, 0).refusal.number == 1);
    must(reference_to_stripped(stripped.at, stripped.length, NULL, 0).refusal.place == 128);
    must(reference_loader_to_normal(normal.at, normal.length, NULL, 0) == (uint64_t)14 << 32);
    must(reference_loader_to_stripped(normal.at, 20, NULL, 0) == (uint64_t)1 << 32);
    uint8_t out[8000];
    must(reference_loader_to_normal(normal.at, normal.length, out, sizeof out) == normal.length);
    must(reference_loader_to_stripped(normal.at, normal.length, out, sizeof out) == stripped.length - 6);
}

/* One sample of so many bytes that the normal file, which has 345 + 263 + 40 bytes besides, is as long as a file may be; and longer. */
static void converted_files_have_a_limit(void)
{
    const uint32_t most = 16777216 - 648;
    struct bytes front = small_stripped(1);
    uint8_t *file = calloc(1, 16777216), *out = calloc(1, 16777216);
    must(file != NULL && out != NULL);
    add_count(&front, 30, 2, 1), add_number(&front, 1, 3);
    memcpy(file, front.at, front.length);
    for (uint32_t length = most; length <= most + 1; length++) {
        size_t file_len = front.length + 3 + length;
        field_put(file, (struct field){(uint32_t)front.length, 3}, length);
        must(reference_check(file, file_len).end == file_len);
        struct reference_count normal = reference_to_normal(file, file_len, out, 16777216);
        must(length > most ? normal.refusal.number == 2 && normal.refusal.place == 0 && normal.count == 0 : normal.count == 16777216);
        must(reference_to_normal(file, file_len, out, 0).refusal.number == (length > most ? 2 : 14));
        must(reference_to_normal(file, file_len - 1, out, 0).refusal.number == 1);
        must(reference_to_stripped(file, file_len, out, 16777216).count == file_len);
        must(reference_press(file, file_len, out, 16777216).count == file_len);
    }
    free(file);
    free(out);
}

/* Over generated modules of either kind: tables and structures agree, and there and back again is there at once. */
static void generated_kinds(void)
{
    static uint8_t there[1 << 20], back[1 << 20], at_once[1 << 20];
    const writer writers[] = {reference_to_normal, reference_to_stripped};
    struct chance chance = {4003};
    struct module module = {0};
    for (unsigned round = 0; round < 300; round++) {
        struct shape shape = kind_by_chance(&chance, false, round % 2);
        module_build(&module, &shape, &chance);
        tables_and_structures_agree(&module);
        for (size_t i = 0; i < COUNT(writers); i++) {
            size_t length = writers[1 - i](module.bytes, module.length, there, sizeof there).count;
            struct reference_count one = writers[i](there, length, back, sizeof back);
            struct reference_count other = writers[i](module.bytes, module.length, at_once, sizeof at_once);
            must(reference_check(there, length).end == length && one.refusal.number == 0 && one.count > 0);
            must(one.count == other.count && memcmp(back, at_once, one.count) == 0);
            must(reference_press(back, one.count, there, sizeof there).count == one.count && memcmp(back, there, one.count) == 0);
        }
    }
    module_free(&module);
}

/* Periods */

static bool is_period(uint64_t note, int64_t finetune, uint32_t dividend, uint32_t divisor)
{
    struct reference_period period = reference_period(note, finetune);
    return period.refusal.number == 0 && period.dividend == dividend && period.divisor == divisor;
}

static bool has_no_period(uint64_t note, int64_t finetune)
{
    struct reference_period period = reference_period(note, finetune);
    return period.refusal.number == 16 && period.refusal.place == 0 && period.dividend == 0 && period.divisor == 0;
}

static void periods_by_hand(void)
{
    must(is_period(0, 0, 29024, 2));        /* 2 x 16 x 907 */
    must(is_period(0, 1, 29010, 2));        /* 2 x (15 x 907 + 900) */
    must(is_period(0, 16, 28800, 2));       /* the next entry, 900 */
    must(is_period(1, -1, 27404, 2));       /* q = 7, f = 15: 2 x (862 + 15 x 856) */
    must(is_period(1, -128, 29024, 2));     /* q = 0 */
    must(is_period(11, 127, 14519, 2));     /* q = 95, f = 15: 2 x 457 + 15 x 907 */
    must(is_period(12, -1, 14519, 2));      /* the same q */
    must(is_period(12, 0, 29024, 4));       /* q = 96 */
    must(is_period(118, 127, 15368, 1024)); /* q = 951, p = 87, octave 9: 2 x (484 + 15 x 480) */
    must(has_no_period(0, -1) && has_no_period(0, -16) && has_no_period(0, -128));
    must(has_no_period(119, 0) && has_no_period(UINT64_MAX, 0) && has_no_period(5, -129) && has_no_period(5, 128));
}

/* They fall from finetune to finetune and from note to note: a period is larger than the one after it. */
static void periods_fall(void)
{
    struct reference_period before = reference_period(0, 0), next;
    for (uint64_t note = 0; note <= 118; note++)
        for (int64_t finetune = note == 0 ? 1 : 0; finetune < 128; finetune++, before = next) {
            next = reference_period(note, finetune);
            must((uint64_t)before.dividend * next.divisor > (uint64_t)next.dividend * before.divisor);
            must(note == 118 || is_period(note + 1, finetune - 128, next.dividend, next.divisor));
        }
}

int main(void)
{
    deltas_hold_the_papers_pieces();
    deltas_refuse_in_order();
    deltas_come_back();
    deltas_have_a_limit();
    no_data_keep_their_rows();
    silence_packs_to_nothing();
    every_note_is_kept();
    fifteen_starts_at_43_channels();
    tables_of_the_hand_module();
    flat_tables_of_the_hand_module();
    adpcm_holds_the_descriptions_example();
    adpcm_refuses_in_order();
    adpcm_in_the_hand_module();
    loops_in_the_hand_module();
    odd_loops_in_the_hand_module();
    a_short_table_leaves_all_alone();
    press_of_the_hand_module();
    structures_of_the_hand_module();
    stretches();
    generated_modules();
    stripped_headers();
    stripped_instruments();
    stripped_samples();
    stripped_structures();
    stripped_tables();
    stripped_presses();
    stripped_sizes();
    conversions();
    converted_files_have_a_limit();
    generated_kinds();
    periods_by_hand();
    periods_fall();
    printf("reference_test: %lu statements hold\n", held);
    return 0;
}
