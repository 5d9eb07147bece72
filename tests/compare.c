/* compare.c: the library's calls against the reference, over many thousand modules, patterns, cells and samples, whole and damaged.

   Each answer and each byte of lent memory is compared (lent.c). Everything is made from fixed seeds: a run does the same on
   every machine. Prints a line for each group and a total; on the first difference it says what differs, prints the input,
   and exits with 1.

   compare [--dump FILE]      FILE gets the whole input of a call that differs (compare-failed.bin) */

#include "../include/fiddlemarsh.h"
#include "lent.h"
#include "modules.h"
#include "reference.h"

#include <stdbool.h>
#include <stdio.h>
#include <stdlib.h>
#include <string.h>

#define COUNT(array) (sizeof(array) / sizeof((array)[0]))
#define CELLS_MOST FIDDLEMARSH_CELLS_MOST
#define FILE_MOST FIDDLEMARSH_FILE_MOST
#define DATA_MOST FIDDLEMARSH_DATA_MOST
#define PACKED_CELL_MOST 6 /* bytes: a full cell whose note is 128 or more */
#define DELTA_MOST FIDDLEMARSH_FILE_MOST
#define ADPCM_MOST (2 * FIDDLEMARSH_FILE_MOST)
#define SMALL_RESULT 96 /* cells or packed bytes up to here are tried with every room */

/* Calls */

enum { TABLES = 4 };

static const size_t strides[TABLES] = {3, 3, 7, 2}; /* numbers to a row */

static uint64_t tables(const uint8_t *file, size_t length, const size_t rooms[TABLES])
{
    return lent_compare(&(struct call){
        .name = CALL_TABLES, .input = file, .input_len = length, .room = rooms[0], .rooms = {rooms[1], rooms[2], rooms[3]}});
}

/* The numbers that a file's tables need; of a refused file none. */
static void table_needs(const uint8_t *file, size_t length, size_t needs[TABLES])
{
    struct reference_checked checked = reference_check(file, length);
    const size_t rows[TABLES] = {checked.patterns, checked.instruments, checked.samples, checked.samples};
    for (unsigned i = 0; i < TABLES; i++)
        needs[i] = strides[i] * rows[i];
}

/* From file to file with other rooms: one number too few in each table in turn, a last row that is not whole, more rows, and
   twice just what is needed. */
static void tables_in_turn(const uint8_t *file, size_t length)
{
    enum { NOT_WHOLE = TABLES, MORE, TURNS = 8 };
    static unsigned turns;
    unsigned turn = turns++ % TURNS;
    size_t rooms[TABLES];
    table_needs(file, length, rooms);
    for (unsigned i = 0; i < TABLES; i++)
        rooms[i] += turn == NOT_WHOLE ? 1 : turn == MORE ? 2 * strides[i] + 1 : 0;
    if (turn < TABLES && rooms[turn] > 0)
        rooms[turn]--;
    tables(file, length, rooms);
}

/* Every check is made with tables, too. */
static uint64_t check(const uint8_t *file, size_t length)
{
    tables_in_turn(file, length);
    return lent_compare(&(struct call){.name = CALL_CHECK, .input = file, .input_len = length});
}

static uint64_t press(const uint8_t *file, size_t length, size_t room)
{
    return lent_compare(&(struct call){.name = CALL_PRESS, .input = file, .input_len = length, .room = room});
}

static uint64_t convert(enum call_name to, const uint8_t *file, size_t length, size_t room)
{
    return lent_compare(&(struct call){.name = to, .input = file, .input_len = length, .room = room});
}

static uint64_t unpack(size_t rows, size_t channels, const uint8_t *data, size_t length, size_t room)
{
    return lent_compare(&(struct call){
        .name = CALL_UNPACK, .rows = rows, .channels = channels, .input = data, .input_len = length, .room = room});
}

static uint64_t pack(size_t rows, size_t channels, const uint8_t *cells, size_t length, size_t room)
{
    return lent_compare(&(struct call){
        .name = CALL_PACK, .rows = rows, .channels = channels, .input = cells, .input_len = length, .room = room});
}

static uint64_t decode(size_t width, const uint8_t *bytes, size_t length, size_t room)
{
    return lent_compare(&(struct call){.name = CALL_DECODE, .input = bytes, .input_len = length, .room = room, .width = width});
}

static uint64_t code(size_t width, const int16_t *values, size_t length, size_t room)
{
    return lent_compare(&(struct call){.name = CALL_CODE, .input = values, .input_len = length, .room = room, .width = width});
}

static uint64_t adpcm(size_t length, const uint8_t *bytes, size_t count, size_t room)
{
    return lent_compare(&(struct call){.name = CALL_ADPCM, .input = bytes, .input_len = count, .room = room, .length = length});
}

static uint64_t period(uint64_t note, int64_t finetune)
{
    return lent_compare(&(struct call){.name = CALL_PERIOD, .note = note, .finetune = finetune});
}

/* Room that is always enough: pressing and converting to a stripped module make no file longer. */
static size_t room_for(enum call_name name, size_t length)
{
    return name == CALL_TO_NORMAL ? fiddlemarsh_normal_room(length) : length;
}

/* A press or a conversion with that room. */
static uint64_t write_whole(enum call_name name, const uint8_t *file, size_t length)
{
    struct call call = {.name = name, .input = file, .input_len = length, .room = room_for(name, length)};
    uint64_t answer = lent_compare(&call);
    if (fiddlemarsh_refusal(answer) == FIDDLEMARSH_ROOM)
        lent_unexpected(&call, "room that is always enough is too little", answer);
    return answer;
}

/* With room that does, that just does, and that just doesn't. */
static void try_written(enum call_name name, const uint8_t *file, size_t length)
{
    uint64_t answer = write_whole(name, file, length);
    if (fiddlemarsh_refused(answer))
        return;
    size_t written = fiddlemarsh_length(answer);
    lent_compare(&(struct call){.name = name, .input = file, .input_len = length, .room = written});
    lent_compare(&(struct call){.name = name, .input = file, .input_len = length, .room = written - 1});
}

/* From file to file in turn to a normal module and to a stripped one: with room that does, that just does, and that just doesn't. */
enum { TURNS = 11 }; /* six of them convert: it has no factor in common with the loops that the files come from */

static void convert_in_turn(const uint8_t *file, size_t length)
{
    static unsigned turns;
    unsigned turn = turns++ % TURNS;
    if (turn >= 6)
        return;
    enum call_name to = turn % 2 == 0 ? CALL_TO_NORMAL : CALL_TO_STRIPPED;
    uint64_t answer = write_whole(to, file, length);
    if (!fiddlemarsh_refused(answer) && turn >= 2)
        convert(to, file, length, fiddlemarsh_length(answer) - turn / 4);
}

static void try_file(const uint8_t *file, size_t length)
{
    check(file, length);
    try_written(CALL_PRESS, file, length);
    convert_in_turn(file, length);
}

static void try_file_rooms(const uint8_t *file, size_t length, size_t step)
{
    uint64_t answer = press(file, length, length);
    size_t most = fiddlemarsh_refused(answer) ? length : fiddlemarsh_length(answer) + 1;
    for (size_t room = 0; room <= most; room += step)
        press(file, length, room);
}

static void try_unpack(size_t rows, size_t channels, const uint8_t *data, size_t length)
{
    size_t needed = rows * channels * 5;
    if (needed <= SMALL_RESULT) {
        for (size_t room = 0; room <= needed + 1; room++)
            unpack(rows, channels, data, length, room);
        return;
    }
    unpack(rows, channels, data, length, 0);
    unpack(rows, channels, data, length, needed - 1);
    unpack(rows, channels, data, length, needed);
    unpack(rows, channels, data, length, needed + 1);
}

static void try_pack(size_t rows, size_t channels, const uint8_t *cells)
{
    size_t length = rows * channels * 5;
    uint64_t answer = pack(rows, channels, cells, length, rows * channels * PACKED_CELL_MOST + 1);
    pack(rows, channels, cells, length, 0);
    if (fiddlemarsh_refused(answer))
        return;
    size_t packed = fiddlemarsh_packed_length(answer);
    size_t least = packed <= SMALL_RESULT ? 0 : packed - 1;
    for (size_t room = least; room <= packed + 1; room++)
        pack(rows, channels, cells, length, room);
}

/* The paper's bench pieces, with the paper's own answers */

struct piece {
    enum call_name name;
    const char *input; /* hex */
    uint64_t answer;
    const char *output; /* hex */
};

#define REFUSED(number, place) ((uint64_t)(number) << 32 | (place))
#define PACKED(length, rows) ((uint64_t)(length) + 65536 * (rows))

/* One row of one channel each. */
static const struct piece pieces[] = {
    {CALL_UNPACK, "830101", 1, "0101000000"},
    {CALL_PACK, "0101000000", PACKED(3, 1), "830101"},
    {CALL_PACK, "010100051F", PACKED(5, 1), "9B0101051F"},
    {CALL_UNPACK, "80", 1, "0000000000"},
    {CALL_UNPACK, "E0", 1, "0000000000"},
    {CALL_UNPACK, "", 1, "0000000000"},
    {CALL_PACK, "0000000000", PACKED(0, 1), ""},
    {CALL_UNPACK, "3102400F06", 1, "3102400F06"},
    {CALL_PACK, "3102400F06", PACKED(5, 1), "3102400F06"},
    {CALL_UNPACK, "0001400A0F", 1, "0001400A0F"},
    {CALL_PACK, "0001400A0F", PACKED(5, 1), "9E01400A0F"},
    {CALL_UNPACK, "8161", 1, "6100000000"},
    {CALL_UNPACK, "8162", 1, "6200000000"},
    {CALL_UNPACK, "6200000000", 1, "6200000000"},
    {CALL_UNPACK, "8301", REFUSED(7, 0), ""},
    {CALL_UNPACK, "8080", REFUSED(8, 1), ""},
};

static size_t from_hex(const char *text, uint8_t *bytes)
{
    size_t count = 0;
    for (; text[0] != 0; text += 2)
        bytes[count++] = (uint8_t)strtoul((const char[]){text[0], text[1], 0}, NULL, 16);
    return count;
}

static void try_piece(const struct piece *piece)
{
    uint8_t input[16], want[16], got[16];
    size_t length = from_hex(piece->input, input);
    size_t written = from_hex(piece->output, want);
    struct call call = {.name = piece->name, .rows = 1, .channels = 1, .input = input, .input_len = length, .room = sizeof got};
    uint64_t answer = lent_compare(&call);
    if (answer != piece->answer)
        lent_unexpected(&call, "not the answer of the paper's bench piece", answer);
    if (piece->name == CALL_UNPACK)
        fiddlemarsh_unpack(1, 1, input, length, got, sizeof got);
    else
        fiddlemarsh_pack(1, 1, input, length, got, sizeof got);
    if (memcmp(got, want, written) != 0)
        lent_unexpected(&call, "not the bytes of the paper's bench piece", answer);
}

struct delta_piece {
    size_t width;
    const char *bytes; /* hex */
    size_t count;
    int16_t values[6];
};

static const struct delta_piece delta_pieces[] = {
    {8, "0001FF0201FE", 6, {0, 1, 0, 2, 3, 1}},
    {8, "7F01", 2, {127, -128}},
    {16, "FF7F0100", 2, {32767, -32768}},
};

static void try_delta_piece(const struct delta_piece *piece)
{
    uint8_t bytes[16], coded[16];
    int16_t decoded[16];
    size_t length = from_hex(piece->bytes, bytes);
    struct call call = {.name = CALL_DECODE, .input = bytes, .input_len = length, .room = piece->count, .width = piece->width};
    uint64_t values = lent_compare(&call);
    fiddlemarsh_decode(piece->width, bytes, length, decoded, piece->count);
    if (values != piece->count || memcmp(decoded, piece->values, sizeof decoded[0] * piece->count) != 0)
        lent_unexpected(&call, "not the values of the paper's bench piece", values);
    call = (struct call){.name = CALL_CODE, .input = decoded, .input_len = piece->count, .room = length, .width = piece->width};
    uint64_t back = lent_compare(&call);
    fiddlemarsh_code(piece->width, decoded, piece->count, coded, length);
    if (back != length || memcmp(coded, bytes, length) != 0)
        lent_unexpected(&call, "not the bytes of the paper's bench piece", back);
}

/* Document 001's ADPCM example: its bytes, and the values of the 14 indexes that it has. At an odd length the last one stays. */
static void try_adpcm_example(size_t length)
{
    static const int16_t want[] = {0, 0, -1, -1, -1, -1, -2, -1, 0, 4, 6, 6, 7, 6};
    uint8_t bytes[32];
    int16_t values[COUNT(want)] = {0};
    size_t count = from_hex("0001020408102040FFFEFCF8F0E0D0C00008001831" "0281", bytes);
    struct call call = {.name = CALL_ADPCM, .input = bytes, .input_len = count, .room = length, .length = length};
    uint64_t answer = lent_compare(&call);
    fiddlemarsh_adpcm(length, bytes, count, values, length);
    if (answer != length || memcmp(values, want, sizeof want[0] * length) != 0)
        lent_unexpected(&call, "not the values of the description's example", answer);
}

/* 336 header bytes (song length 1, 1 channel, 1 pattern, no instruments), then one pattern header. */
static void bench_file(uint8_t file[345], uint32_t header_size, uint32_t rows)
{
    memset(file, 0, 345);
    file[37] = 0x1A;
    field_put(file, (struct field){58, 2}, 0x0104);
    field_put(file, (struct field){60, 4}, header_size);
    file[64] = file[68] = file[70] = 1;
    file[336] = 9;
    field_put(file, (struct field){341, 2}, rows);
}

static void try_bench_file(uint32_t header_size, uint32_t rows, uint64_t want)
{
    uint8_t file[345];
    bench_file(file, header_size, rows);
    uint64_t answer = check(file, sizeof file);
    if (answer != want)
        lent_unexpected(&(struct call){.name = CALL_CHECK, .input = file, .input_len = sizeof file},
                        "not the answer of the paper's bench file", answer);
    try_file(file, sizeof file);
}

static void must(bool holds, const char *what)
{
    if (holds)
        return;
    fprintf(stderr, "the reference itself is wrong: %s\n", what);
    exit(1);
}

static void group_pieces(void)
{
    for (size_t i = 0; i < COUNT(pieces); i++)
        try_piece(&pieces[i]);
    for (size_t i = 0; i < COUNT(delta_pieces); i++)
        try_delta_piece(&delta_pieces[i]);
    try_adpcm_example(14);
    try_adpcm_example(13);
    try_bench_file(276, 64, 345);
    try_bench_file(275, 64, REFUSED(4, 0));
    try_bench_file(276, 0, REFUSED(6, 336));
    try_bench_file(276, 257, REFUSED(6, 336));
    try_bench_file(276, 1, 345);
    try_bench_file(276, 32, 345);
    try_bench_file(276, 256, 345);
}

/* Unpacking */

static void group_one_stored_cell(void)
{
    uint8_t data[8];
    for (unsigned first = 0; first < 256; first++) {
        data[0] = (uint8_t)first;
        unpack(1, 1, data, 1, 5);
        for (unsigned second = 0; second < 256; second++) {
            data[1] = (uint8_t)second;
            unpack(1, 1, data, 2, 5);
            unpack(1, 2, data, 2, 10);
        }
    }
    const uint8_t fills[] = {0, 1, 97, 98, 127, 128, 255};
    for (size_t fill = 0; fill < COUNT(fills); fill++)
        for (unsigned lead = 0; lead < 256; lead++)
            for (size_t length = 0; length <= 7; length++) {
                memset(data, fills[fill], sizeof data);
                data[0] = (uint8_t)lead;
                data[2] = 0;
                try_unpack(1, 1, data, length);
            }
}

#define TWO_TO(power) ((size_t)1 << (power))

static const size_t odd_rows[] = {0, 1, 2, 63, 64, 65, 255, 256, 257, 65537, TWO_TO(32), TWO_TO(32) + 1, TWO_TO(63), SIZE_MAX};
static const size_t odd_channels[] = {0, 1, 2, 42, 43, 63, 64, 65, 257, 65536, TWO_TO(32), TWO_TO(32) + 1, SIZE_MAX};

static void unpack_arguments(size_t rows, size_t channels, const uint8_t *data)
{
    const size_t lengths[] = {0, 1, rows * channels - 1, rows * channels, rows * channels + 1, 65535, 65536, 65537};
    const size_t rooms[] = {0, 64 * channels * 5, rows * channels * 5 - 1, rows * channels * 5, CELLS_MOST};
    for (size_t i = 0; i < COUNT(lengths); i++)
        for (size_t j = 0; j < COUNT(rooms); j++)
            if (lengths[i] <= 65537 && rooms[j] <= CELLS_MOST)
                unpack(rows, channels, data, lengths[i], rooms[j]);
}

static void group_unpack_arguments(void)
{
    static uint8_t data[65537];
    memset(data, 128, sizeof data);
    for (size_t i = 0; i < COUNT(odd_rows); i++)
        for (size_t j = 0; j < COUNT(odd_channels); j++)
            unpack_arguments(odd_rows[i], odd_channels[j], data);
}

/* The data of one pattern of every form. */
static void pattern_by_chance(struct module *data, size_t rows, size_t channels, struct chance *chance)
{
    data->length = 0;
    int cells = (int)chance_below(chance, 8);
    module_put_cells(data, rows * channels, cells > CELLS_SPARSE ? CELLS_EVERY_FORM : cells, chance);
}

static void group_unpack_shapes(void)
{
    static const size_t rows[] = {1, 2, 3, 17, 63, 64, 65, 255, 256}, channels[] = {1, 2, 3, 5, 32, 42, 43, 63, 64};
    struct chance chance = {1001};
    struct module data = {0};
    for (unsigned round = 0; round < 3000; round++) {
        size_t r = rows[chance_below(&chance, COUNT(rows))];
        size_t c = channels[chance_below(&chance, round % 4 == 0 ? COUNT(channels) : 4)];
        if (round % 3 == 0)
            r = chance_between(&chance, 1, 4);
        pattern_by_chance(&data, r, c, &chance);
        try_unpack(r, c, data.bytes, data.length);
    }
    module_free(&data);
}

static void damage_data(const struct module *data, size_t rows, size_t channels)
{
    uint8_t bytes[512];
    const uint8_t values[] = {0, 1, 97, 98, 127, 128, 129, 159, 160, 191, 224, 255};
    size_t needed = rows * channels * 5;
    for (size_t length = 0; length <= data->length; length++)
        unpack(rows, channels, data->bytes, length, needed);
    for (size_t at = 0; at < data->length; at++)
        for (size_t i = 0; i < COUNT(values); i++) {
            memcpy(bytes, data->bytes, data->length);
            bytes[at] = values[i];
            unpack(rows, channels, bytes, data->length, needed);
        }
    for (size_t extra = 1; extra <= 6; extra++) {
        memcpy(bytes, data->bytes, data->length);
        memset(bytes + data->length, extra % 2 ? 128 : 255, extra);
        unpack(rows, channels, bytes, data->length + extra, needed);
        unpack(rows, channels, bytes, data->length + extra, 0);
    }
}

static void group_unpack_damaged(void)
{
    struct chance chance = {1002};
    struct module data = {0};
    for (unsigned round = 0; round < 120; round++) {
        size_t rows = chance_between(&chance, 1, 6), channels = chance_between(&chance, 1, 4);
        pattern_by_chance(&data, rows, channels, &chance);
        damage_data(&data, rows, channels);
    }
    module_free(&data);
}

/* Packing */

static void group_one_cell_packed(void)
{
    const uint8_t fills[] = {1, 97, 128, 255};
    for (size_t fill = 0; fill < COUNT(fills); fill++)
        for (unsigned note = 0; note < 256; note++)
            for (unsigned mask = 0; mask < 16; mask++) {
                uint8_t cell[5] = {(uint8_t)note};
                for (unsigned field = 0; field < 4; field++)
                    cell[field + 1] = mask >> field & 1 ? fills[fill] : 0;
                for (size_t room = 0; room <= PACKED_CELL_MOST + 1; room++)
                    pack(1, 1, cell, 5, room);
            }
}

static void pack_arguments(size_t rows, size_t channels, const uint8_t *cells)
{
    const size_t exact = rows * channels * 5; /* wraps where the arguments are out of range */
    const size_t lengths[] = {0, 1, 5, exact - 5, exact - 1, exact, exact + 1, exact + 5};
    for (size_t i = 0; i < COUNT(lengths); i++)
        if (lengths[i] <= CELLS_MOST + 5) {
            pack(rows, channels, cells, lengths[i], 65535);
            pack(rows, channels, cells, lengths[i], 0);
        }
}

static void group_pack_arguments(void)
{
    static uint8_t cells[CELLS_MOST + 5];
    for (size_t i = 0; i < COUNT(odd_rows); i++)
        for (size_t j = 0; j < COUNT(odd_channels); j++)
            pack_arguments(odd_rows[i], odd_channels[j], cells);
    pack_arguments((size_t)0x3333333333333334, 1, cells);
    pack_arguments(1, (size_t)0x3333333333333334, cells);
    pack_arguments(TWO_TO(33), TWO_TO(31), cells);
}

static void group_pack_shapes(void)
{
    static uint8_t cells[CELLS_MOST];
    static const size_t rows[] = {1, 2, 3, 17, 63, 64, 65, 255, 256}, channels[] = {1, 2, 3, 5, 32, 42, 43, 63, 64};
    static const uint32_t percents[] = {0, 1, 10, 20, 50, 80, 100};
    struct chance chance = {2001};
    for (unsigned round = 0; round < 2500; round++) {
        size_t r = rows[chance_below(&chance, COUNT(rows))];
        size_t c = channels[chance_below(&chance, round % 5 == 0 ? COUNT(channels) : 4)];
        if (round % 3 == 0)
            r = chance_between(&chance, 1, 4);
        cells_by_chance(cells, r * c, percents[chance_below(&chance, COUNT(percents))], &chance);
        try_pack(r, c, cells);
    }
}

/* Two notes at every two places, among cells that are half full, and among full ones. */
static void group_pack_notes(void)
{
    uint8_t cells[12 * 5];
    struct chance chance = {2002};
    const uint8_t notes[] = {0, 97, 98, 127, 128, 255};
    for (size_t first = 0; first < 12; first++)
        for (size_t second = first; second < 12; second++)
            for (size_t i = 0; i < 2 * COUNT(notes); i++) {
                cells_by_chance(cells, 12, i < COUNT(notes) ? 50 : 100, &chance);
                cells[5 * second] = notes[i % COUNT(notes)];
                cells[5 * first] = notes[(i + 1) % COUNT(notes)];
                try_pack(4, 3, cells);
            }
}

/* Every note with every choice of other fields */

enum { EVERY_NOTE = 256 * 16, EVERY_FORM = 5 };

/* The cell of a number: its note, and other fields that are not 0 where the number's high bits have a one. */
static void cell_of_number(unsigned number, uint8_t cell[5])
{
    cell[0] = (uint8_t)number;
    for (unsigned field = 1; field < 5; field++)
        cell[field] = number >> (7 + field) & 1 ? (uint8_t)(field == 3 ? 255 : number + field) | 1 : 0;
}

/* Stores a cell and returns its length: plain, if its note can lead; marked, with the fields it needs or all, bits 5 and 6 as well. */
static size_t cell_in_form(const uint8_t cell[5], unsigned form, uint8_t *stored)
{
    static const uint8_t leads[EVERY_FORM] = {0, 0x80, 0x9F, 0xE0, 0xFF};
    if (form == 0 && cell[0] < 128) {
        memcpy(stored, cell, 5);
        return 5;
    }
    size_t length = 1;
    stored[0] = leads[form] | 0x80;
    for (unsigned field = 0; field < 5; field++) {
        if (cell[field] != 0)
            stored[0] |= (uint8_t)(1 << field);
        if (stored[0] >> field & 1)
            stored[length++] = cell[field];
    }
    return length;
}

/* A pattern's data: unpacked to the cells that they are of, and pressed in a module. */
static void try_stored(size_t rows, size_t channels, const uint8_t *cells, const uint8_t *stored, size_t length)
{
    static uint8_t file[345 + DATA_MOST], unpacked[CELLS_MOST];
    struct call call = {.name = CALL_UNPACK, .rows = rows, .channels = channels, .input = stored, .input_len = length,
                        .room = sizeof unpacked};
    uint64_t answer = fiddlemarsh_unpack(rows, channels, stored, length, unpacked, sizeof unpacked);
    if (answer != rows || memcmp(unpacked, cells, rows * channels * 5) != 0)
        lent_unexpected(&call, "not the cells that were stored", answer);
    bench_file(file, 276, (uint32_t)rows);
    file[68] = (uint8_t)channels;
    field_put(file, (struct field){343, 2}, (uint32_t)length);
    memcpy(file + 345, stored, length);
    try_unpack(rows, channels, stored, length);
    try_file(file, 345 + length);
}

static void group_every_note(void)
{
    uint8_t cell[5], stored[6];
    for (unsigned number = 0; number < EVERY_NOTE; number++)
        for (unsigned form = 0; form < EVERY_FORM; form++) {
            cell_of_number(number, cell);
            try_stored(1, 1, cell, stored, cell_in_form(cell, form, stored));
        }
}

/* All of them in one pattern, in several orders, each in one form and in all forms in turn. */
static void group_notes_together(void)
{
    static uint8_t cells[EVERY_NOTE * 5], stored[EVERY_NOTE * 6];
    const unsigned steps[] = {1, 17, 255, 257, 1031}; /* odd: every number is met */
    for (size_t i = 0; i < COUNT(steps); i++)
        for (unsigned form = 0; form <= EVERY_FORM; form++) {
            size_t length = 0;
            for (unsigned cell = 0; cell < EVERY_NOTE; cell++) {
                cell_of_number(cell * steps[i] % EVERY_NOTE, cells + 5 * cell);
                length += cell_in_form(cells + 5 * cell, form < EVERY_FORM ? form : cell % EVERY_FORM, stored + length);
            }
            try_stored(64, 64, cells, stored, length);
            try_stored(256, 16, cells, stored, length);
            try_pack(64, 64, cells);
        }
}

static void group_pack_empty(void)
{
    static uint8_t cells[256 * 64 * 5];
    static const size_t rows[] = {1, 31, 32, 63, 64, 65, 128, 256};
    for (size_t i = 0; i < COUNT(rows); i++)
        for (size_t channels = 1; channels <= 64; channels += rows[i] == 32 ? 1 : 7)
            try_pack(rows[i], channels, cells);
    for (size_t byte = 0; byte < 64 * 2 * 5; byte++) { /* 64 rows, and 32, that are empty but for one byte */
        cells[byte] = 1;
        try_pack(64, 2, cells);
        try_pack(32, 4, cells);
        cells[byte] = 0;
    }
}

/* Cells of a given packed length, with the longest in front: those of six bytes, or of five. */
static void cells_of_length(uint8_t *cells, size_t count, size_t length, size_t longest)
{
    for (size_t left = count; left > 0; left--, cells += 5) {
        size_t spend = length - (left - 1) < longest ? length - (left - 1) : longest;
        memset(cells, 0, 5);
        memset(cells + 1, 7, spend < 5 ? spend - 1 : 4);
        if (spend == 5)
            cells[0] = (uint8_t)(left % 2); /* five bytes plain, or marked */
        if (spend == 6)
            cells[0] = (uint8_t)(128 + left % 128);
        length -= spend;
    }
}

static void pack_longest(size_t channels, size_t length, size_t longest)
{
    static uint8_t cells[CELLS_MOST];
    size_t count = 256 * channels, most = longest * count;
    cells_of_length(cells, count, length < most ? length : most, longest);
    try_pack(256, channels, cells);
}

static void group_pack_longest(void)
{
    const size_t lengths[] = {64511, 64512, 65279, 65280, 65534, 65535, 65536, 65537, 66048, 66560, 81920, 98304};
    for (size_t channels = 41; channels <= 64; channels++)
        for (size_t i = 0; i < COUNT(lengths); i++)
            for (size_t longest = 5; longest <= PACKED_CELL_MOST; longest++)
                pack_longest(channels, lengths[i], longest);
}

/* 256 rows of cells that are full, with a note of 128 or more. */
static void try_full(size_t channels, uint64_t want)
{
    static uint8_t cells[CELLS_MOST];
    struct chance chance = {2003};
    cells_by_chance(cells, 256 * channels, 100, &chance);
    for (size_t cell = 0; cell < 256 * channels; cell++)
        cells[5 * cell] |= 128;
    struct call call = {.name = CALL_PACK, .rows = 256, .channels = channels, .input = cells, .input_len = 256 * channels * 5,
                        .room = DATA_MOST};
    uint64_t answer = lent_compare(&call);
    if (answer != want)
        lent_unexpected(&call, "not the paper's answer to full cells of high notes", answer);
    try_pack(256, channels, cells);
}

/* Number 15 can start at 43 channels, where such cells take 66,048 bytes, and never comes at 42, where they take 64,512. */
static void group_pack_full(void)
{
    for (size_t channels = 1; channels <= 42; channels += channels == 1 ? 40 : 1)
        try_full(channels, PACKED(6 * 256 * channels, 256));
    for (size_t channels = 43; channels <= 64; channels += 7)
        try_full(channels, REFUSED(15, 0));
}

/* Modules */

enum kind { NORMAL, STRIPPED };

/* A few hundred bytes with every structure: patterns of both kinds, instruments with and without samples. */
static struct shape small_shape(enum kind kind, struct chance *chance)
{
    return (struct shape){.stripped = kind == STRIPPED,
                          .zeros_percent = kind == STRIPPED ? 50 : 0,
                          .song_length = chance_between(chance, 1, 3),
                          .restart = chance_between(chance, 0, 4),
                          .channels = chance_between(chance, 1, 2),
                          .patterns = chance_between(chance, 1, 2),
                          .instruments = chance_between(chance, 1, 3),
                          .header_extra_most = 2,
                          .pattern_extra_most = 2,
                          .rows_most = 3,
                          .cells = chance_percent(chance, 80) ? CELLS_EVERY_FORM : -1,
                          .samples_most = 2,
                          .instrument_extra_most = 3,
                          .sample_header_extra_most = 2,
                          .sample_length_most = 8,
                          .adpcm_percent = 30,
                          .trailing_most = 3};
}

static struct module small_module(enum kind kind, uint64_t seed)
{
    struct chance chance = {seed};
    struct shape shape = small_shape(kind, &chance);
    struct module module = {0};
    module_build(&module, &shape, &chance);
    return module;
}

static void must_accept(const struct module *module)
{
    struct reference_checked checked = reference_check(module->bytes, module->length);
    must(checked.refusal.number == 0, "a module that was built whole is refused");
}

/* What a press or a conversion of a whole module writes, for the caller to free. */
static struct module written_by(enum call_name name, const struct module *module)
{
    size_t room = room_for(name, module->length);
    struct module written = {.bytes = malloc(room)};
    must(written.bytes != NULL, "out of memory");
    uint64_t answer = name == CALL_PRESS       ? fiddlemarsh_press(module->bytes, module->length, written.bytes, room)
                      : name == CALL_TO_NORMAL ? fiddlemarsh_to_normal(module->bytes, module->length, written.bytes, room)
                                               : fiddlemarsh_to_stripped(module->bytes, module->length, written.bytes, room);
    written.length = fiddlemarsh_length(answer);
    if (fiddlemarsh_refused(answer))
        lent_unexpected(&(struct call){.name = name, .input = module->bytes, .input_len = module->length, .room = room},
                        "a whole module is refused", answer);
    return written;
}

/* Pressing what was written changes nothing, and its check ends where it ends. */
static void try_again(const struct module *written)
{
    size_t length = written->length;
    struct call call = {.name = CALL_PRESS, .input = written->bytes, .input_len = length, .room = length};
    struct module again = written_by(CALL_PRESS, written);
    if (check(written->bytes, length) != length)
        lent_unexpected(&call, "the check of a file that was written does not end at its end", length);
    if (lent_compare(&call) != length || memcmp(again.bytes, written->bytes, length) != 0)
        lent_unexpected(&call, "pressing what was written gives another file", length);
    module_free(&again);
}

static void try_written_again(enum call_name name, const struct module *module)
{
    struct module written = written_by(name, module);
    try_again(&written);
    module_free(&written);
}

static void try_whole(const struct module *module)
{
    must_accept(module);
    try_file(module->bytes, module->length);
    press(module->bytes, module->length, 0);
    press(module->bytes, module->length, module->length + 100);
    try_written_again(CALL_PRESS, module);
}

static void try_shapes(uint64_t seed, unsigned rounds, bool large)
{
    struct chance chance = {seed};
    struct module module = {0};
    for (; rounds > 0; rounds--) {
        struct shape shape = shape_by_chance(&chance, large);
        module_build(&module, &shape, &chance);
        try_whole(&module);
    }
    module_free(&module);
}

static void group_module_shapes(void)
{
    try_shapes(3001, 3000, false);
}

static void group_large_shapes(void)
{
    try_shapes(3002, 12, true);
}

static void try_rooms(enum kind kind, uint64_t first, uint64_t behind)
{
    for (uint64_t seed = first; seed < behind; seed++) {
        struct module module = small_module(kind, seed);
        try_file_rooms(module.bytes, module.length, 1);
        module_free(&module);
    }
}

static void group_every_room(void)
{
    try_rooms(NORMAL, 3101, 3125);
}

static void try_cuts(enum kind kind, uint64_t first, uint64_t behind)
{
    for (uint64_t seed = first; seed < behind; seed++) {
        struct module module = small_module(kind, seed);
        for (size_t length = 0; length <= module.length; length++) {
            check(module.bytes, length);
            press(module.bytes, length, module.length);
            press(module.bytes, length, length);
            convert_in_turn(module.bytes, length);
        }
        module.bytes[37] = 0x1A - module.bytes[37]; /* that the first 80 bytes are there (1) comes before 3 */
        for (size_t length = 0; length <= 100; length++)
            check(module.bytes, length);
        module_free(&module);
    }
}

static void group_every_cut(void)
{
    try_cuts(NORMAL, 3201, 3213);
}

static void try_bytes(const struct shape *shape, uint64_t seed)
{
    struct chance chance = {seed};
    struct module module = {0};
    module_build(&module, shape, &chance);
    for (size_t at = 0; at < module.length; at++) {
        uint8_t kept = module.bytes[at];
        for (unsigned value = 0; value < 256; value += shape->stripped ? 5 : 1) {
            module.bytes[at] = (uint8_t)value;
            check(module.bytes, module.length);
            press(module.bytes, module.length, module.length);
            if (shape->stripped)
                convert_in_turn(module.bytes, module.length);
        }
        module.bytes[at] = kept;
    }
    module_free(&module);
}

static void group_every_byte(void)
{
    try_bytes(&(struct shape){.song_length = 2, .restart = 1, .channels = 2, .patterns = 1, .instruments = 1, .rows = 2,
                              .cells = CELLS_EVERY_FORM, .samples_least = 1, .samples_most = 1, .sample_length_least = 4,
                              .sample_length_most = 6}, 3301);
}

/* Numbers at which a rule may turn: the paper's constants, what a field holds, what is left of the file, where 32 bits end. */
static size_t turning_numbers(const struct module *module, struct field field, uint32_t *numbers)
{
    static const uint32_t centers[] = {0, 4, 9, 16, 22, 29, 33, 40, 64, 128, 256, 0x0104, 263, 276,
                                       0x8000, 0xFFFF, FILE_MOST, 0x7FFFFFFF, 0x80000000};
    uint32_t own = field_get(module->bytes, field), length = (uint32_t)module->length, left = length - field.place;
    const uint32_t others[] = {own, left, left - 4, left - 60, length, 0u - own, 0u - field.place, 0u - length};
    size_t count = 0;
    for (size_t i = 0; i < COUNT(centers) + COUNT(others); i++) {
        uint32_t center = i < COUNT(centers) ? centers[i] : others[i - COUNT(centers)];
        for (uint32_t near = 0; near < 5; near++)
            numbers[count++] = center + near - 2;
    }
    return count;
}

#define TURNING_MOST 256

static void try_field(struct module *module, struct field field)
{
    uint32_t numbers[TURNING_MOST];
    size_t count = turning_numbers(module, field, numbers);
    uint32_t kept = field_get(module->bytes, field);
    for (size_t i = 0; i < (field.width == 1 ? 256 : count); i++) {
        field_put(module->bytes, field, field.width == 1 ? (uint32_t)i : numbers[i]);
        try_file(module->bytes, module->length);
    }
    field_put(module->bytes, field, kept);
}

static void try_fields(enum kind kind, uint64_t first, uint64_t behind)
{
    for (uint64_t seed = first; seed < behind; seed++) {
        struct module module = small_module(kind, seed);
        for (size_t i = 0; i < module.field_count; i++)
            try_field(&module, module.fields[i]);
        module_free(&module);
    }
}

static void group_every_field(void)
{
    try_fields(NORMAL, 3401, 3413);
}

/* Loops that end before, at and behind the sample's end, alone and with sums that pass 32 bits, of even and odd numbers; of a plain
   sample, and of one of kind AD, whose length counts values. */
static void group_loops(void)
{
    struct module module = {0};
    const uint32_t starts[] = {0, 1, 2, 8, 9, 10, 11, 0x7FFFFFFF, 0x80000000, 0xFFFFFFF0, 0xFFFFFFFE, 0xFFFFFFFF};
    const uint32_t lengths[] = {0, 1, 2, 7, 8, 9, 10, 11, 17, 26, 0x7FFFFFFF, 0x80000000, 0xFFFFFFFF};
    struct shape shape = {.song_length = 1, .channels = 1, .patterns = 1, .instruments = 1, .rows = 1, .cells = CELLS_NONE,
                          .samples_least = 1, .samples_most = 1, .sample_length_least = 10, .sample_length_most = 10};
    struct chance chance = {3501};
    module_build(&module, &shape, &chance);
    module_put_noise(&module, 11, &chance); /* kind AD takes 21 bytes */
    size_t header = 345 + 263;
    for (size_t i = 0; i < COUNT(starts); i++)
        for (size_t j = 0; j < COUNT(lengths); j++)
            for (unsigned turn = 0; turn < 2 * 256; turn++) {
                unsigned type = turn % 256;
                field_put(module.bytes, (struct field){(uint32_t)header + 4, 4}, starts[i]);
                field_put(module.bytes, (struct field){(uint32_t)header + 8, 4}, lengths[j]);
                module.bytes[header + 14] = (uint8_t)type;
                module.bytes[header + 17] = turn < 256 ? 0 : 0xAD;
                check(module.bytes, module.length);
                if (type < 32)
                    press(module.bytes, module.length, module.length);
            }
    module_free(&module);
}

/* A module of two samples, the first of kind AD: by every small length and those around which a size in 32 bits turns, at 8 and at
   16 bits; whole, with a byte more and cut by a byte. */
static void group_adpcm_modules(void)
{
    enum { HEADERS = 345 + 263, DATA = HEADERS + 2 * 40, SECOND = 3 };
    const uint32_t others[] = {1000, 0x7FFFFFFE, 0x7FFFFFFF, 0x80000000, 0xFFFFFFDE, 0xFFFFFFDF, 0xFFFFFFE0, 0xFFFFFFE1,
                               0xFFFFFFFD, 0xFFFFFFFE, 0xFFFFFFFF};
    struct shape shape = {.song_length = 1, .channels = 1, .patterns = 1, .instruments = 1, .rows = 1, .cells = CELLS_NONE,
                          .samples_least = 2, .samples_most = 2, .sample_length_least = SECOND, .sample_length_most = SECOND};
    struct chance chance = {3551};
    struct module module = {0};
    module_build(&module, &shape, &chance);
    module_put_noise(&module, 600, &chance);
    module.bytes[HEADERS + 17] = 0xAD;
    for (size_t i = 0; i < 70 + COUNT(others); i++)
        for (unsigned type = 0; type < 256; type += 16) {
            uint32_t length = i < 70 ? (uint32_t)i : others[i - 70];
            field_put(module.bytes, (struct field){HEADERS, 4}, length);
            module.bytes[HEADERS + 14] = (uint8_t)type;
            size_t end = DATA + (length == 0 ? 0 : 16 + ((size_t)length + 1) / 2) + SECOND;
            for (size_t cut = end - 1; cut <= end + 1 && end <= module.length; cut++)
                try_file(module.bytes, cut);
            try_file(module.bytes, module.length);
        }
    module_free(&module);
}

enum { NO_LONGER_GIVEN = FIDDLEMARSH_NOTE };

/* One thing wrong with a module: a field's number, or (width 0) the file's length. */
struct fault {
    struct field field;
    uint32_t number;
};

#define FAULTS_MOST 400

static size_t with_fault(struct module *module, size_t length, struct fault fault)
{
    if (fault.field.width == 0)
        return fault.number < length ? fault.number : length;
    field_put(module->bytes, fault.field, fault.number);
    return length;
}

static uint64_t answer_with(struct module *module, struct fault fault)
{
    uint32_t kept = fault.field.width == 0 ? 0 : field_get(module->bytes, fault.field);
    size_t length = with_fault(module, module->length, fault);
    uint64_t answer = reference_loader_check(module->bytes, length);
    if (fault.field.width != 0)
        field_put(module->bytes, fault.field, kept);
    return answer;
}

/* The field's numbers that are refused, one for each answer. */
static size_t field_faults(struct module *module, struct field field, struct fault *faults)
{
    uint32_t numbers[TURNING_MOST];
    uint64_t answers[TURNING_MOST];
    size_t count = turning_numbers(module, field, numbers), found = 0;
    numbers[count++] = 0xAD; /* the kind */
    for (size_t i = 0; i < count; i++) {
        uint64_t answer = answer_with(module, (struct fault){field, numbers[i]});
        bool known = !fiddlemarsh_refused(answer);
        for (size_t j = 0; j < found; j++)
            known = known || answers[j] == answer;
        if (known)
            continue;
        answers[found] = answer;
        faults[found++] = (struct fault){field, numbers[i]};
    }
    return found;
}

/* The longest cut of each answer. */
static size_t cut_faults(struct module *module, struct fault *faults)
{
    size_t found = 0;
    uint64_t before = 0;
    for (size_t length = module->length; length-- > 0;) {
        struct fault fault = {{0, 0}, (uint32_t)length};
        uint64_t answer = answer_with(module, fault);
        if (fiddlemarsh_refused(answer) && answer != before)
            faults[found++] = fault;
        before = answer;
    }
    return found;
}

static size_t all_faults(struct module *module, struct fault *faults)
{
    size_t count = cut_faults(module, faults);
    for (size_t i = 0; i < module->field_count && count < FAULTS_MOST - 50; i++)
        count += field_faults(module, module->fields[i], faults + count);
    return count;
}

static void try_two(const struct module *module, struct module *copy, struct fault first, struct fault second)
{
    memcpy(copy->bytes, module->bytes, module->length);
    size_t length = with_fault(copy, module->length, first);
    length = with_fault(copy, length, second);
    check(copy->bytes, length);
    press(copy->bytes, length, length);
    convert_in_turn(copy->bytes, length);
}

static void try_pairs(struct module *module, bool *numbers_met)
{
    struct fault faults[FAULTS_MOST];
    size_t count = all_faults(module, faults);
    struct module copy = {.bytes = malloc(module->length)};
    must(copy.bytes != NULL, "out of memory");
    for (size_t i = 0; i < count; i++) {
        numbers_met[fiddlemarsh_refusal(answer_with(module, faults[i]))] = true;
        for (size_t j = 0; j <= i; j++) /* the same bytes come of both orders; j = i is one fault alone */
            try_two(module, &copy, faults[i], faults[j]);
    }
    module_free(&copy);
}

static void try_two_faults(enum kind kind, uint64_t first, uint64_t behind)
{
    bool numbers_met[17] = {[2] = true, [NO_LONGER_GIVEN] = true}; /* 2 has a group of its own */
    for (uint64_t seed = first; seed < behind; seed++) {
        struct module module = small_module(kind, seed);
        try_pairs(&module, numbers_met);
        module_free(&module);
    }
    for (unsigned number = 1; number <= 13; number++)
        must(numbers_met[number] == (kind == NORMAL || number != FIDDLEMARSH_SAMPLE_HEADER_SIZE),
             "a refusal number has no fault of its own, or a stripped module got 11");
}

static void group_two_faults(void)
{
    try_two_faults(NORMAL, 3601, 3607);
}

/* 'behind': where the header ends. */
static void change_by_chance(struct module *module, uint32_t behind, struct chance *chance)
{
    uint32_t numbers[TURNING_MOST];
    uint32_t at = chance_below(chance, (uint32_t)module->length);
    struct field field = module->fields[chance_below(chance, (uint32_t)module->field_count)];
    switch (chance_below(chance, 6)) {
    case 0:
        module->bytes[at] = (uint8_t)chance_next(chance);
        break;
    case 1:
        module->bytes[at] ^= (uint8_t)(1u << chance_below(chance, 8));
        break;
    case 2: /* a byte lost */
        memmove(module->bytes + at, module->bytes + at + 1, module->length - at - 1);
        module->length--;
        break;
    case 3: /* a byte doubled, in the place of the last one */
        memmove(module->bytes + at + 1, module->bytes + at, module->length - at - 1);
        break;
    case 4:
        if (field.place + field.width <= module->length)
            field_put(module->bytes, field, numbers[chance_below(chance, (uint32_t)turning_numbers(module, field, numbers))]);
        break;
    default: /* behind the header, where changes tell more */
        module->bytes[behind + chance_below(chance, (uint32_t)module->length - behind)] ^= (uint8_t)chance_next(chance);
    }
}

static void try_changes(enum kind kind, uint64_t seed, unsigned rounds)
{
    struct chance chance = {seed};
    for (unsigned round = 0; round < rounds; round++) {
        struct module module = small_module(kind, seed + 1 + round);
        size_t whole = module.length;
        uint32_t behind = kind == STRIPPED ? 80 : 336;
        uint8_t *kept = malloc(whole);
        must(kept != NULL, "out of memory");
        memcpy(kept, module.bytes, whole);
        for (unsigned change = 0; change < 100; change++) {
            memcpy(module.bytes, kept, whole);
            module.length = whole;
            for (uint32_t times = chance_between(&chance, 1, 4); times > 0; times--)
                change_by_chance(&module, behind, &chance);
            try_file(module.bytes, module.length);
        }
        free(kept);
        module_free(&module);
    }
}

static void group_changes(void)
{
    try_changes(NORMAL, 3701, 400);
}

/* The form of an empty cell, as often as there are cells, behind a bench file's header; returns the file's length. */
static size_t silence_file(uint8_t *file, uint32_t rows, uint32_t channels, const char *form)
{
    uint8_t cell[6];
    size_t length = from_hex(form, cell), cells = length > 0 ? (size_t)rows * channels : 0;
    bench_file(file, 276, rows);
    file[68] = (uint8_t)channels;
    field_put(file, (struct field){343, 2}, (uint32_t)(cells * length));
    for (size_t i = 0; i < cells; i++)
        memcpy(file + 345 + i * length, cell, length);
    return 345 + cells * length;
}

/* Silence of so many rows is one song, stored in no data or in cells of any form; it presses to its rows and S = 0. */
static void try_silence(uint32_t rows, uint32_t channels)
{
    static const char *const forms[] = {"", "80", "A0", "C0", "E0", "0000000000", "9F0000000000", "FF0000000000", "9000"};
    static uint8_t file[345 + 6 * 256 * 64];
    uint8_t song[345], pressed[345];
    for (size_t i = 0; i < COUNT(forms); i++) {
        size_t length = silence_file(file, rows, channels, forms[i]);
        if (length > 345 + DATA_MOST)
            continue;
        struct call call = {.name = CALL_PRESS, .input = file, .input_len = length, .room = sizeof pressed};
        uint64_t answer = fiddlemarsh_press(file, length, pressed, sizeof pressed);
        silence_file(song, rows, channels, "");
        memcpy(song, "Extended module: ", 17);
        if (answer != sizeof song || memcmp(pressed, song, sizeof song) != 0)
            lent_unexpected(&call, "silence does not press to its rows without data", answer);
        try_file(file, length);
        try_unpack(rows, channels, file + 345, length - 345);
    }
}

static void group_silence(void)
{
    static const uint32_t rows[] = {1, 2, 31, 32, 33, 63, 64, 65, 255, 256}, channels[] = {1, 2, 4, 64};
    for (size_t i = 0; i < COUNT(rows); i++)
        for (size_t j = 0; j < COUNT(channels); j++)
            try_silence(rows[i], channels[j]);
}

/* Patterns of one form throughout: what the press makes of them, at 32, 63, 64 and 65 rows too. */
static void try_pattern_forms(uint32_t channels)
{
    struct chance chance = {3801 + channels};
    struct module module = {0};
    const uint32_t rows[] = {1, 32, 63, 64, 65, 256};
    for (size_t i = 0; i < COUNT(rows); i++)
        for (int cells = CELLS_EVERY_FORM; cells <= CELLS_SPARSE; cells++) {
            struct shape shape = {.song_length = 1, .channels = channels, .patterns = 3, .rows = rows[i], .cells = cells};
            module_build(&module, &shape, &chance);
            must_accept(&module);
            try_file(module.bytes, module.length);
            try_file_rooms(module.bytes, module.length, module.length / 50 + 1);
        }
    module_free(&module);
}

static void group_pattern_forms(void)
{
    try_pattern_forms(1);
    try_pattern_forms(3);
}

static void group_wide_pattern_forms(void)
{
    try_pattern_forms(64);
}

/* A small module with bytes behind it, up to the size limit and over it. */
static void group_size_limit(void)
{
    struct chance chance = {3851};
    struct module module = small_module(NORMAL, 3851);
    module_put_noise(&module, FILE_MOST + 1 - module.length, &chance);
    check(module.bytes, FILE_MOST);
    check(module.bytes, FILE_MOST + 1);
    module.bytes[37] = 0; /* 2 comes before 3 */
    press(module.bytes, FILE_MOST + 1, 0);
    module_free(&module);
}

/* A pattern of the longest data there are, inside a module: by its S, by one byte less, and cut. */
static void try_longest_data(size_t channels, size_t longest)
{
    enum { ROWS = 256, DATA = 345 };
    static uint8_t cells[CELLS_MOST], file[DATA + DATA_MOST];
    bench_file(file, 276, ROWS);
    file[68] = (uint8_t)channels;
    for (size_t size = DATA_MOST - 1; size <= DATA_MOST; size++) {
        cells_of_length(cells, ROWS * channels, size, longest);
        uint64_t packed = reference_loader_pack(ROWS, channels, cells, ROWS * channels * 5, file + DATA, DATA_MOST);
        must(fiddlemarsh_packed_length(packed) == size, "not the length asked for");
        field_put(file, (struct field){343, 2}, (uint32_t)size);
        try_file(file, DATA + size);
        try_file(file, DATA + size - 1);
    }
}

static void group_longest_data(void)
{
    try_longest_data(52, 5);
    try_longest_data(43, 6);
}

/* A module whose every byte is content, up to the size limit: pressing gives it back. */
static void group_longest_pressed(void)
{
    enum { SAMPLES = 16, SIZE = (FILE_MOST - 336 - 9 - 263 - 40 * SAMPLES) / SAMPLES };
    struct chance chance = {3951};
    struct module module = {0};
    struct shape shape = {.song_length = 1, .channels = 1, .patterns = 1, .instruments = 1, .rows = 64, .cells = CELLS_NONE,
                          .samples_least = SAMPLES, .samples_most = SAMPLES, .sample_length_least = SIZE, .sample_length_most = SIZE};
    module_build(&module, &shape, &chance);
    must(module.length == FILE_MOST, "not as long as a file may be");
    try_file(module.bytes, module.length);
    module_free(&module);
}

/* Tables */

static void try_table_rooms(const uint8_t *file, size_t length)
{
    size_t needs[TABLES], rooms[TABLES];
    table_needs(file, length, needs);
    for (unsigned table = 0; table < TABLES; table++) {
        memcpy(rooms, needs, sizeof rooms);
        for (rooms[table] = 0; rooms[table] <= needs[table] + 2 * strides[table]; rooms[table]++)
            tables(file, length, rooms);
    }
}

/* Some tables one row short, the others with just enough or more: 14 of any of them leaves all as they are. */
static void try_short_tables(const uint8_t *file, size_t length)
{
    size_t needs[TABLES], rooms[TABLES];
    table_needs(file, length, needs);
    for (unsigned mask = 0; mask < 1u << TABLES; mask++)
        for (size_t more = 0; more <= 5; more += 5) {
            for (unsigned i = 0; i < TABLES; i++)
                rooms[i] = mask >> i & 1 ? needs[i] - (needs[i] > 0 ? strides[i] : 0) : needs[i] + more;
            tables(file, length, rooms);
        }
}

static void try_tables(enum kind kind, uint64_t first, uint64_t behind)
{
    for (uint64_t seed = first; seed < behind; seed++) {
        struct module module = small_module(kind, seed);
        must_accept(&module);
        try_table_rooms(module.bytes, module.length);
        try_short_tables(module.bytes, module.length);
        try_table_rooms(module.bytes, module.length - 1);
        module_free(&module);
    }
}

static void group_table_rooms(void)
{
    try_tables(NORMAL, 4101, 4141);
}

static void group_table_shapes(void)
{
    struct chance chance = {4201};
    struct module module = {0};
    for (unsigned round = 0; round < 200; round++) {
        struct shape shape = shape_by_chance(&chance, false);
        module_build(&module, &shape, &chance);
        try_short_tables(module.bytes, module.length);
    }
    module_free(&module);
}

/* The room that is always enough, and a number less of each, for a module that needs all of it. */
static void try_most_tables(const uint8_t *file, size_t length)
{
    const size_t most[TABLES] = {256 * 3, 128 * 3, 2048 * 7, 2048 * 2};
    size_t rooms[TABLES];
    for (unsigned table = 0; table <= TABLES; table++) {
        memcpy(rooms, most, sizeof rooms);
        if (table < TABLES)
            rooms[table]--;
        uint64_t answer = tables(file, length, rooms);
        must(fiddlemarsh_refusal(answer) == (table < TABLES ? FIDDLEMARSH_ROOM : FIDDLEMARSH_ACCEPTED), "not the most tables");
    }
}

/* Deltas */

/* Values at which something may turn, from the limits of 8 and of 16 bits. */
static const int16_t turning_values[] = {0,    1,    2,    126,  127,   128,   129,   254,   255,    256,    257,    32766, 32767,
                                         -1,   -2,   -127, -128, -129,  -130,  -255,  -256,  -257,   -32767, -32768, 255 * 128};

static void bytes_by_chance(uint8_t *bytes, size_t count, struct chance *chance)
{
    for (size_t i = 0; i < count; i++)
        bytes[i] = (uint8_t)chance_next(chance);
}

/* Values from -reach to reach - 1. */
static void values_by_chance(int16_t *values, size_t count, uint32_t reach, struct chance *chance)
{
    for (size_t i = 0; i < count; i++)
        values[i] = (int16_t)((int32_t)chance_below(chance, 2 * reach) - (int32_t)reach);
}

static void try_decode(size_t width, const uint8_t *bytes, size_t length)
{
    size_t needed = width == 8 ? length : length / 2;
    decode(width, bytes, length, needed);
    decode(width, bytes, length, needed + 3);
    if (needed > 0)
        decode(width, bytes, length, needed - 1);
}

static void try_code(size_t width, const int16_t *values, size_t length)
{
    size_t needed = width == 8 ? length : 2 * length;
    code(width, values, length, needed);
    code(width, values, length, needed + 3);
    if (needed > 0)
        code(width, values, length, needed - 1);
}

static void group_delta_arguments(void)
{
    static const size_t widths[] = {0,  1,  2,  4,   7,   8,     9,     12,             15,              16,              17,
                                    24, 32, 64, 128, 264, 65552, 65544, TWO_TO(32) + 8, TWO_TO(32) + 16, TWO_TO(63) + 16, SIZE_MAX};
    struct chance chance = {4301};
    uint8_t bytes[9];
    int16_t values[9];
    for (size_t i = 0; i < COUNT(widths); i++)
        for (size_t length = 0; length <= COUNT(bytes); length++)
            for (size_t room = 0; room <= 2 * COUNT(bytes) + 2; room++) {
                bytes_by_chance(bytes, length, &chance);
                values_by_chance(values, length, room % 2 ? 128 : 129, &chance);
                decode(widths[i], bytes, length, room);
                code(widths[i], values, length, room);
            }
}

/* Every value behind every turning one, at both widths; alone where 8 bits do not hold it. */
static void group_delta_values(void)
{
    static int16_t pairs[2 * 65536], narrow[2 * 65536];
    size_t held = 0;
    for (size_t i = 0; i < COUNT(turning_values); i++) {
        for (int32_t value = -32768; value < 32768; value++) {
            pairs[2 * (value + 32768)] = turning_values[i];
            pairs[2 * (value + 32768) + 1] = (int16_t)value;
        }
        try_code(16, pairs, COUNT(pairs));
        try_decode(16, (const uint8_t *)pairs, sizeof pairs);
        try_decode(8, (const uint8_t *)pairs, sizeof pairs);
        for (size_t j = 0; j < COUNT(turning_values); j++)
            try_code(8, (const int16_t[]){turning_values[i], turning_values[j]}, 2);
    }
    for (int32_t value = -32768; value < 32768; value++)
        try_code(8, (const int16_t[]){(int16_t)value}, 1);
    for (int16_t before = -128; before < 128; before++)
        for (int16_t value = -128; value < 128; value++) {
            narrow[held++] = before;
            narrow[held++] = value;
        }
    try_code(8, narrow, held);
}

/* One value that 8 bits do not hold, or just hold, at every place of many. */
static void group_delta_outside(void)
{
    enum { MANY = 70 };
    int16_t values[MANY];
    struct chance chance = {4401};
    for (size_t place = 0; place < MANY; place++)
        for (size_t i = 0; i < COUNT(turning_values); i++) {
            values_by_chance(values, MANY, 128, &chance);
            values[place] = turning_values[i];
            code(8, values, MANY, MANY);
            code(8, values, MANY, MANY - 1);
            code(8, values, place + 1, place + 1);
            code(16, values, MANY, 2 * MANY);
        }
}

static void group_delta_chance(void)
{
    enum { MANY = 3000 };
    static uint8_t bytes[MANY];
    static int16_t values[MANY];
    static const uint32_t reaches[] = {3, 128, 128, 129, 32768};
    struct chance chance = {4501};
    for (unsigned round = 0; round < 3000; round++) {
        size_t length = chance_below(&chance, round % 10 == 0 ? MANY + 1 : 40);
        bytes_by_chance(bytes, length, &chance);
        values_by_chance(values, length, reaches[chance_below(&chance, COUNT(reaches))], &chance);
        for (size_t width = 8; width <= 16; width += 8) {
            try_decode(width, bytes, length);
            try_code(width, values, length);
        }
    }
}

/* As many as a call takes, and more: with room that would do, and with none. */
static void group_delta_limit(void)
{
    struct chance chance = {4601};
    struct module noise = {0};
    module_put_noise(&noise, 2 * DELTA_MOST + 4, &chance);
    for (size_t width = 8; width <= 16; width += 8) {
        size_t count = DELTA_MOST * 8 / width;
        decode(width, noise.bytes, DELTA_MOST, count);
        decode(width, noise.bytes, DELTA_MOST, count - 1);
        decode(width, noise.bytes, DELTA_MOST + 1, DELTA_MOST + 1);
        decode(width, noise.bytes, DELTA_MOST + 2, 0);
    }
    decode(16, noise.bytes, DELTA_MOST + 2, DELTA_MOST / 2 + 1);
    int16_t *values = (int16_t *)(void *)noise.bytes;
    code(16, values, DELTA_MOST, 2 * DELTA_MOST);
    code(16, values, DELTA_MOST, 2 * DELTA_MOST - 1);
    code(16, values, DELTA_MOST + 1, 2 * DELTA_MOST + 2);
    values_by_chance(values, DELTA_MOST + 1, 128, &chance);
    code(8, values, DELTA_MOST, DELTA_MOST);
    code(8, values, DELTA_MOST + 1, DELTA_MOST + 1);
    code(8, values, DELTA_MOST + 1, 0);
    values[DELTA_MOST - 1] = 128;
    code(8, values, DELTA_MOST, 0);
    module_free(&noise);
}

/* ADPCM samples */

static size_t adpcm_bytes(size_t length)
{
    return length == 0 ? 0 : 16 + length / 2 + length % 2;
}

/* With room that just does, with more, and with one too little; and with a byte more and a byte less. */
static void try_adpcm(size_t length, const uint8_t *bytes)
{
    size_t count = adpcm_bytes(length);
    adpcm(length, bytes, count, length);
    adpcm(length, bytes, count, length + 3);
    adpcm(length, bytes, count + 1, length);
    if (length == 0)
        return;
    adpcm(length, bytes, count, length - 1);
    adpcm(length, bytes, count - 1, length);
}

/* Every small length with every small byte count; and lengths whose byte count no memory holds, with what is left of it in 64 bits or
   in 32. */
static void group_adpcm_arguments(void)
{
    enum { SMALL = 36 };
    static const size_t lengths[] = {65535, 65536, TWO_TO(31), TWO_TO(32) - 2, TWO_TO(32) - 1, TWO_TO(32), TWO_TO(32) + 1,
                                     TWO_TO(33), TWO_TO(63), SIZE_MAX - 33, SIZE_MAX - 32, SIZE_MAX - 31, SIZE_MAX - 1, SIZE_MAX};
    struct chance chance = {4701};
    uint8_t bytes[SMALL];
    bytes_by_chance(bytes, SMALL, &chance);
    for (size_t length = 0; length <= SMALL; length++)
        for (size_t count = 0; count <= SMALL; count++)
            for (size_t room = 0; room <= SMALL + 1; room += count == adpcm_bytes(length) ? 1 : SMALL + 1)
                adpcm(length, bytes, count, room);
    for (size_t i = 0; i < COUNT(lengths); i++)
        for (size_t count = 0; count <= SMALL; count++)
            adpcm(lengths[i], bytes, count, SMALL);
}

/* Every pair of indexes over and over, by tables that count, of turning values, and by chance. */
static void group_adpcm_values(void)
{
    enum { PAIRS = 65536, TABLES_TRIED = 20 };
    static uint8_t bytes[16 + PAIRS + 1];
    struct chance chance = {4801};
    for (size_t i = 0; i < PAIRS; i++)
        bytes[16 + i] = (uint8_t)(i + i / 256);
    for (unsigned round = 0; round < TABLES_TRIED; round++) {
        bytes_by_chance(bytes, 16, &chance);
        for (uint8_t i = 0; i < 16 && round < TABLES_TRIED / 2; i++)
            bytes[i] = round == 0 ? i : round == 1 ? 16 * i : (uint8_t)turning_values[(i + round) % COUNT(turning_values)];
        try_adpcm(2 * PAIRS, bytes);
        try_adpcm(2 * PAIRS - 1, bytes);
    }
}

static void group_adpcm_chance(void)
{
    enum { MANY = 3000 };
    static uint8_t bytes[16 + MANY];
    struct chance chance = {4901};
    for (unsigned round = 0; round < 3000; round++) {
        size_t length = chance_below(&chance, round % 10 == 0 ? 2 * MANY - 2 : 80);
        bytes_by_chance(bytes, adpcm_bytes(length) + 1, &chance);
        try_adpcm(length, bytes);
    }
}

/* The greatest length that a call takes, and the next ones. */
static void group_adpcm_limit(void)
{
    struct chance chance = {5001};
    struct module noise = {0};
    module_put_noise(&noise, adpcm_bytes(ADPCM_MOST) + 1, &chance);
    for (size_t length = ADPCM_MOST - 1; length <= ADPCM_MOST + 2; length++)
        adpcm(length, noise.bytes, adpcm_bytes(length), length == ADPCM_MOST ? length : 0);
    module_free(&noise);
}

/* Periods */

static void must_be_period(uint64_t note, int64_t finetune, uint64_t want)
{
    uint64_t answer = period(note, finetune);
    if (answer != want)
        lent_unexpected(&(struct call){.name = CALL_PERIOD, .note = note, .finetune = finetune}, "not the paper's period", answer);
}

/* Every note and every finetune that there is, those next to them, and numbers that are one of them in fewer bits. */
static void group_periods(void)
{
    static const uint64_t odd_notes[] = {255, 256, 65536, TWO_TO(32), TWO_TO(32) + 1, TWO_TO(61), TWO_TO(63), UINT64_MAX};
    static const int64_t odd_finetunes[] = {-65536, -256, -130, 129, 255, 256, INT64_MIN, INT64_MIN + 1, INT64_MAX, (int64_t)TWO_TO(32),
                                            -(int64_t)TWO_TO(32), -(int64_t)TWO_TO(32) - 1};
    must_be_period(0, 0, 29024 + 65536 * 2);
    must_be_period(0, -1, REFUSED(16, 0));
    must_be_period(1, -1, 27404 + 65536 * 2);   /* q = 7 and f = 15: 2 x (862 + 15 x 856) */
    must_be_period(11, 127, 14519 + 65536 * 2); /* q = 95 and f = 15: 2 x 457 + 15 x 907, since half of 907 is behind the last */
    must_be_period(12, 0, 29024 + 65536 * 4);   /* an octave up */
    for (uint64_t note = 0; note <= 120; note++) {
        for (int64_t finetune = -129; finetune <= 128; finetune++)
            period(note, finetune);
        for (size_t i = 0; i < COUNT(odd_finetunes); i++)
            period(note, odd_finetunes[i]);
    }
    for (size_t i = 0; i < COUNT(odd_notes); i++)
        for (int64_t finetune = -129; finetune <= 128; finetune++)
            period(odd_notes[i], finetune);
}

/* The largest counts of everything, and samples up to the size limit. */
static void group_large(void)
{
    struct chance chance = {3901};
    struct module module = {0};
    struct shape full = {.song_length = 256, .restart = 255, .channels = 64, .patterns = 256, .instruments = 128,
                         .rows_most = 256, .cells = -1, .samples_least = 16, .samples_most = 16, .sample_length_most = 50};
    module_build(&module, &full, &chance);
    must_accept(&module);
    try_file(module.bytes, module.length);
    try_most_tables(module.bytes, module.length);
    struct shape samples = {.song_length = 1, .channels = 4, .patterns = 1, .instruments = 2, .rows = 64, .cells = CELLS_DENSE,
                            .samples_least = 16, .samples_most = 16, .sample_length_least = 500000, .sample_length_most = 520000};
    module_build(&module, &samples, &chance);
    size_t end = module.length;
    module_put_noise(&module, FILE_MOST + 1 - end, &chance);
    try_file(module.bytes, FILE_MOST);
    try_file(module.bytes, FILE_MOST + 1);
    check(module.bytes, FILE_MOST - 1);
    press(module.bytes, end, end);
    try_file(module.bytes, end - 1);
    module_free(&module);
}

/* Stripped modules, and conversions */

static void group_stripped_cuts(void)
{
    try_cuts(STRIPPED, 5201, 5231);
}

static void group_stripped_rooms(void)
{
    try_rooms(STRIPPED, 5101, 5111);
    try_tables(STRIPPED, 5111, 5131);
}

static void group_stripped_fields(void)
{
    try_fields(STRIPPED, 5401, 5407);
}

static void group_stripped_faults(void)
{
    try_two_faults(STRIPPED, 5605, 5606);
}

static void group_stripped_changes(void)
{
    try_changes(STRIPPED, 5701, 100);
}

static void group_stripped_bytes(void)
{
    try_bytes(&(struct shape){.stripped = true, .zeros_percent = 50, .song_length = 2, .restart = 1, .channels = 2, .patterns = 1,
                              .instruments = 1, .rows = 2, .cells = CELLS_EVERY_FORM, .samples_least = 2, .samples_most = 2,
                              .sample_length_least = 4, .sample_length_most = 6}, 5301);
}

/* A stripped module with one empty pattern and one instrument of that I, with k samples and headers of H bytes; returns its length. What
   the rules read is sound as far as it is not cut off; the rest is noise, or zeros. */
enum { STRIPPED_BEFORE = 90, STRIPPED_MOST = 1200 };

static size_t stripped_file(uint8_t file[STRIPPED_MOST], uint32_t size, uint32_t samples, uint32_t header_size, struct chance *chance)
{
    size_t length = STRIPPED_BEFORE + (size < 4 ? 4 : size) + (size_t)samples * header_size;
    uint8_t mask = chance_percent(chance, 50) ? 255 : 0;
    for (size_t i = 0; i < STRIPPED_MOST; i++)
        file[i] = (uint8_t)chance_next(chance) & (i < STRIPPED_BEFORE || chance_percent(chance, 5) ? 255 : mask);
    file[37] = file[58] = file[59] = 0;
    field_put(file, (struct field){60, 4}, 21);
    file[64] = file[68] = file[70] = file[72] = 1;
    file[65] = file[69] = file[71] = file[73] = 0;
    field_put(file, (struct field){81, 4}, 9);
    field_put(file, (struct field){86, 4}, 64);
    field_put(file, (struct field){STRIPPED_BEFORE, 4}, size);
    if (size > 27)
        field_put(file, (struct field){STRIPPED_BEFORE + 27, size > 28 ? 2 : 1}, samples);
    if (size > 29)
        field_put(file, (struct field){STRIPPED_BEFORE + 29, size > 32 ? 4 : size - 29}, header_size);
    for (uint32_t i = 0; i < samples && header_size > 0; i++) {
        uint32_t header = (uint32_t)(STRIPPED_BEFORE + size + i * header_size);
        field_put(file, (struct field){header, header_size < 4 ? header_size : 4}, i % 4);
        if (header_size > 14)
            file[header + 14] = 0;
        length += i % 4;
    }
    return length;
}

/* Every I up to the reserved bytes and past them, with every H that a header can need, of none, one, three and sixteen samples. */
static void group_every_size(void)
{
    static const uint32_t counts[] = {0, 1, 3, 16};
    struct chance chance = {5801};
    uint8_t file[STRIPPED_MOST];
    for (uint32_t size = 0; size <= 266; size += size == 50 ? 70 : size == 140 ? 80 : 1)
        for (uint32_t header_size = 0; header_size <= 42; header_size += header_size == 5 ? 6 : header_size == 20 ? 17 : 1)
            for (size_t i = 0; i < COUNT(counts); i++) {
                uint32_t samples = size > 27 ? counts[i] : 0, cut = size > 29 ? header_size : 0;
                size_t length = stripped_file(file, size, samples, cut, &chance);
                try_file(file, length);
                convert_in_turn(file, length);
                check(file, length - 1);
            }
}

/* k from 0 to 300, by both bytes and by the one that I leaves of them: 16 pass, and 272 are 16 where the high byte is cut off. */
static void group_every_count(void)
{
    struct chance chance = {5802};
    uint8_t file[STRIPPED_MOST];
    for (uint32_t samples = 0; samples <= 300; samples++)
        for (uint32_t size = 26; size <= 31; size++) {
            size_t length = stripped_file(file, size, samples, 0, &chance);
            try_file(file, length);
            check(file, length - 1); /* that I bytes are there (1) comes before k above 16 (10) */
            check(file, STRIPPED_BEFORE + 3);
        }
}

/* Marks and versions that fit no kind, or the other one; and header sizes around both limits, by song lengths that 5 refuses, too. */
static void group_kinds(void)
{
    static const uint32_t marks[] = {0, 1, 0x19, 0x1A, 0x1B, 0x9A, 255}, versions[] = {0, 1, 4, 0x0100, 0x0103, 0x0104, 0x0105, 0x0401};
    static const uint32_t songs[] = {0, 1, 2, 3, 255, 256, 257, 65535};
    struct module module = small_module(STRIPPED, 5901);
    for (size_t i = 0; i < COUNT(marks) * COUNT(versions) * COUNT(songs); i++) {
        uint32_t song = songs[i % COUNT(songs)];
        const uint32_t sizes[] = {0, 19, 20, 21, 19 + song, 20 + song, 21 + song, 275, 276};
        field_put(module.bytes, (struct field){37, 1}, marks[i / COUNT(songs) / COUNT(versions)]);
        field_put(module.bytes, (struct field){58, 2}, versions[i / COUNT(songs) % COUNT(versions)]);
        field_put(module.bytes, (struct field){64, 2}, song);
        for (size_t j = 0; j < COUNT(sizes); j++) {
            field_put(module.bytes, (struct field){60, 4}, sizes[j]);
            try_file(module.bytes, module.length);
        }
    }
    module_free(&module);
}

/* A whole module of either kind: written in each way with every room that tells, and what is written again. */
static void try_kinds(const struct module *module)
{
    must_accept(module);
    check(module->bytes, module->length);
    for (enum call_name name = CALL_PRESS; name <= CALL_TO_STRIPPED; name++) {
        try_written(name, module->bytes, module->length);
        lent_compare(&(struct call){.name = name, .input = module->bytes, .input_len = module->length});
        try_written_again(name, module);
    }
}

static bool same_bytes(const struct module *one, const struct module *other)
{
    return one->length == other->length && memcmp(one->bytes, other->bytes, one->length) == 0;
}

/* There and back again is there at once; and where a module's own kind is asked for, only the tracker name can be another. */
static void try_both_ways(const struct module *module)
{
    const enum call_name names[] = {CALL_TO_NORMAL, CALL_TO_STRIPPED};
    for (size_t i = 0; i < COUNT(names); i++) {
        struct module there = written_by(names[1 - i], module);
        struct module back = written_by(names[i], &there), at_once = written_by(names[i], module);
        if (!same_bytes(&back, &at_once))
            lent_unexpected(&(struct call){.name = names[i], .input = module->bytes, .input_len = module->length,
                                           .room = room_for(names[i], module->length)}, "another file by way of the other kind", 0);
        module_free(&there);
        module_free(&back);
        module_free(&at_once);
    }
    struct module pressed = written_by(CALL_PRESS, module);
    struct module converted = written_by(fiddlemarsh_is_stripped(module->bytes) ? CALL_TO_STRIPPED : CALL_TO_NORMAL, module);
    memset(pressed.bytes + 38, 0, 20);
    if (!same_bytes(&pressed, &converted))
        lent_unexpected(&(struct call){.name = CALL_PRESS, .input = module->bytes, .input_len = module->length, .room = module->length},
                        "not what a conversion to its own kind gives, but for the tracker name", pressed.length);
    module_free(&pressed);
    module_free(&converted);
}

static void try_kind_shapes(uint64_t seed, unsigned rounds, bool large)
{
    struct chance chance = {seed};
    struct module module = {0};
    for (; rounds > 0; rounds--) {
        struct shape shape = kind_by_chance(&chance, large, rounds % 3 != 0);
        module_build(&module, &shape, &chance);
        try_kinds(&module);
        try_both_ways(&module);
    }
    module_free(&module);
}

static void group_kind_shapes(void)
{
    try_kind_shapes(6001, 1500, false);
}

static void group_large_kind_shapes(void)
{
    try_kind_shapes(6002, 9, true);
}

/* The most that a conversion adds: one order, and as many instruments as there can be with as many samples of headers of no bytes. */
static void group_most_growth(void)
{
    enum { INSTRUMENTS = 128, SIZE = 28, BEFORE = STRIPPED_BEFORE };
    static uint8_t file[BEFORE + INSTRUMENTS * SIZE];
    struct chance chance = {6101};
    uint8_t front[STRIPPED_MOST];
    stripped_file(front, SIZE, 16, 0, &chance);
    memcpy(file, front, BEFORE);
    file[72] = INSTRUMENTS;
    for (size_t i = 0; i < INSTRUMENTS; i++)
        memcpy(file + BEFORE + i * SIZE, front + BEFORE, SIZE);
    struct module module = {.bytes = file, .length = sizeof file};
    struct module normal = written_by(CALL_TO_NORMAL, &module);
    must(normal.length == sizeof file + FIDDLEMARSH_NORMAL_MORE_MOST, "not the most that a conversion adds");
    try_kinds(&module);
    try_both_ways(&module);
    module_free(&normal);
}

/* A stripped module whose normal form has just as many bytes as a file may have, and one more: 2 comes before 14, and the file's own
   refusal before both. */
static void group_converted_limit(void)
{
    enum { SAMPLES = 16, SIZE = 30, HEADER = 3, NORMAL_BEFORE = 336 + 9 + 263 + 40 * SAMPLES, BYTES = (FILE_MOST - NORMAL_BEFORE) / SAMPLES,
           HEADERS = STRIPPED_BEFORE + SIZE };
    struct chance chance = {6201};
    struct module module = {0};
    uint8_t front[STRIPPED_MOST];
    module_put_noise(&module, HEADERS + HEADER * SAMPLES + (size_t)SAMPLES * BYTES + 1, &chance);
    stripped_file(front, SIZE, SAMPLES, HEADER, &chance);
    memcpy(module.bytes, front, HEADERS);
    for (uint32_t longer = 0; longer < 2; longer++) {
        for (uint32_t i = 0; i < SAMPLES; i++)
            field_put(module.bytes, (struct field){HEADERS + HEADER * i, HEADER}, BYTES + (i == SAMPLES - 1 ? longer : 0));
        size_t length = module.length - 1 + longer;
        for (size_t room = FILE_MOST - 1; room <= FILE_MOST + 1; room++)
            convert(CALL_TO_NORMAL, module.bytes, length, room);
        struct call call = {.name = CALL_TO_NORMAL, .input = module.bytes, .input_len = length};
        uint64_t answer = lent_compare(&call);
        if (answer != REFUSED(longer ? FIDDLEMARSH_FILE_TOO_LONG : FIDDLEMARSH_ROOM, 0))
            lent_unexpected(&call, "not 2 where the converted file is over the limit, or not 14 where it isn't", answer);
        convert(CALL_TO_NORMAL, module.bytes, length - 1, 0);
        try_written(CALL_TO_STRIPPED, module.bytes, length);
        check(module.bytes, length);
    }
    module_free(&module);
}

/* Running the groups */

struct group {
    const char *name;
    void (*run)(void);
};

/* Those that take longest stand last: must-see.sh is then done soon with most faults. */
static const struct group groups[] = {
    {"the paper's bench pieces", group_pieces},
    {"period: every note and finetune", group_periods},
    {"modules: every cut", group_every_cut},
    {"stripped: every cut", group_stripped_cuts},
    {"stripped: every k", group_every_count},
    {"stripped: kinds and header sizes", group_kinds},
    {"stripped: every room", group_stripped_rooms},
    {"conversions: the most that is added", group_most_growth},
    {"modules: every room", group_every_room},
    {"tables: every room", group_table_rooms},
    {"decode and code: arguments at their limits", group_delta_arguments},
    {"code: values outside 8 bits", group_delta_outside},
    {"decode and code: samples by chance", group_delta_chance},
    {"adpcm: arguments at their limits", group_adpcm_arguments},
    {"adpcm: samples by chance", group_adpcm_chance},
    {"modules: ADPCM samples", group_adpcm_modules},
    {"modules: loops", group_loops},
    {"stripped: every I and H", group_every_size},
    {"modules: every field at its limits", group_every_field},
    {"modules: every two faults", group_two_faults},
    {"modules: changes by chance", group_changes},
    {"modules: every byte at every value", group_every_byte},
    {"modules: the size limit", group_size_limit},
    {"modules: every pattern form", group_pattern_forms},
    {"modules: silence in every form", group_silence},
    {"unpack: one stored cell, every lead byte", group_one_stored_cell},
    {"unpack: cut, changed and overlong data", group_unpack_damaged},
    {"unpack: arguments at their limits", group_unpack_arguments},
    {"pack: one cell, every note and field", group_one_cell_packed},
    {"pack: arguments at their limits", group_pack_arguments},
    {"pack: high notes at every place", group_pack_notes},
    {"cells: every note, fields and form", group_every_note},
    {"cells: every note in one pattern", group_notes_together},
    {"pack: empty patterns", group_pack_empty},
    {"pack: around 65,535 bytes", group_pack_longest},
    {"pack: full cells, 42 and 43 channels", group_pack_full},
    {"unpack: patterns of every shape", group_unpack_shapes},
    {"pack: cells of every shape", group_pack_shapes},
    {"modules: every shape", group_module_shapes},
    {"modules: every pattern form, 64 channels", group_wide_pattern_forms},
    {"tables: modules of every shape", group_table_shapes},
    {"decode and code: every value", group_delta_values},
    {"adpcm: every pair of indexes", group_adpcm_values},
    {"modules: large ones of every shape", group_large_shapes},
    {"modules: the longest data", group_longest_data},
    {"decode and code: the most at once", group_delta_limit},
    {"adpcm: the most at once", group_adpcm_limit},
    {"modules: the largest", group_large},
    {"modules: the longest pressed", group_longest_pressed},
    {"conversions: the size limit", group_converted_limit},
    {"conversions: both kinds of every shape", group_kind_shapes},
    {"stripped: changes by chance", group_stripped_changes},
    {"stripped: every field at its limits", group_stripped_fields},
    {"stripped: every two faults", group_stripped_faults},
    {"conversions: large ones of both kinds", group_large_kind_shapes},
    {"stripped: every byte at many values", group_stripped_bytes},
};

/* A comparison that never met a refusal says nothing about it. */
static void must_have_met(enum call_name name, unsigned from, unsigned to)
{
    for (unsigned number = from; number <= to; number++)
        must((lent_seen(name, number) > 0) == (number != NO_LONGER_GIVEN), "a refusal number was never met, or one no longer given was");
}

static void must_have_met_all(void)
{
    must_have_met(CALL_CHECK, 0, 13);
    for (enum call_name name = CALL_PRESS; name <= CALL_TO_STRIPPED; name++)
        must_have_met(name, 0, 14);
    must_have_met(CALL_UNPACK, 7, 9);
    must_have_met(CALL_UNPACK, 14, 14);
    must_have_met(CALL_UNPACK, 16, 16);
    must_have_met(CALL_PACK, 9, 9);
    must_have_met(CALL_PACK, 14, 16);
    must_have_met(CALL_TABLES, 0, 14);
    for (enum call_name name = CALL_DECODE; name <= CALL_ADPCM; name++) {
        must_have_met(name, 0, 0);
        must_have_met(name, 14, 14);
        must_have_met(name, 16, 16);
    }
    must_have_met(CALL_PERIOD, 0, 0);
    must_have_met(CALL_PERIOD, 16, 16);
}

static uint64_t accepted_so_far(void)
{
    uint64_t accepted = 0;
    for (int name = 0; name < CALL_NAMES; name++)
        accepted += lent_seen(name, 0);
    return accepted;
}

static void run_group(const struct group *group)
{
    uint64_t calls = lent_calls(), accepted = accepted_so_far();
    lent_group(group->name);
    group->run();
    calls = lent_calls() - calls;
    accepted = accepted_so_far() - accepted;
    printf("%-42s %8llu calls, %8llu refused\n", group->name, (unsigned long long)calls, (unsigned long long)(calls - accepted));
    fflush(stdout);
}

static void say_numbers(enum call_name name)
{
    printf("%-11s by refusal number:", call_text(name));
    for (unsigned number = 0; number <= 16; number++)
        if (lent_seen(name, number) > 0)
            printf(" %u:%llu", number, (unsigned long long)lent_seen(name, number));
    printf("\n");
}

int main(int argc, char **argv)
{
    const char *dump = "compare-failed.bin";
    if (argc == 3 && strcmp(argv[1], "--dump") == 0) {
        dump = argv[2];
    } else if (argc != 1) {
        fprintf(stderr, "usage: compare [--dump FILE]\n");
        return 2;
    }
    lent_start(dump);
    for (size_t i = 0; i < COUNT(groups); i++)
        run_group(&groups[i]);
    must_have_met_all();
    for (int name = 0; name < CALL_NAMES; name++)
        say_numbers(name);
    printf("compare: %zu groups, %llu calls, 0 differences\n", COUNT(groups), (unsigned long long)lent_calls());
    return 0;
}
