/* modules.c: see modules.h. */

#include "modules.h"

#include <stdio.h>
#include <stdlib.h>
#include <string.h>

/* splitmix64: short, and good enough to meet every case */
uint64_t chance_next(struct chance *chance)
{
    uint64_t z = chance->state += 0x9E3779B97F4A7C15u;
    z = (z ^ z >> 30) * 0xBF58476D1CE4E5B9u;
    z = (z ^ z >> 27) * 0x94D049BB133111EBu;
    return z ^ z >> 31;
}

uint32_t chance_below(struct chance *chance, uint32_t limit)
{
    return (uint32_t)((chance_next(chance) >> 32) * limit >> 32);
}

uint32_t chance_between(struct chance *chance, uint32_t least, uint32_t most)
{
    return least + chance_below(chance, most - least + 1);
}

bool chance_percent(struct chance *chance, uint32_t percent)
{
    return chance_below(chance, 100) < percent;
}

static uint32_t chance_pick(struct chance *chance, const uint32_t *choices, size_t count)
{
    return choices[chance_below(chance, (uint32_t)count)];
}

#define PICK(chance, ...) \
    chance_pick(chance, (const uint32_t[]){__VA_ARGS__}, sizeof((const uint32_t[]){__VA_ARGS__}) / sizeof(uint32_t))

/* Writing bytes */

static void *grow(void *memory, size_t size)
{
    void *grown = realloc(memory, size);
    if (grown == NULL) {
        fprintf(stderr, "out of memory: %zu bytes\n", size);
        exit(2);
    }
    return grown;
}

static uint8_t *module_extend(struct module *module, size_t count)
{
    if (module->room - module->length < count) {
        module->room = 2 * module->room + count;
        module->bytes = grow(module->bytes, module->room);
    }
    uint8_t *from = module->bytes + module->length;
    module->length += count;
    return from;
}

static void note_field(struct module *module, size_t place, uint32_t width)
{
    if (module->field_count == module->field_room) {
        module->field_room = 2 * module->field_room + 64;
        module->fields = grow(module->fields, module->field_room * sizeof *module->fields);
    }
    module->fields[module->field_count++] = (struct field){(uint32_t)place, width};
}

uint32_t field_get(const uint8_t *bytes, struct field field)
{
    uint32_t number = 0;
    for (uint32_t i = 0; i < field.width; i++)
        number |= (uint32_t)bytes[field.place + i] << 8 * i;
    return number;
}

void field_put(uint8_t *bytes, struct field field, uint32_t number)
{
    for (uint32_t i = 0; i < field.width; i++)
        bytes[field.place + i] = (uint8_t)(number >> 8 * i);
}

/* Sets a field of what is written already, and notes it. */
static void put_field(struct module *module, size_t place, uint32_t width, uint32_t number)
{
    note_field(module, place, width);
    field_put(module->bytes, (struct field){(uint32_t)place, width}, number);
}

/* The same of a structure that ends behind 'size' bytes: what is beyond is not written. */
static void put_cut_field(struct module *module, size_t start, uint32_t size, uint32_t offset, uint32_t width, uint32_t number)
{
    if (offset + width <= size)
        put_field(module, start + offset, width, number);
    else if (offset < size)
        field_put(module->bytes, (struct field){(uint32_t)start + offset, size - offset}, number);
}

static void fill_noise(uint8_t *to, size_t count, struct chance *chance)
{
    while (count >= 8) {
        uint64_t noise = chance_next(chance);
        memcpy(to, &noise, 8);
        to += 8;
        count -= 8;
    }
    for (; count > 0; count--)
        *to++ = (uint8_t)chance_next(chance);
}

void module_put_noise(struct module *module, size_t count, struct chance *chance)
{
    if (count > 0)
        fill_noise(module_extend(module, count), count, chance);
}

/* Cells */

void cells_by_chance(uint8_t *cells, size_t count, uint32_t percent, struct chance *chance)
{
    for (size_t i = 0; i < 5 * count; i++)
        cells[i] = chance_percent(chance, percent) ? (uint8_t)chance_between(chance, 1, 255) : 0;
}

static unsigned needed_mask(const uint8_t *cell)
{
    unsigned mask = 0;
    for (unsigned field = 0; field < 5; field++)
        mask |= (unsigned)(cell[field] != 0) << field;
    return mask;
}

static void put_marked(struct module *module, const uint8_t *cell, unsigned mask, unsigned high_bits)
{
    *module_extend(module, 1) = (uint8_t)(128 | high_bits | mask);
    for (unsigned field = 0; field < 5; field++)
        if (mask >> field & 1)
            *module_extend(module, 1) = cell[field];
}

/* A note from 128 up would be read as a marked cell's lead byte. */
static bool can_be_plain(const uint8_t *cell)
{
    return cell[0] < 128;
}

static void put_cell_any_form(struct module *module, const uint8_t *cell, struct chance *chance)
{
    unsigned high_bits = PICK(chance, 0, 0, 32, 64, 96);
    switch (chance_between(chance, can_be_plain(cell) ? 0 : 1, 3)) {
    case 0:
        memcpy(module_extend(module, 5), cell, 5);
        break;
    case 1:
        put_marked(module, cell, needed_mask(cell) | chance_below(chance, 32), high_bits);
        break;
    case 2:
        put_marked(module, cell, needed_mask(cell), high_bits);
        break;
    default:
        put_marked(module, cell, needed_mask(cell), 0);
    }
}

static void put_cell_shortest(struct module *module, const uint8_t *cell)
{
    if (needed_mask(cell) == 31 && can_be_plain(cell))
        memcpy(module_extend(module, 5), cell, 5);
    else
        put_marked(module, cell, needed_mask(cell), 0);
}

/* What trackers write: mostly a note with an instrument, often a volume, now and then an effect. */
static void cell_as_composed(uint8_t *cell, struct chance *chance)
{
    memset(cell, 0, 5);
    uint32_t sort = chance_below(chance, 10);
    if (sort < 7) {
        cell[0] = (uint8_t)chance_between(chance, 1, 97);
        cell[1] = (uint8_t)chance_between(chance, 1, 32);
    }
    if (sort >= 5 && sort < 9)
        cell[2] = (uint8_t)chance_between(chance, 16, 80);
    if (sort >= 8 || chance_percent(chance, 25)) {
        cell[3] = (uint8_t)chance_between(chance, 1, 15);
        cell[4] = (uint8_t)chance_between(chance, 0, 255);
    }
}

static void put_cells_composed(struct module *module, size_t count, size_t limit, bool sparse, struct chance *chance)
{
    uint8_t cell[5];
    while (count > 0) {
        /* runs of empty cells of 1 to 15, eight on average, behind groups of one to three */
        uint32_t empty = sparse ? chance_between(chance, 1, 15) : (uint32_t)chance_percent(chance, 10);
        for (; empty > 0 && count > 0; empty--, count--)
            *module_extend(module, 1) = 128;
        uint32_t full = sparse ? chance_between(chance, 1, 3) : chance_between(chance, 4, 16);
        for (; full > 0 && count > 0; full--, count--) {
            cell_as_composed(cell, chance);
            if (module->length + 5 + count > limit)
                memset(cell, 0, 5);
            put_cell_shortest(module, cell);
        }
    }
}

void module_put_cells(struct module *module, size_t count, int cells, struct chance *chance)
{
    size_t limit = module->length + 65535;
    if (cells == CELLS_NONE)
        return;
    if (cells == CELLS_DENSE || cells == CELLS_SPARSE) {
        put_cells_composed(module, count, limit, cells == CELLS_SPARSE, chance);
        return;
    }
    uint32_t percent = cells == CELLS_EMPTY ? 0 : PICK(chance, 5, 20, 50, 80, 95, 100);
    for (; count > 0; count--) {
        uint8_t cell[5];
        cells_by_chance(cell, 1, percent, chance);
        if (module->length + 6 + count > limit)
            *module_extend(module, 1) = 128;
        else
            put_cell_any_form(module, cell, chance);
    }
}

/* Structures */

static void put_header(struct module *module, const struct shape *shape, struct chance *chance)
{
    uint32_t size = shape->stripped ? 20 + shape->song_length : 276;
    size += chance_between(chance, 0, shape->header_extra_most);
    module_put_noise(module, 60 + size, chance);
    put_field(module, 37, 1, shape->stripped ? 0 : 0x1A);
    put_field(module, 58, 2, shape->stripped ? 0 : 0x0104);
    put_field(module, 60, 4, size);
    put_field(module, 64, 2, shape->song_length);
    put_field(module, 66, 2, shape->restart);
    put_field(module, 68, 2, shape->channels);
    put_field(module, 70, 2, shape->patterns);
    put_field(module, 72, 2, shape->instruments);
}

static uint32_t rows_by_chance(uint32_t most, struct chance *chance)
{
    uint32_t rows = PICK(chance, 1, 2, 3, 16, 32, 63, 64, 64, 64, 65, 128, 255, 256);
    return rows <= most ? rows : chance_between(chance, 1, most);
}

static void put_pattern(struct module *module, const struct shape *shape, struct chance *chance)
{
    size_t start = module->length;
    uint32_t header_length = 9 + chance_between(chance, 0, shape->pattern_extra_most);
    uint32_t rows = shape->rows != 0 ? shape->rows : rows_by_chance(shape->rows_most, chance);
    int cells = shape->cells >= 0 ? shape->cells
                                  : (int)PICK(chance, CELLS_EVERY_FORM, CELLS_EVERY_FORM, CELLS_EVERY_FORM, CELLS_EMPTY,
                                              CELLS_NONE, CELLS_DENSE, CELLS_SPARSE);
    module_put_noise(module, header_length, chance);
    module_put_cells(module, (size_t)rows * shape->channels, cells, chance);
    put_field(module, start, 4, header_length);
    put_field(module, start + 5, 2, rows);
    put_field(module, start + 7, 2, (uint32_t)(module->length - start - header_length));
    if (module->length > start + header_length)
        note_field(module, start + header_length, 1);
}

static uint32_t smaller(uint32_t a, uint32_t b)
{
    return a < b ? a : b;
}

/* Bytes of a structure, whose content ends at 'content': all noise, or by chance with zeros at the content's end, and noise behind.
   Returns how many bytes of the content are there and not such zeros. */
static uint32_t put_structure(struct module *module, const struct shape *shape, uint32_t size, uint32_t content, struct chance *chance)
{
    uint32_t most = smaller(size, content), kept = most;
    if (shape->zeros_percent > 0 && chance_percent(chance, shape->zeros_percent))
        kept = chance_between(chance, 0, most);
    module_put_noise(module, kept < most ? kept : size, chance);
    if (kept < most) {
        memset(module_extend(module, most - kept), 0, most - kept);
        module_put_noise(module, size - most, chance);
    }
    return kept;
}

static void put_loop(struct module *module, size_t header, uint32_t kept, uint32_t length, uint32_t type, struct chance *chance)
{
    uint32_t loop_bits = type & 3, whole = type & 16 ? ~(uint32_t)1 : ~(uint32_t)0; /* 16-bit samples loop by two bytes */
    uint32_t loop_start = (uint32_t)chance_next(chance);
    uint32_t loop_length = (uint32_t)chance_next(chance);
    if (loop_bits != 0 && chance_percent(chance, 20)) {
        loop_length = 0; /* doesn't loop, whatever the start */
    } else if (loop_bits != 0) {
        loop_start = chance_between(chance, 0, length) & whole;
        loop_length = chance_percent(chance, 50) ? length - loop_start : chance_between(chance, 0, length - loop_start) & whole;
    }
    put_cut_field(module, header, kept, 4, 4, loop_start);
    put_cut_field(module, header, kept, 8, 4, loop_length);
}

static uint32_t adpcm_bytes(uint32_t length)
{
    return length == 0 ? 0 : 16 + (length + 1) / 2;
}

/* The part of a number that its first bytes hold. */
static uint32_t cut_number(uint32_t number, uint32_t bytes)
{
    return bytes >= 4 ? number : number & ((1u << 8 * bytes) - 1);
}

/* Of 'size' bytes; what is not kept of them, and what is cut off, reads as 0. Returns the bytes of the sample's data. */
static uint32_t put_sample_header(struct module *module, const struct shape *shape, uint32_t size, struct chance *chance)
{
    size_t start = module->length;
    uint32_t kept = put_structure(module, shape, size, 40, chance);
    uint32_t loop_bits = PICK(chance, 0, 0, 1, 2);
    uint32_t type = ((uint32_t)chance_next(chance) & 0xFC) | loop_bits; /* the other bits are kept */
    bool adpcm = chance_percent(chance, shape->adpcm_percent) && kept > 17;
    if (kept <= 14)
        type = 0;
    if (adpcm)
        type &= ~(uint32_t)16;
    uint32_t length = chance_between(chance, shape->sample_length_least, shape->sample_length_most);
    if (chance_percent(chance, 15) && shape->sample_length_least == 0)
        length = 0;
    if (type & 16)
        length &= ~(uint32_t)1;
    length = cut_number(length, kept);
    put_cut_field(module, start, kept, 0, 4, length);
    put_loop(module, start, kept, length, type, chance);
    put_cut_field(module, start, kept, 14, 1, type);
    put_cut_field(module, start, kept, 17, 1, adpcm ? 0xAD : PICK(chance, 0, 0, 0xAC, 0xAE, 0xDA, 0x2D, 255));
    return adpcm ? adpcm_bytes(length) : length;
}

/* Around each field's limits, and anywhere. With samples at least the byte is there that counts them. */
static uint32_t stripped_size(uint32_t samples, struct chance *chance)
{
    if (chance_percent(chance, 20))
        return chance_between(chance, samples > 0 ? 28 : 4, 300);
    if (samples == 0)
        return PICK(chance, 4, 4, 5, 25, 26, 27, 28, 29, 30, 33, 34, 241, 263);
    return PICK(chance, 28, 28, 29, 30, 31, 32, 33, 34, 128, 129, 130, 225, 239, 240, 241, 242, 263, 264);
}

/* Around each field's limits, and anywhere; 0 where I cuts it off, and below 256 where it leaves one byte of it. */
static uint32_t stripped_header_size(uint32_t size, struct chance *chance)
{
    if (size <= 29)
        return 0;
    if (size > 30 && chance_percent(chance, 5))
        return chance_between(chance, 250, 300);
    if (chance_percent(chance, 20))
        return chance_between(chance, 0, 60);
    return PICK(chance, 0, 0, 1, 2, 3, 4, 5, 12, 13, 14, 15, 16, 17, 18, 19, 39, 40, 41);
}

static void put_instrument(struct module *module, const struct shape *shape, struct chance *chance)
{
    size_t start = module->length;
    uint32_t samples = chance_between(chance, shape->samples_least, shape->samples_most);
    uint32_t size = shape->stripped ? stripped_size(samples, chance)
                                    : (samples > 0 ? 263 : 29) + chance_between(chance, 0, shape->instrument_extra_most);
    uint32_t header_size = shape->stripped ? stripped_header_size(size, chance)
                                           : 40 + chance_between(chance, 0, shape->sample_header_extra_most);
    put_structure(module, shape, size, samples > 0 ? 241 : 29, chance);
    put_field(module, start, 4, size);
    put_cut_field(module, start, size, 27, 2, samples);
    if (samples > 0)
        put_cut_field(module, start, size, 29, 4, header_size);
    size_t data = 0;
    for (uint32_t i = 0; i < samples; i++)
        data += put_sample_header(module, shape, header_size, chance);
    module_put_noise(module, data, chance);
}

void module_build(struct module *module, const struct shape *shape, struct chance *chance)
{
    module->length = 0;
    module->field_count = 0;
    put_header(module, shape, chance);
    for (uint32_t i = 0; i < shape->patterns; i++)
        put_pattern(module, shape, chance);
    for (uint32_t i = 0; i < shape->instruments; i++)
        put_instrument(module, shape, chance);
    module_put_noise(module, chance_between(chance, 0, shape->trailing_most), chance);
}

void module_free(struct module *module)
{
    free(module->bytes);
    free(module->fields);
    *module = (struct module){0};
}

struct shape shape_by_chance(struct chance *chance, bool large)
{
    struct shape shape = {0};
    shape.song_length = PICK(chance, 1, 1, 2, 8, 127, 128, 255, 256);
    shape.restart = PICK(chance, 0, 1, shape.song_length - 1, shape.song_length, shape.song_length + 1, 256, 65535);
    shape.channels = large ? PICK(chance, 1, 4, 31, 32, 33, 42, 43, 63, 64) : PICK(chance, 1, 1, 2, 3, 4, 8);
    shape.patterns = large ? PICK(chance, 1, 2, 5, 255, 256) : PICK(chance, 1, 1, 2, 3, 5);
    shape.instruments = large ? PICK(chance, 0, 1, 16, 127, 128) : PICK(chance, 0, 0, 1, 2, 3);
    shape.header_extra_most = PICK(chance, 0, 0, 1, 60);
    shape.pattern_extra_most = PICK(chance, 0, 0, 1, 20);
    shape.rows_most = shape.patterns > 100 ? 65 : large ? 256 : PICK(chance, 4, 66, 256);
    shape.cells = -1;
    shape.samples_least = PICK(chance, 0, 0, 0, 1);
    shape.samples_most = large ? PICK(chance, 1, 15, 16) : PICK(chance, 1, 1, 2, 3, 16);
    shape.instrument_extra_most = PICK(chance, 0, 0, 4, 250);
    shape.sample_header_extra_most = PICK(chance, 0, 0, 1, 25);
    shape.sample_length_most = PICK(chance, 0, 1, 9, 100, 1000);
    shape.adpcm_percent = PICK(chance, 0, 0, 30, 100);
    shape.trailing_most = PICK(chance, 0, 0, 1, 30);
    return shape;
}

struct shape kind_by_chance(struct chance *chance, bool large, bool stripped)
{
    struct shape shape = shape_by_chance(chance, large);
    shape.stripped = stripped;
    shape.instruments = large ? shape.instruments : PICK(chance, 0, 1, 2, 3, 5);
    shape.zeros_percent = PICK(chance, 0, 30, 80, 100);
    return shape;
}
