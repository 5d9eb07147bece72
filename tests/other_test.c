/* other_test.c: what another decoder makes of the same bytes. Modules with ADPCM samples and plain ones of both widths, their data by
   chance, are loaded by libxmp, which shares nothing with this project; each of its samples has the values that the library gives, by
   the tables and by the kind and the length in the sample's header. */

#include "../include/fiddlemarsh.h"
#include "modules.h"

#include <stdbool.h>
#include <stdio.h>
#include <stdlib.h>
#include <string.h>
#include <xmp.h>

enum { ROUNDS = 400, SAMPLES = 16, LENGTH_MOST = 3000, HEADERS = 336 + 9 + 263, ROOM = HEADERS + SAMPLES * (40 + LENGTH_MOST) };

static uint8_t file[ROOM];
static uint32_t instruments[FIDDLEMARSH_INSTRUMENT_NUMBERS], samples[FIDDLEMARSH_SAMPLE_NUMBERS * SAMPLES];
static int8_t tunes[FIDDLEMARSH_SAMPLE_TUNES * SAMPLES];

static void put(size_t place, uint32_t width, uint32_t number)
{
    field_put(file, (struct field){(uint32_t)place, width}, number);
}

/* A module of one empty pattern and one instrument, in the form that players insist on. Returns its length. */
static size_t make_module(uint32_t count, struct chance *chance)
{
    memset(file, 0, HEADERS + (size_t)count * 40);
    memcpy(file, "Extended Module: ", 17);
    memcpy(file + 38, "FastTracker v2.00   ", 20);
    put(37, 1, 0x1A), put(58, 2, 0x0104), put(60, 4, 276);
    put(64, 2, 1), put(68, 2, 4), put(70, 2, 1), put(72, 2, 1), put(74, 2, 1), put(76, 2, 6), put(78, 2, 125);
    put(336, 4, 9), put(341, 2, 64);
    put(345, 4, 263), put(372, 2, count), put(374, 4, 40);
    size_t data = HEADERS + (size_t)count * 40;
    for (uint32_t i = 0; i < count; i++) {
        size_t header = HEADERS + (size_t)i * 40;
        bool adpcm = chance_percent(chance, 60), wide = !adpcm && chance_percent(chance, 50);
        uint32_t length = chance_percent(chance, 10) ? 0 : chance_between(chance, 1, LENGTH_MOST) & ~(uint32_t)wide;
        size_t bytes = adpcm && length > 0 ? 16 + (length + 1) / 2 : length;
        put(header, 4, length), put(header + 12, 1, 64), put(header + 14, 1, wide ? 16 : 0), put(header + 15, 1, 128);
        put(header + 17, 1, adpcm ? 0xAD : 0);
        for (; bytes > 0; bytes--)
            file[data++] = (uint8_t)chance_next(chance);
    }
    return data;
}

static void give_up(const char *what, uint32_t number)
{
    fprintf(stderr, "DIFFERENCE: %s, sample %u\n", what, (unsigned)number);
    exit(1);
}

static int16_t other_value(const struct xmp_sample *sample, uint32_t i)
{
    int16_t value;
    if (!(sample->flg & XMP_SAMPLE_16BIT))
        return (int8_t)sample->data[i];
    memcpy(&value, sample->data + 2 * (size_t)i, sizeof value);
    return value;
}

/* Returns how many values were compared. */
static uint32_t compare_sample(const struct xmp_sample *other, uint32_t number)
{
    static int16_t values[LENGTH_MOST];
    const uint32_t *row = samples + number * FIDDLEMARSH_SAMPLE_NUMBERS;
    const uint8_t *data = file + row[FIDDLEMARSH_SAMPLE_DATA_PLACE];
    uint32_t bytes = row[FIDDLEMARSH_SAMPLE_LENGTH], header_size = fiddlemarsh_sample_header_size(instruments, samples);
    uint64_t answer = fiddlemarsh_sample_is_adpcm(file, row, header_size)
                          ? fiddlemarsh_adpcm(fiddlemarsh_sample_header_length(file, row, header_size), data, bytes, values, LENGTH_MOST)
                          : fiddlemarsh_decode(row[FIDDLEMARSH_SAMPLE_WIDTH], data, bytes, values, LENGTH_MOST);
    uint32_t count = fiddlemarsh_decoded_values(answer);
    if (fiddlemarsh_refused(answer) || other->len < 0 || (uint32_t)other->len != count)
        give_up("another number of values", number);
    for (uint32_t i = 0; i < count; i++)
        if (other_value(other, i) != values[i])
            give_up("another value", number);
    return count;
}

static uint32_t compare_module(size_t length, uint32_t count)
{
    uint32_t patterns[FIDDLEMARSH_PATTERN_NUMBERS], compared = 0;
    struct xmp_module_info info;
    xmp_context context = xmp_create_context();
    uint64_t end = fiddlemarsh_tables(file, length, patterns, FIDDLEMARSH_PATTERN_NUMBERS, instruments, FIDDLEMARSH_INSTRUMENT_NUMBERS,
                                      samples, FIDDLEMARSH_SAMPLE_NUMBERS * SAMPLES, tunes, FIDDLEMARSH_SAMPLE_TUNES * SAMPLES);
    if (end != length)
        give_up("the library does not take the module whole", 0);
    if (context == NULL || xmp_load_module_from_memory(context, file, (long)length) != 0)
        give_up("libxmp does not load the module", 0);
    xmp_get_module_info(context, &info);
    if (info.mod->ins != 1 || info.mod->xxi[0].nsm != (int)count)
        give_up("another number of samples", 0);
    for (uint32_t i = 0; i < count; i++)
        compared += compare_sample(&info.mod->xxs[info.mod->xxi[0].sub[i].sid], i);
    xmp_release_module(context);
    xmp_free_context(context);
    return compared;
}

int main(void)
{
    struct chance chance = {6001};
    unsigned long compared = 0;
    for (unsigned round = 0; round < ROUNDS; round++) {
        uint32_t count = chance_between(&chance, 1, SAMPLES);
        size_t length = make_module(count, &chance);
        compared += compare_module(length, count);
    }
    printf("other_test: libxmp %s gives the same %lu values\n", xmp_version, compared);
    return 0;
}
