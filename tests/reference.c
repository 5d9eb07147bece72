/* reference.c: the rules in plain C, written from the rules paper alone. See reference.h.

   A call that writes reads its input twice: the first pass decides every refusal and measures, the second writes. */

#include "reference.h"

#include <stdbool.h>
#include <string.h>

enum {
    FILE_MOST = 16777216,
    HEADER_FIXED = 80,      /* the header's bytes in front of the order table */
    HEADER_SIZE_FROM = 60,  /* header size counts from here */
    HEADER_SIZE_LEAST = 276,
    HEADER_SIZE_STRIPPED = 20, /* the least of a stripped module, and its song length */
    PATTERN_HEADER = 9,
    PATTERNS_MOST = 256,
    ROWS_MOST = 256,
    CHANNELS_MOST = 64,
    DATA_MOST = 65535,
    CELL = 5,
    EMPTY_CELL = 128,       /* the lead byte of a marked cell without fields */
    INSTRUMENTS_MOST = 128,
    INSTRUMENT_LEAST = 29,  /* with no samples */
    INSTRUMENT_FULL = 263,  /* with samples */
    INSTRUMENT_STRIPPED = 4, /* the least of a stripped module */
    INSTRUMENT_FIELDS = 33, /* note map, envelopes and the rest, up to the reserved bytes */
    INSTRUMENT_RESERVED = 241,
    SAMPLES_MOST = 16,
    SAMPLE_HEADER = 40,
    KIND_ADPCM = 0xAD,
    DELTA_TABLE = 16        /* in front of an ADPCM sample's indexes */
};

static const char id_text[] = "Extended module: ";

static inline uint32_t number16(const uint8_t *from)
{
    return (uint32_t)from[0] | (uint32_t)from[1] << 8;
}

static inline uint32_t number32(const uint8_t *from)
{
    return number16(from) | number16(from + 2) << 16;
}

static inline void put16(uint8_t *to, uint32_t number)
{
    to[0] = (uint8_t)number;
    to[1] = (uint8_t)(number >> 8);
}

static inline void put32(uint8_t *to, uint32_t number)
{
    put16(to, number);
    put16(to + 2, number >> 16);
}

static inline struct reference_refusal refuse(uint32_t number, size_t place)
{
    return (struct reference_refusal){number, (uint32_t)place};
}

static const struct reference_refusal accepted = {0, 0};

/* Cells as they are stored

   Which fields a cell has is as good as random, and a branch on it costs more than the cell's whole work. So these functions
   choose numbers, not ways: a field that is absent is read at the lead byte, and made 0. */

static inline bool is_marked(uint8_t lead)
{
    return lead >= 128;
}

/* Bit by bit which of the five fields are stored. */
static inline unsigned stored_mask(uint8_t lead)
{
    return is_marked(lead) ? lead & 31 : 31;
}

/* Where the first field stands: a plain lead byte is itself the note. */
static inline size_t first_field(uint8_t lead)
{
    return is_marked(lead);
}

/* Bytes that a cell takes, by its lead byte: five if plain, else one and the ones in the low five bits. Every cell's place hangs
   on the cell before, so this is one table and no sum. */
#define PLAIN_16 5, 5, 5, 5, 5, 5, 5, 5, 5, 5, 5, 5, 5, 5, 5, 5
#define MARKED_32 1, 2, 2, 3, 2, 3, 3, 4, 2, 3, 3, 4, 3, 4, 4, 5, 2, 3, 3, 4, 3, 4, 4, 5, 3, 4, 4, 5, 4, 5, 5, 6

static const uint8_t stored_lengths[256] = {PLAIN_16, PLAIN_16, PLAIN_16, PLAIN_16, PLAIN_16, PLAIN_16, PLAIN_16, PLAIN_16,
                                            MARKED_32, MARKED_32, MARKED_32, MARKED_32};

static inline size_t stored_length(uint8_t lead)
{
    return stored_lengths[lead];
}

/* The field that stands at a place of a whole cell if it is there, else 0. */
static inline uint8_t stored_field(const uint8_t *stored, size_t place, unsigned there)
{
    return (uint8_t)(stored[place * there] * there);
}

/* Reads a whole cell into five bytes and returns what it takes. */
static inline size_t read_cell(const uint8_t *stored, uint8_t *cell)
{
    unsigned mask = stored_mask(stored[0]);
    size_t place = first_field(stored[0]);
    for (unsigned field = 0; field < CELL; field++) {
        unsigned there = mask >> field & 1;
        cell[field] = stored_field(stored, place, there);
        place += there;
    }
    return stored_length(stored[0]);
}

static inline unsigned fields_used(const uint8_t *cell)
{
    unsigned used = 0;
    for (unsigned field = 0; field < CELL; field++)
        used += cell[field] != 0;
    return used;
}

/* A note from 128 up cannot lead its cell: it would be read as marked. */
static inline bool can_lead(uint8_t note)
{
    return !is_marked(note);
}

/* A marked cell takes its lead byte too; five fields are shorter plain, if the note can lead them. */
static inline size_t shortest_length(const uint8_t *cell)
{
    unsigned used = fields_used(cell);
    return used == CELL && can_lead(cell[0]) ? CELL : 1 + used;
}

/* Writes a cell in its shortest form and returns what it takes. May write a 0 behind that, if 'spare' says there is room. */
static inline size_t write_cell(const uint8_t *cell, uint8_t *out, bool spare)
{
    unsigned mask = 0;
    for (unsigned field = 0; field < CELL; field++)
        mask |= (unsigned)(cell[field] != 0) << field;
    if (mask == 31 && can_lead(cell[0])) {
        memcpy(out, cell, CELL);
        return CELL;
    }
    out[0] = (uint8_t)(EMPTY_CELL | mask);
    size_t to = 1;
    for (unsigned field = 0; field < CELL; field++) {
        if (spare || cell[field] != 0)
            out[to] = cell[field];
        to += cell[field] != 0;
    }
    return to;
}

struct scan {
    struct reference_refusal refusal; /* its place counts from the data's start */
    size_t shortest;                  /* bytes of all cells, each in its shortest form, if measured */
};

static inline struct scan scan_refused(uint32_t number, size_t place)
{
    return (struct scan){refuse(number, place), 0};
}

/* Tries every cell for 7, and what is left for 8. 'measure' is always a constant: two loops come of it. */
static inline struct scan scan_cells(const uint8_t *data, size_t size, size_t count, bool measure)
{
    size_t at = 0;
    size_t shortest = 0;
    for (size_t cell = 0; cell < count; cell++) {
        if (at == size)
            return scan_refused(7, at);
        if (data[at] == EMPTY_CELL) { /* four in five, and in runs */
            at++;
            shortest++;
            continue;
        }
        size_t length = stored_length(data[at]);
        if (length > size - at)
            return scan_refused(7, at);
        if (measure) {
            uint8_t fields[CELL];
            read_cell(data + at, fields);
            shortest += shortest_length(fields);
        }
        at += length;
    }
    if (at < size)
        return scan_refused(8, at);
    return (struct scan){accepted, shortest};
}

/* The parts of a file */

struct header {
    bool stripped;
    uint32_t size;
    uint32_t song_length;
    uint32_t channels;
    uint32_t patterns;
    uint32_t instruments;
};

struct pattern {
    size_t data;
    uint32_t size;
    uint32_t rows;
    uint32_t stored; /* bytes in its shortest stored form, if measured */
};

struct instrument {
    size_t headers; /* of its samples */
    size_t data;
    size_t end;
    uint32_t header_size;
    uint32_t samples;
};

struct sample {
    uint32_t length;
    uint32_t loop_start;
    uint32_t loop_length;
    int8_t finetune;
    uint8_t type;
    int8_t relative_note;
    uint8_t kind;
};

/* Mark and version of a normal module, and of a stripped one. */
static bool is_normal(const uint8_t *file)
{
    return file[37] == 0x1A && number16(file + 58) == 0x0104;
}

static bool is_stripped(const uint8_t *file)
{
    return file[37] == 0 && number16(file + 58) == 0;
}

static struct header header_fields(const uint8_t *file)
{
    return (struct header){.stripped = is_stripped(file),
                           .size = number32(file + 60),
                           .song_length = number16(file + 64),
                           .channels = number16(file + 68),
                           .patterns = number16(file + 70),
                           .instruments = number16(file + 72)};
}

static bool counts_fit(const struct header *header)
{
    return header->song_length >= 1 && header->song_length <= 256 &&
           header->patterns >= 1 && header->patterns <= PATTERNS_MOST &&
           header->channels >= 1 && header->channels <= CHANNELS_MOST &&
           header->instruments <= INSTRUMENTS_MOST;
}

/* Of a stripped module by the song length as it stands, which is not tried before. */
static uint32_t header_size_least(bool stripped, uint32_t song_length)
{
    return stripped ? HEADER_SIZE_STRIPPED + song_length : HEADER_SIZE_LEAST;
}

static struct reference_refusal try_header(const uint8_t *file, size_t file_len, struct header *header)
{
    if (file_len > FILE_MOST)
        return refuse(2, 0);
    if (file_len < HEADER_FIXED)
        return refuse(1, 0);
    if (!is_normal(file) && !is_stripped(file))
        return refuse(3, 0);
    *header = header_fields(file);
    if (header->size < header_size_least(header->stripped, header->song_length))
        return refuse(4, 0);
    if (!counts_fit(header))
        return refuse(5, 0);
    if (header->size > file_len - HEADER_SIZE_FROM)
        return refuse(1, 0);
    return accepted;
}

/* A pattern of an accepted file, or of one known so far to be whole up to this pattern's end. */
static inline struct pattern pattern_fields(const uint8_t *file, size_t at)
{
    return (struct pattern){.data = at + number32(file + at),
                            .size = number16(file + at + 7),
                            .rows = number16(file + at + 5)};
}

/* A pattern of empty cells alone is stored in no bytes; a cell takes one byte exactly when it is empty. */
static uint32_t pattern_stored(size_t cells, size_t shortest)
{
    return shortest == cells ? 0 : (uint32_t)shortest;
}

static inline struct reference_refusal try_pattern(const uint8_t *file, size_t file_len, size_t at, uint32_t channels,
                                                   bool measure, struct pattern *pattern)
{
    if (file_len - at < PATTERN_HEADER)
        return refuse(1, at);
    uint32_t header_length = number32(file + at);
    uint32_t rows = number16(file + at + 5);
    if (header_length < PATTERN_HEADER || rows < 1 || rows > ROWS_MOST)
        return refuse(6, at);
    *pattern = pattern_fields(file, at);
    if ((uint64_t)header_length + pattern->size > file_len - at)
        return refuse(1, at);
    if (pattern->size == 0)
        return accepted;
    size_t cells = pattern->rows * channels;
    struct scan scan = scan_cells(file + pattern->data, pattern->size, cells, measure);
    if (scan.refusal.number != 0)
        return refuse(scan.refusal.number, pattern->data + scan.refusal.place);
    pattern->stored = pattern_stored(cells, scan.shortest);
    return accepted;
}

/* Bytes of which some may be cut off, in a stripped module: those from 'size' on read as 0. Where nothing is cut off they are read
   where they stand, and nothing is copied. */
static inline const uint8_t *read_cut(const uint8_t *bytes, size_t size, uint8_t *copy, size_t wanted)
{
    if (size >= wanted)
        return bytes;
    memcpy(copy, bytes, size);
    memset(copy + size, 0, wanted - size);
    return copy;
}

static inline struct sample sample_fields(const uint8_t *header, size_t size)
{
    uint8_t copy[SAMPLE_HEADER];
    header = read_cut(header, size, copy, SAMPLE_HEADER);
    return (struct sample){.length = number32(header),
                           .loop_start = number32(header + 4),
                           .loop_length = number32(header + 8),
                           .finetune = (int8_t)header[13],
                           .type = header[14],
                           .relative_note = (int8_t)header[16],
                           .kind = header[17]};
}

static inline unsigned sample_width(uint8_t type)
{
    return type & 16 ? 16 : 8;
}

/* The bytes that a number of ADPCM values is stored in, two to a byte behind the table; none are stored in none. */
static uint64_t adpcm_bytes(uint64_t length)
{
    return length == 0 ? 0 : DELTA_TABLE + length / 2 + length % 2;
}

/* The bytes of a sample's data. Below 2^32 for every length. */
static uint32_t sample_bytes(const struct sample *sample)
{
    return sample->kind == KIND_ADPCM ? (uint32_t)adpcm_bytes(sample->length) : sample->length;
}

static bool sample_loops(const struct sample *sample)
{
    return sample->loop_length > 0 && (sample->type & 3) != 0;
}

/* The sum of loop start and loop length may need 33 bits. */
static uint64_t loop_end(const struct sample *sample)
{
    return (uint64_t)sample->loop_start + sample->loop_length;
}

static struct reference_refusal try_sample_header(const uint8_t *file, size_t at, size_t size)
{
    struct sample sample = sample_fields(file + at, size);
    if (sample.kind == KIND_ADPCM && sample_width(sample.type) == 16)
        return refuse(12, at);
    if ((sample.type & 3) == 3)
        return refuse(13, at);
    if (sample_width(sample.type) == 16 && sample.length % 2 != 0)
        return refuse(13, at);
    if (sample_loops(&sample) && loop_end(&sample) > sample.length)
        return refuse(13, at);
    if (sample_width(sample.type) == 16 && sample_loops(&sample) && sample.loop_start % 2 != 0)
        return refuse(13, at);
    if (sample_width(sample.type) == 16 && sample_loops(&sample) && sample.loop_length % 2 != 0)
        return refuse(13, at);
    return accepted;
}

/* An instrument's bytes, up to the reserved ones. Those of a normal module are there as far as they are content. */
static inline const uint8_t *instrument_bytes(const uint8_t *file, size_t at, bool stripped, uint8_t copy[INSTRUMENT_RESERVED])
{
    return stripped ? read_cut(file + at, number32(file + at), copy, INSTRUMENT_RESERVED) : file + at;
}

/* The parts of an instrument of which I bytes are known to be present, and all of its sample headers if it has any; its end is not
   known yet. */
static inline struct instrument instrument_fields(const uint8_t *file, size_t at, bool stripped)
{
    uint8_t copy[INSTRUMENT_RESERVED];
    const uint8_t *bytes = instrument_bytes(file, at, stripped, copy);
    uint32_t samples = number16(bytes + 27);
    uint32_t header_size = samples > 0 ? number32(bytes + 29) : 0;
    size_t headers = at + number32(file + at);
    size_t data = headers + (size_t)samples * header_size;
    return (struct instrument){headers, data, data, header_size, samples};
}

static inline size_t sample_header(const struct instrument *instrument, uint32_t number)
{
    return instrument->headers + (size_t)number * instrument->header_size;
}

static inline struct sample sample_of(const uint8_t *file, const struct instrument *instrument, uint32_t number)
{
    return sample_fields(file + sample_header(instrument, number), instrument->header_size);
}

static size_t samples_end(const uint8_t *file, const struct instrument *instrument)
{
    size_t end = instrument->data;
    for (uint32_t i = 0; i < instrument->samples; i++) {
        struct sample sample = sample_of(file, instrument, i);
        end += sample_bytes(&sample);
    }
    return end;
}

static struct reference_refusal try_samples(const uint8_t *file, size_t file_len, size_t at, struct instrument *instrument)
{
    if ((uint64_t)instrument->samples * instrument->header_size > file_len - instrument->headers)
        return refuse(1, at);
    for (uint32_t i = 0; i < instrument->samples; i++) {
        struct reference_refusal refusal = try_sample_header(file, sample_header(instrument, i), instrument->header_size);
        if (refusal.number != 0)
            return refusal;
    }
    for (uint32_t i = 0; i < instrument->samples; i++) {
        struct sample sample = sample_of(file, instrument, i);
        uint32_t bytes = sample_bytes(&sample);
        if (bytes > file_len - instrument->end)
            return refuse(1, instrument->end);
        instrument->end += bytes;
    }
    return accepted;
}

/* Of a stripped module: there is no 11. */
static struct reference_refusal try_stripped_instrument(const uint8_t *file, size_t file_len, size_t at, struct instrument *instrument)
{
    if (file_len - at < INSTRUMENT_STRIPPED)
        return refuse(1, at);
    if (number32(file + at) < INSTRUMENT_STRIPPED)
        return refuse(10, at);
    if (number32(file + at) > file_len - at)
        return refuse(1, at);
    *instrument = instrument_fields(file, at, true);
    if (instrument->samples > SAMPLES_MOST)
        return refuse(10, at);
    return try_samples(file, file_len, at, instrument);
}

static struct reference_refusal try_normal_instrument(const uint8_t *file, size_t file_len, size_t at, struct instrument *instrument)
{
    if (file_len - at < INSTRUMENT_LEAST)
        return refuse(1, at);
    uint32_t size = number32(file + at);
    uint32_t samples = number16(file + at + 27);
    if (size < INSTRUMENT_LEAST || samples > SAMPLES_MOST || (size < INSTRUMENT_FULL && samples > 0))
        return refuse(10, at);
    if (size > file_len - at)
        return refuse(1, at);
    *instrument = instrument_fields(file, at, false);
    if (samples > 0 && instrument->header_size < SAMPLE_HEADER)
        return refuse(11, at);
    return try_samples(file, file_len, at, instrument);
}

static struct reference_refusal try_instrument(const uint8_t *file, size_t file_len, size_t at, bool stripped,
                                               struct instrument *instrument)
{
    return stripped ? try_stripped_instrument(file, file_len, at, instrument) : try_normal_instrument(file, file_len, at, instrument);
}

/* The walk over a file */

struct walk {
    struct reference_checked checked;
    size_t pressed; /* the pressed file's length, if measured */
};

static struct walk walk_refused(struct reference_refusal refusal)
{
    return (struct walk){.checked = {.refusal = refusal}};
}

/* How many of the bytes are left if zeros at the end are cut off; 'least' of them always are. */
static size_t without_zeros(const uint8_t *bytes, size_t size, size_t least)
{
    while (size > least && bytes[size - 1] == 0)
        size--;
    return size;
}

/* The smallest H that cuts off nothing but zeros of any header. */
static uint32_t smallest_header(const uint8_t *file, const struct instrument *instrument)
{
    size_t smallest = 0;
    for (uint32_t i = 0; i < instrument->samples; i++) {
        uint8_t copy[SAMPLE_HEADER];
        const uint8_t *header = read_cut(file + sample_header(instrument, i), instrument->header_size, copy, SAMPLE_HEADER);
        smallest = without_zeros(header, SAMPLE_HEADER, smallest);
    }
    return (uint32_t)smallest;
}

/* An instrument's bytes in a stripped module, up to the reserved ones. H is chosen before I, since it is among what I may cut off;
   returns the smallest I. */
static uint32_t stripped_bytes(const uint8_t *file, size_t at, bool stripped, const struct instrument *instrument,
                               uint8_t to[INSTRUMENT_RESERVED])
{
    uint8_t copy[INSTRUMENT_RESERVED];
    const uint8_t *bytes = instrument_bytes(file, at, stripped, copy);
    memset(to, 0, INSTRUMENT_RESERVED);
    memcpy(to + 4, bytes + 4, INSTRUMENT_LEAST - 4);
    if (instrument->samples > 0) {
        put32(to + INSTRUMENT_LEAST, smallest_header(file, instrument));
        memcpy(to + INSTRUMENT_FIELDS, bytes + INSTRUMENT_FIELDS, INSTRUMENT_RESERVED - INSTRUMENT_FIELDS);
    }
    uint32_t size = (uint32_t)without_zeros(to, INSTRUMENT_RESERVED, INSTRUMENT_STRIPPED);
    put32(to, size);
    return size;
}

static size_t instrument_pressed(const uint8_t *file, size_t at, bool stripped, const struct instrument *instrument, bool to_stripped)
{
    uint8_t bytes[INSTRUMENT_RESERVED];
    size_t data = instrument->end - instrument->data;
    if (to_stripped)
        return stripped_bytes(file, at, stripped, instrument, bytes) + instrument->samples * smallest_header(file, instrument) + data;
    if (instrument->samples == 0)
        return INSTRUMENT_LEAST;
    return INSTRUMENT_FULL + instrument->samples * SAMPLE_HEADER + data;
}

/* 'to_stripped': which kind of file is measured, if any is. */
static inline struct walk walk_file(const uint8_t *file, size_t file_len, bool measure, bool to_stripped)
{
    struct header header;
    struct reference_refusal refusal = try_header(file, file_len, &header);
    if (refusal.number != 0)
        return walk_refused(refusal);
    size_t at = HEADER_SIZE_FROM + (size_t)header.size;
    size_t pressed = HEADER_SIZE_FROM + (size_t)header_size_least(to_stripped, header.song_length);
    for (uint32_t i = 0; i < header.patterns; i++) {
        struct pattern pattern;
        refusal = try_pattern(file, file_len, at, header.channels, measure, &pattern);
        if (refusal.number != 0)
            return walk_refused(refusal);
        pressed += PATTERN_HEADER + pattern.stored;
        at = pattern.data + pattern.size;
    }
    uint32_t samples = 0;
    for (uint32_t i = 0; i < header.instruments; i++) {
        struct instrument instrument;
        refusal = try_instrument(file, file_len, at, header.stripped, &instrument);
        if (refusal.number != 0)
            return walk_refused(refusal);
        if (measure)
            pressed += instrument_pressed(file, at, header.stripped, &instrument, to_stripped);
        samples += instrument.samples;
        at = instrument.end;
    }
    return (struct walk){{accepted, (uint32_t)at, header.channels, header.patterns, header.instruments, samples}, pressed};
}

REFERENCE_CALL struct reference_checked reference_check(const uint8_t *file, size_t file_len)
{
    return walk_file(file, file_len, false, false).checked;
}

/* Tables */

static size_t fill_pattern_rows(const uint8_t *file, size_t at, uint32_t patterns, struct reference_pattern_row *rows)
{
    for (uint32_t i = 0; i < patterns; i++) {
        struct pattern pattern = pattern_fields(file, at);
        rows[i] = (struct reference_pattern_row){(uint32_t)pattern.data, pattern.size, pattern.rows};
        at = pattern.data + pattern.size;
    }
    return at;
}

/* A loop's number in samples, not bytes; 0 of a sample that doesn't loop. */
static uint32_t loop_number(const struct sample *sample, uint32_t bytes)
{
    return sample_loops(sample) ? bytes / (sample_width(sample->type) / 8) : 0;
}

static void fill_sample_rows(const uint8_t *file, const struct instrument *instrument, struct reference_sample_row *rows)
{
    size_t data = instrument->data;
    for (uint32_t i = 0; i < instrument->samples; i++) {
        struct sample sample = sample_of(file, instrument, i);
        rows[i] = (struct reference_sample_row){.header_place = (uint32_t)sample_header(instrument, i),
                                                .data_place = (uint32_t)data,
                                                .length = sample_bytes(&sample),
                                                .width = sample_width(sample.type),
                                                .loop_kind = sample_loops(&sample) ? sample.type & 3 : 0,
                                                .loop_start = loop_number(&sample, sample.loop_start),
                                                .loop_length = loop_number(&sample, sample.loop_length),
                                                .finetune = sample.finetune,
                                                .relative_note = sample.relative_note};
        data += sample_bytes(&sample);
    }
}

static void fill_instrument_rows(const uint8_t *file, size_t at, uint32_t instruments, const struct reference_tables *tables)
{
    uint32_t samples = 0;
    for (uint32_t i = 0; i < instruments; i++) {
        struct instrument instrument = instrument_fields(file, at, is_stripped(file));
        tables->instruments[i] = (struct reference_instrument_row){(uint32_t)at, instrument.samples, samples};
        if (instrument.samples > 0)
            fill_sample_rows(file, &instrument, tables->samples + samples);
        samples += instrument.samples;
        at = samples_end(file, &instrument);
    }
}

REFERENCE_CALL struct reference_checked reference_check_tables(const uint8_t *file, size_t file_len,
                                                               const struct reference_tables *tables)
{
    struct reference_checked checked = reference_check(file, file_len);
    if (checked.refusal.number != 0)
        return checked;
    if (tables->pattern_room < checked.patterns || tables->instrument_room < checked.instruments ||
        tables->sample_room < checked.samples)
        return (struct reference_checked){.refusal = refuse(14, 0)};
    size_t at = HEADER_SIZE_FROM + (size_t)number32(file + 60);
    at = fill_pattern_rows(file, at, checked.patterns, tables->patterns);
    fill_instrument_rows(file, at, checked.instruments, tables);
    return checked;
}

/* Structures in file order */

/* Looks for the structure of a number, or for the first at or after a place; the other of the two lets everything pass. */
struct search {
    size_t place_least;
    size_t number_least;
    size_t number; /* of the structure that is met next */
};

static bool search_meets(struct search *search, size_t place)
{
    return search->number++ >= search->number_least && place >= search->place_least;
}

static struct reference_structure search_instruments(const uint8_t *file, size_t at, uint32_t instruments, struct search *search)
{
    bool stripped = is_stripped(file);
    for (uint32_t i = 0; i < instruments; i++) {
        struct instrument instrument = instrument_fields(file, at, stripped);
        if (search_meets(search, at))
            return (struct reference_structure){accepted, REFERENCE_INSTRUMENT, (uint32_t)at};
        for (uint32_t j = 0; j < instrument.samples; j++) {
            size_t header = sample_header(&instrument, j);
            if (search_meets(search, header))
                return (struct reference_structure){accepted, REFERENCE_SAMPLE_HEADER, (uint32_t)header};
        }
        at = samples_end(file, &instrument);
    }
    return (struct reference_structure){accepted, REFERENCE_END, 0};
}

static struct reference_structure search_file(const uint8_t *file, size_t file_len, struct search search)
{
    struct reference_checked checked = reference_check(file, file_len);
    if (checked.refusal.number != 0)
        return (struct reference_structure){checked.refusal, REFERENCE_END, 0};
    size_t at = HEADER_SIZE_FROM + (size_t)number32(file + 60);
    for (uint32_t i = 0; i < checked.patterns; i++) {
        if (search_meets(&search, at))
            return (struct reference_structure){accepted, REFERENCE_PATTERN, (uint32_t)at};
        struct pattern pattern = pattern_fields(file, at);
        at = pattern.data + pattern.size;
    }
    return search_instruments(file, at, checked.instruments, &search);
}

REFERENCE_CALL struct reference_structure reference_structure_from(const uint8_t *file, size_t file_len, size_t place)
{
    return search_file(file, file_len, (struct search){.place_least = place});
}

REFERENCE_CALL struct reference_structure reference_structure_at(const uint8_t *file, size_t file_len, size_t number)
{
    return search_file(file, file_len, (struct search){.number_least = number});
}

/* Unpacking and packing */

static bool rows_and_channels_fit(size_t rows, size_t channels)
{
    return rows >= 1 && rows <= ROWS_MOST && channels >= 1 && channels <= CHANNELS_MOST;
}

static void read_cells(const uint8_t *data, size_t count, uint8_t *cells)
{
    for (; count > 0; count--, cells += CELL) {
        if (data[0] == EMPTY_CELL) {
            memset(cells, 0, CELL);
            data++;
            continue;
        }
        data += read_cell(data, cells);
    }
}

REFERENCE_CALL struct reference_count reference_unpack(size_t rows, size_t channels, const uint8_t *data, size_t data_len,
                                                       uint8_t *cells, size_t cells_len)
{
    if (!rows_and_channels_fit(rows, channels) || data_len > DATA_MOST)
        return (struct reference_count){refuse(16, 0), 0};
    size_t count = rows * channels;
    if (data_len > 0) {
        struct scan scan = scan_cells(data, data_len, count, false);
        if (scan.refusal.number != 0)
            return (struct reference_count){scan.refusal, 0};
    }
    if (cells_len < count * CELL)
        return (struct reference_count){refuse(14, 0), 0};
    if (data_len == 0)
        memset(cells, 0, count * CELL);
    else
        read_cells(data, count, cells);
    return (struct reference_count){accepted, (uint32_t)rows};
}

/* The bytes of all cells, each in its shortest form. */
static size_t measure_cells(const uint8_t *cells, size_t count)
{
    size_t shortest = 0;
    for (; count > 0; count--, cells += CELL)
        shortest += shortest_length(cells);
    return shortest;
}

/* The last cell is the only one with perhaps no room behind it. */
static void write_cells(const uint8_t *cells, size_t count, uint8_t *out)
{
    for (; count > 1; count--, cells += CELL)
        out += write_cell(cells, out, true);
    write_cell(cells, out, false);
}

REFERENCE_CALL struct reference_packed reference_pack(size_t rows, size_t channels, const uint8_t *cells, size_t cells_len,
                                                      uint8_t *out, size_t out_len)
{
    if (!rows_and_channels_fit(rows, channels) || cells_len != rows * channels * CELL)
        return (struct reference_packed){.refusal = refuse(16, 0)};
    size_t count = rows * channels;
    uint32_t length = pattern_stored(count, measure_cells(cells, count));
    if (length > DATA_MOST)
        return (struct reference_packed){.refusal = refuse(15, 0)};
    if (length > out_len)
        return (struct reference_packed){.refusal = refuse(14, 0)};
    if (length > 0)
        write_cells(cells, count, out);
    return (struct reference_packed){accepted, length, (uint32_t)rows};
}

/* Pressing and converting */

/* What is written of a module: which kind, and whether with its tracker name. */
struct form {
    bool stripped;
    bool tracker;
};

/* The writers below put one structure of an accepted file and return the output's next place. */

static void put_kind(struct form form, uint8_t *out)
{
    if (form.stripped)
        memset(out, 0, 17);
    else
        memcpy(out, id_text, 17);
    out[37] = form.stripped ? 0 : 0x1A;
    put16(out + 58, form.stripped ? 0 : 0x0104);
}

static uint8_t *press_header(const uint8_t *file, const struct header *header, struct form form, uint8_t *out)
{
    uint32_t restart = number16(file + 66);
    uint32_t size = header_size_least(form.stripped, header->song_length);
    memset(out, 0, HEADER_SIZE_FROM + size);
    memcpy(out + 17, file + 17, 20);
    put_kind(form, out);
    if (form.tracker)
        memcpy(out + 38, file + 38, 20);
    put32(out + 60, size);
    memcpy(out + 64, file + 64, HEADER_FIXED - 64);
    put16(out + 66, restart < header->song_length ? restart : 0);
    memcpy(out + HEADER_FIXED, file + HEADER_FIXED, header->song_length);
    return out + HEADER_SIZE_FROM + size;
}

/* Ends at the first cell that isn't empty, so that other patterns cost nothing here. */
static bool cells_all_empty(const uint8_t *data, size_t count)
{
    for (size_t i = 0; i < count; i++) {
        uint8_t cell[CELL];
        data += read_cell(data, cell);
        if (fields_used(cell) != 0)
            return false;
    }
    return true;
}

static uint8_t *press_cells(const uint8_t *data, size_t count, uint8_t *out)
{
    for (; count > 0; count--) {
        if (data[0] == EMPTY_CELL) {
            *out++ = EMPTY_CELL;
            data++;
            continue;
        }
        uint8_t cell[CELL];
        data += read_cell(data, cell);
        out += write_cell(cell, out, count > 1);
    }
    return out;
}

static uint8_t *press_pattern(const uint8_t *file, const struct pattern *pattern, uint32_t channels, uint8_t *out)
{
    const uint8_t *data = file + pattern->data;
    size_t cells = pattern->rows * channels;
    uint8_t *to = out + PATTERN_HEADER;
    bool stores_none = pattern->size == 0 || cells_all_empty(data, cells);
    uint8_t *end = stores_none ? to : press_cells(data, cells, to);
    put32(out, PATTERN_HEADER);
    out[4] = 0;
    put16(out + 5, pattern->rows);
    put16(out + 7, (uint32_t)(end - to));
    return end;
}

/* As much of each header as H says, and all data. */
static uint8_t *press_samples(const uint8_t *file, const struct instrument *instrument, uint32_t header_size, uint8_t *out)
{
    for (uint32_t i = 0; i < instrument->samples; i++, out += header_size) {
        uint8_t copy[SAMPLE_HEADER];
        memcpy(out, read_cut(file + sample_header(instrument, i), instrument->header_size, copy, SAMPLE_HEADER), header_size);
    }
    memcpy(out, file + instrument->data, instrument->end - instrument->data);
    return out + (instrument->end - instrument->data);
}

static uint8_t *press_normal_instrument(const uint8_t *file, size_t at, bool stripped, const struct instrument *instrument,
                                        uint8_t *out)
{
    uint8_t copy[INSTRUMENT_RESERVED];
    const uint8_t *bytes = instrument_bytes(file, at, stripped, copy);
    memcpy(out + 4, bytes + 4, INSTRUMENT_LEAST - 4);
    put32(out, instrument->samples > 0 ? INSTRUMENT_FULL : INSTRUMENT_LEAST);
    if (instrument->samples == 0)
        return out + INSTRUMENT_LEAST;
    put32(out + INSTRUMENT_LEAST, SAMPLE_HEADER);
    memcpy(out + INSTRUMENT_FIELDS, bytes + INSTRUMENT_FIELDS, INSTRUMENT_RESERVED - INSTRUMENT_FIELDS);
    memset(out + INSTRUMENT_RESERVED, 0, INSTRUMENT_FULL - INSTRUMENT_RESERVED);
    return press_samples(file, instrument, SAMPLE_HEADER, out + INSTRUMENT_FULL);
}

static uint8_t *press_stripped_instrument(const uint8_t *file, size_t at, bool stripped, const struct instrument *instrument,
                                          uint8_t *out)
{
    uint8_t bytes[INSTRUMENT_RESERVED];
    uint32_t size = stripped_bytes(file, at, stripped, instrument, bytes);
    memcpy(out, bytes, size);
    return press_samples(file, instrument, smallest_header(file, instrument), out + size);
}

static void press_file(const uint8_t *file, struct form form, uint8_t *out)
{
    struct header header = header_fields(file);
    out = press_header(file, &header, form, out);
    size_t at = HEADER_SIZE_FROM + (size_t)header.size;
    for (uint32_t i = 0; i < header.patterns; i++) {
        struct pattern pattern = pattern_fields(file, at);
        out = press_pattern(file, &pattern, header.channels, out);
        at = pattern.data + pattern.size;
    }
    for (uint32_t i = 0; i < header.instruments; i++) {
        struct instrument instrument = instrument_fields(file, at, header.stripped);
        instrument.end = samples_end(file, &instrument);
        out = form.stripped ? press_stripped_instrument(file, at, header.stripped, &instrument, out)
                            : press_normal_instrument(file, at, header.stripped, &instrument, out);
        at = instrument.end;
    }
}

/* A pressed file is never longer than its input, so only a conversion can be over the limit. */
static struct reference_count press_as(const uint8_t *file, size_t file_len, struct form form, uint8_t *out, size_t out_len)
{
    struct walk walk = walk_file(file, file_len, true, form.stripped);
    if (walk.checked.refusal.number != 0)
        return (struct reference_count){walk.checked.refusal, 0};
    if (walk.pressed > FILE_MOST)
        return (struct reference_count){refuse(2, 0), 0};
    if (walk.pressed > out_len)
        return (struct reference_count){refuse(14, 0), 0};
    press_file(file, form, out);
    return (struct reference_count){accepted, (uint32_t)walk.pressed};
}

/* In its own kind; of a refused file it does not matter which. A stripped module has no tracker name. */
REFERENCE_CALL struct reference_count reference_press(const uint8_t *file, size_t file_len, uint8_t *out, size_t out_len)
{
    bool stripped = file_len >= HEADER_FIXED && is_stripped(file);
    return press_as(file, file_len, (struct form){.stripped = stripped, .tracker = !stripped}, out, out_len);
}

/* A conversion has no tracker name either way. */
REFERENCE_CALL struct reference_count reference_to_normal(const uint8_t *file, size_t file_len, uint8_t *out, size_t out_len)
{
    return press_as(file, file_len, (struct form){.stripped = false, .tracker = false}, out, out_len);
}

REFERENCE_CALL struct reference_count reference_to_stripped(const uint8_t *file, size_t file_len, uint8_t *out, size_t out_len)
{
    return press_as(file, file_len, (struct form){.stripped = true, .tracker = false}, out, out_len);
}

/* Samples */

REFERENCE_CALL struct reference_count reference_delta_decode(size_t width, const uint8_t *bytes, size_t byte_count,
                                                             int16_t *values, size_t value_room)
{
    if (width != 8 && width != 16)
        return (struct reference_count){refuse(16, 0), 0};
    if (width == 16 && byte_count % 2 != 0)
        return (struct reference_count){refuse(16, 0), 0};
    size_t count = byte_count / (width / 8);
    if (count > value_room)
        return (struct reference_count){refuse(14, 0), 0};
    uint16_t value = 0;
    for (size_t i = 0; i < count; i++) {
        value = (uint16_t)(value + (width == 8 ? bytes[i] : number16(bytes + 2 * i)));
        values[i] = width == 8 ? (int8_t)value : (int16_t)value;
    }
    return (struct reference_count){accepted, (uint32_t)count};
}

static bool values_fit_bytes(const int16_t *values, size_t count)
{
    for (size_t i = 0; i < count; i++)
        if (values[i] < -128 || values[i] > 127)
            return false;
    return true;
}

REFERENCE_CALL struct reference_count reference_delta_code(size_t width, const int16_t *values, size_t value_count,
                                                           uint8_t *bytes, size_t room)
{
    if (width != 8 && width != 16)
        return (struct reference_count){refuse(16, 0), 0};
    if (width == 8 && !values_fit_bytes(values, value_count))
        return (struct reference_count){refuse(16, 0), 0};
    size_t length = value_count * (width / 8);
    if (length > room)
        return (struct reference_count){refuse(14, 0), 0};
    uint16_t before = 0;
    for (size_t i = 0; i < value_count; i++) {
        uint16_t delta = (uint16_t)((uint16_t)values[i] - before);
        if (width == 8)
            bytes[i] = (uint8_t)delta;
        else
            put16(bytes + 2 * i, delta);
        before = (uint16_t)values[i];
    }
    return (struct reference_count){accepted, (uint32_t)length};
}

/* At an odd length the last high half is not looked at. */
REFERENCE_CALL struct reference_count reference_adpcm_decode(size_t length, const uint8_t *bytes, size_t byte_count,
                                                             int16_t *values, size_t value_room)
{
    if (byte_count != adpcm_bytes(length))
        return (struct reference_count){refuse(16, 0), 0};
    if (length > value_room)
        return (struct reference_count){refuse(14, 0), 0};
    uint8_t value = 0;
    for (size_t i = 0; i < length; i++) {
        unsigned pair = bytes[DELTA_TABLE + i / 2];
        unsigned index = i % 2 == 0 ? pair & 15 : pair >> 4;
        value = (uint8_t)(value + bytes[index]);
        values[i] = (int8_t)value;
    }
    return (struct reference_count){accepted, (uint32_t)length};
}

REFERENCE_CALL struct reference_stretch reference_sample_stretch(size_t file_len, const struct reference_sample_row *rows,
                                                                 size_t rows_lent, size_t number)
{
    if (number >= rows_lent)
        return (struct reference_stretch){refuse(16, 0), 0, 0};
    const struct reference_sample_row *row = &rows[number];
    if (row->data_place > file_len || row->length > file_len - row->data_place)
        return (struct reference_stretch){refuse(16, 0), 0, 0};
    return (struct reference_stretch){accepted, row->data_place, row->length};
}

/* Periods */

enum { REAL_NOTE_MOST = 118, TABLE_ENTRIES = 96 };

/* Document 001, Annex B. */
static const uint16_t period_table[TABLE_ENTRIES] = {
    907, 900, 894, 887, 881, 875, 868, 862, 856, 850, 844, 838, 832, 826, 820, 814,
    808, 802, 796, 791, 785, 779, 774, 768, 762, 757, 752, 746, 741, 736, 730, 725,
    720, 715, 709, 704, 699, 694, 689, 684, 678, 675, 670, 665, 660, 655, 651, 646,
    640, 636, 632, 628, 623, 619, 614, 610, 604, 601, 597, 592, 588, 584, 580, 575,
    570, 567, 563, 559, 555, 551, 547, 543, 538, 535, 532, 528, 524, 520, 516, 513,
    508, 505, 502, 498, 494, 491, 487, 484, 480, 477, 474, 470, 467, 463, 460, 457
};

/* Twice an entry: the one behind the last is half the first. */
static uint32_t twice_entry(uint32_t p)
{
    if (p == TABLE_ENTRIES)
        return period_table[0];
    return 2u * period_table[p];
}

REFERENCE_CALL struct reference_period reference_period(uint64_t note, int64_t finetune)
{
    if (note > REAL_NOTE_MOST)
        return (struct reference_period){refuse(16, 0), 0, 0};
    if (finetune < -128 || finetune > 127)
        return (struct reference_period){refuse(16, 0), 0, 0};
    int32_t raised = (int32_t)finetune + 128; /* from 0 on, so that division rounds down; 128 / 16 is taken off again */
    int32_t q = 8 * (int32_t)note + raised / 16 - 8;
    uint32_t f = (uint32_t)raised % 16;
    if (q < 0)
        return (struct reference_period){refuse(16, 0), 0, 0};
    uint32_t p = (uint32_t)q % TABLE_ENTRIES, octave = (uint32_t)q / TABLE_ENTRIES;
    uint32_t sum = twice_entry(p) * (16 - f);
    sum += twice_entry(p + 1) * f;
    return (struct reference_period){accepted, sum, 2u << octave};
}

/* The loader's numbers */

static uint64_t loader_number(struct reference_refusal refusal, uint64_t otherwise)
{
    return refusal.number != 0 ? (uint64_t)refusal.number << 32 | refusal.place : otherwise;
}

REFERENCE_CALL uint64_t reference_loader_check(const uint8_t *file, size_t file_len)
{
    struct reference_checked checked = reference_check(file, file_len);
    return loader_number(checked.refusal, checked.end);
}

REFERENCE_CALL uint64_t reference_loader_unpack(size_t rows, size_t channels, const uint8_t *data, size_t data_len,
                                                uint8_t *cells, size_t cells_len)
{
    struct reference_count unpacked = reference_unpack(rows, channels, data, data_len, cells, cells_len);
    return loader_number(unpacked.refusal, unpacked.count);
}

REFERENCE_CALL uint64_t reference_loader_pack(size_t rows, size_t channels, const uint8_t *cells, size_t cells_len,
                                              uint8_t *out, size_t out_len)
{
    struct reference_packed packed = reference_pack(rows, channels, cells, cells_len, out, out_len);
    return loader_number(packed.refusal, packed.length + 65536ull * packed.rows);
}

REFERENCE_CALL uint64_t reference_loader_press(const uint8_t *file, size_t file_len, uint8_t *out, size_t out_len)
{
    struct reference_count pressed = reference_press(file, file_len, out, out_len);
    return loader_number(pressed.refusal, pressed.count);
}

REFERENCE_CALL uint64_t reference_loader_to_normal(const uint8_t *file, size_t file_len, uint8_t *out, size_t out_len)
{
    struct reference_count normal = reference_to_normal(file, file_len, out, out_len);
    return loader_number(normal.refusal, normal.count);
}

REFERENCE_CALL uint64_t reference_loader_to_stripped(const uint8_t *file, size_t file_len, uint8_t *out, size_t out_len)
{
    struct reference_count stripped = reference_to_stripped(file, file_len, out, out_len);
    return loader_number(stripped.refusal, stripped.count);
}

/* Numbers to a row of each table, the most bytes or values of a delta call, and the greatest ADPCM length. */
enum {
    PATTERN_NUMBERS = 3,
    INSTRUMENT_NUMBERS = 3,
    SAMPLE_NUMBERS = 7,
    SAMPLE_TUNES = 2,
    DELTA_MOST = 16777216,
    ADPCM_MOST = 33554432
};

static void put_pattern_numbers(const struct reference_pattern_row *rows, uint32_t count, uint32_t *to)
{
    for (; count > 0; count--, rows++, to += PATTERN_NUMBERS) {
        to[0] = rows->data_place;
        to[1] = rows->data_size;
        to[2] = rows->rows;
    }
}

static void put_instrument_numbers(const struct reference_instrument_row *rows, uint32_t count, uint32_t *to)
{
    for (; count > 0; count--, rows++, to += INSTRUMENT_NUMBERS) {
        to[0] = rows->place;
        to[1] = rows->samples;
        to[2] = rows->first_sample;
    }
}

static void put_sample_numbers(const struct reference_sample_row *rows, uint32_t count, uint32_t *to, int8_t *tunes)
{
    for (; count > 0; count--, rows++, to += SAMPLE_NUMBERS, tunes += SAMPLE_TUNES) {
        to[0] = rows->header_place;
        to[1] = rows->data_place;
        to[2] = rows->length;
        to[3] = rows->width;
        to[4] = rows->loop_kind;
        to[5] = rows->loop_start;
        to[6] = rows->loop_length;
        tunes[0] = rows->finetune;
        tunes[1] = rows->relative_note;
    }
}

static size_t smaller(size_t a, size_t b)
{
    return a < b ? a : b;
}

REFERENCE_CALL uint64_t reference_loader_tables(const uint8_t *file, size_t file_len, uint32_t *patterns, size_t patterns_len,
                                                uint32_t *instruments, size_t instruments_len, uint32_t *samples,
                                                size_t samples_len, int8_t *tunes, size_t tunes_len)
{
    struct reference_pattern_row pattern_rows[PATTERNS_MOST];
    struct reference_instrument_row instrument_rows[INSTRUMENTS_MOST];
    struct reference_sample_row sample_rows[INSTRUMENTS_MOST * SAMPLES_MOST];
    struct reference_tables tables = {.patterns = pattern_rows, .instruments = instrument_rows, .samples = sample_rows};
    tables.pattern_room = patterns_len / PATTERN_NUMBERS;
    tables.instrument_room = instruments_len / INSTRUMENT_NUMBERS;
    tables.sample_room = smaller(samples_len / SAMPLE_NUMBERS, tunes_len / SAMPLE_TUNES);
    struct reference_checked checked = reference_check_tables(file, file_len, &tables);
    put_pattern_numbers(pattern_rows, checked.patterns, patterns); /* a refused file has counts of 0 */
    put_instrument_numbers(instrument_rows, checked.instruments, instruments);
    put_sample_numbers(sample_rows, checked.samples, samples, tunes);
    return loader_number(checked.refusal, checked.end);
}

REFERENCE_CALL uint64_t reference_loader_decode(size_t width, const uint8_t *bytes, size_t bytes_len, int16_t *values,
                                                size_t values_len)
{
    if (bytes_len > DELTA_MOST)
        return loader_number(refuse(16, 0), 0);
    struct reference_count decoded = reference_delta_decode(width, bytes, bytes_len, values, values_len);
    return loader_number(decoded.refusal, decoded.count);
}

REFERENCE_CALL uint64_t reference_loader_code(size_t width, const int16_t *values, size_t values_len, uint8_t *bytes,
                                              size_t bytes_len)
{
    if (values_len > DELTA_MOST)
        return loader_number(refuse(16, 0), 0);
    struct reference_count coded = reference_delta_code(width, values, values_len, bytes, bytes_len);
    return loader_number(coded.refusal, coded.count);
}

REFERENCE_CALL uint64_t reference_loader_adpcm(size_t length, const uint8_t *bytes, size_t bytes_len, int16_t *values,
                                               size_t values_len)
{
    if (length > ADPCM_MOST)
        return loader_number(refuse(16, 0), 0);
    struct reference_count summed = reference_adpcm_decode(length, bytes, bytes_len, values, values_len);
    return loader_number(summed.refusal, summed.count);
}

REFERENCE_CALL uint64_t reference_loader_period(uint64_t note, int64_t finetune)
{
    struct reference_period period = reference_period(note, finetune);
    return loader_number(period.refusal, period.dividend + 65536ull * period.divisor);
}
