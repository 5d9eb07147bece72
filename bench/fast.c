/* fast.c: see fast.h. Eight bytes are looked at in one word, runs of empty cells are passed over at once, tables say what a lead byte
   means, and a pattern whose cells all have their shortest form is copied. Plain C for little-endian machines, no vectors.

   Where eight bytes are not there any more a careful loop takes over, a cell at a time. */

#include "fast.h"

#include <stdbool.h>
#include <string.h>

#define EMPTY 0x80u
#define EMPTIES 0x8080808080808080u
#define ONES 0x0101010101010101u
#define CELL 5u

static inline uint64_t refuse(uint64_t number, uint64_t place)
{
    return number << 32 | place;
}

/* Numbers */

static inline uint64_t word(const uint8_t *from)
{
    uint64_t number;
    memcpy(&number, from, sizeof number);
    return number;
}

static inline void put_word(uint8_t *to, uint64_t number)
{
    memcpy(to, &number, sizeof number);
}

static inline uint32_t number16(const uint8_t *from)
{
    uint16_t number;
    memcpy(&number, from, sizeof number);
    return number;
}

static inline uint32_t number32(const uint8_t *from)
{
    uint32_t number;
    memcpy(&number, from, sizeof number);
    return number;
}

static inline void put16(uint8_t *to, uint32_t number)
{
    uint16_t low = (uint16_t)number;
    memcpy(to, &low, sizeof low);
}

static inline void put32(uint8_t *to, uint32_t number)
{
    memcpy(to, &number, sizeof number);
}

/* What a lead byte means: tables of 128 plain ones and four times 32 marked ones */

#define PLAIN_32(x) x, x, x, x, x, x, x, x, x, x, x, x, x, x, x, x, x, x, x, x, x, x, x, x, x, x, x, x, x, x, x, x
#define LEADS(plain, ...) {PLAIN_32(plain), PLAIN_32(plain), PLAIN_32(plain), PLAIN_32(plain), __VA_ARGS__, __VA_ARGS__, __VA_ARGS__, __VA_ARGS__}

/* The cell's bytes. */
static const uint8_t lengths[256] =
    LEADS(5, 1, 2, 2, 3, 2, 3, 3, 4, 2, 3, 3, 4, 3, 4, 4, 5, 2, 3, 3, 4, 3, 4, 4, 5, 3, 4, 4, 5, 4, 5, 5, 6);

/* How many of its fields must be other than 0 for a cell of its shortest length to have its shortest form; 9 if it never has. */
static const uint8_t shortest_at[256] = {
    PLAIN_32(5), PLAIN_32(5), PLAIN_32(5), PLAIN_32(5),
    0, 1, 1, 2, 1, 2, 2, 3, 1, 2, 2, 3, 2, 3, 3, 4, 1, 2, 2, 3, 2, 3, 3, 4, 2, 3, 3, 4, 3, 4, 4, 5,
    PLAIN_32(9), PLAIN_32(9), PLAIN_32(9)};

static const uint64_t low_bytes[9] = {0, 0xFF, 0xFFFF, 0xFFFFFF, 0xFFFFFFFF, 0xFFFFFFFFFF, 0xFFFFFFFFFFFF, 0xFFFFFFFFFFFFFF,
                                      0xFFFFFFFFFFFFFFFF};

static inline unsigned is_marked(unsigned lead)
{
    return lead >> 7;
}

/* A whole cell's fields, as many as are stored, from a word that begins with the cell. */
static inline uint64_t stored_fields(uint64_t cell)
{
    unsigned lead = cell & 255, marked = is_marked(lead);
    return cell >> 8 * marked & low_bytes[lengths[lead] - marked];
}

/* One in the top bit of each byte that is not 0. */
static inline uint64_t used_bytes(uint64_t fields)
{
    return (((fields & ~EMPTIES) + ~EMPTIES) | fields) & EMPTIES;
}

static inline unsigned used_count(uint64_t fields)
{
    return (unsigned)((used_bytes(fields) >> 7) * ONES >> 56);
}

/* Bit by bit which of the five are not 0: bit 8k goes to bit 32 + k. */
static inline unsigned used_mask(uint64_t fields)
{
    return (unsigned)((used_bytes(fields) >> 7) * 0x0000000102040810u >> 32) & 31;
}

/* Of fields that begin with the note if all five are used: a note from 128 up cannot lead them. */
static inline unsigned shortest_length(uint64_t fields, unsigned used)
{
    return used + ((used != CELL) | (fields >> 7 & 1));
}

/* Between fields one after the other and fields at their places: the ones of a mask are at most three groups, each with its shift */

struct groups {
    uint64_t fields[3]; /* of a cell, at their places */
    uint8_t shifts[3];  /* down to where they are stored */
};

static struct groups groups_of[32];
static bool groups_made;

static void make_groups(void)
{
    for (unsigned mask = 0; mask < 32; mask++) {
        unsigned group = 0, stored = 0;
        for (unsigned field = 0; field < CELL; field++) {
            if (!(mask >> field & 1))
                continue;
            bool goes_on = stored > 0 && mask >> (field - 1) & 1;
            group += stored > 0 && !goes_on;
            groups_of[mask].fields[group] |= (uint64_t)255 << 8 * field;
            groups_of[mask].shifts[group] = (uint8_t)(8 * (field - stored));
            stored++;
        }
    }
    groups_made = true;
}

static inline uint64_t spread(uint64_t stored, unsigned mask)
{
    const struct groups *groups = &groups_of[mask];
    return (stored << groups->shifts[0] & groups->fields[0]) | (stored << groups->shifts[1] & groups->fields[1]) |
           (stored << groups->shifts[2] & groups->fields[2]);
}

static inline uint64_t gathered(uint64_t fields, unsigned mask)
{
    const struct groups *groups = &groups_of[mask];
    return (fields & groups->fields[0]) >> groups->shifts[0] | (fields & groups->fields[1]) >> groups->shifts[1] |
           (fields & groups->fields[2]) >> groups->shifts[2];
}

/* The five fields of a whole cell, from a word that begins with it. */
static inline uint64_t cell_fields(uint64_t cell)
{
    unsigned lead = cell & 255, marked = is_marked(lead);
    return spread(cell >> 8 * marked, marked ? lead & 31 : 31) & low_bytes[CELL];
}

/* A cell in its shortest form, in a word; its length goes to *length. Five fields stand behind no lead byte if their note can lead. */
static inline uint64_t shortest_form(uint64_t fields, unsigned *length)
{
    unsigned mask = used_mask(fields), marked = (mask != 31) | (fields >> 7 & 1);
    *length = lengths[EMPTY | mask] - !marked;
    return gathered(fields, mask) << 8 * marked | ((EMPTY | mask) & (0u - marked));
}

/* Up to eight bytes that are there, in a word. */
static inline uint64_t word_of(const uint8_t *from, size_t count)
{
    uint64_t number = 0;
    memcpy(&number, from, count < 8 ? count : 8);
    return number;
}

/* Trying stored cells */

struct scan {
    uint64_t refusal; /* 0 if there is none; its place counts from the data's start */
    size_t shortest;  /* bytes of all cells in their shortest form, if measured */
    bool same;        /* if as long, each has its shortest form already */
};

struct stored {
    const uint8_t *data;
    size_t size;
    size_t at;
    size_t left; /* cells */
};

static inline bool has_words(const struct stored *stored)
{
    return stored->left > 8 && stored->size - stored->at >= 16;
}

/* How many empty cells a word begins with. */
static inline unsigned empty_run(uint64_t cells)
{
    uint64_t other = cells ^ EMPTIES;
    return other == 0 ? 8 : (unsigned)__builtin_ctzll(other) / 8;
}

static inline void measure(struct scan *scan, uint64_t cell)
{
    uint64_t fields = stored_fields(cell);
    unsigned used = used_count(fields);
    scan->shortest += shortest_length(fields, used);
    scan->same &= used == shortest_at[cell & 255];
}

/* Two cells in a turn, or a run of empty ones. */
static inline void scan_quickly(struct stored *stored, struct scan *scan, bool measured)
{
    while (has_words(stored)) {
        const uint8_t *from = stored->data + stored->at;
        uint64_t first = word(from);
        unsigned lead = first & 255;
        if (lead == EMPTY) {
            unsigned run = empty_run(first);
            scan->shortest += run;
            stored->at += run;
            stored->left -= run;
            continue;
        }
        unsigned length = lengths[lead];
        uint64_t second = first >> 8 * length;
        if (measured) {
            measure(scan, first);
            measure(scan, word(from + length));
        }
        stored->at += length + lengths[second & 255];
        stored->left -= 2;
    }
}

static inline struct scan scan_cells(const uint8_t *data, size_t size, size_t count, bool measured)
{
    struct stored stored = {data, size, 0, count};
    struct scan scan = {0, 0, true};
    scan_quickly(&stored, &scan, measured);
    for (; stored.left > 0; stored.left--) {
        if (stored.at == size || lengths[data[stored.at]] > size - stored.at)
            return (struct scan){refuse(7, stored.at), 0, false};
        uint64_t cell = word_of(data + stored.at, size - stored.at);
        measure(&scan, cell);
        stored.at += lengths[cell & 255];
    }
    if (stored.at < size)
        return (struct scan){refuse(8, stored.at), 0, false};
    return scan;
}

/* Unpacking */

static void fill_cells(const uint8_t *data, size_t size, size_t count, uint8_t *cells)
{
    struct stored stored = {data, size, 0, count};
    while (has_words(&stored)) {
        uint64_t first = word(data + stored.at);
        unsigned lead = first & 255;
        if (lead == EMPTY) {
            unsigned run = empty_run(first);
            memset(cells, 0, 8 * CELL);
            cells += run * CELL;
            stored.at += run;
            stored.left -= run;
            continue;
        }
        put_word(cells, cell_fields(first)); /* what is behind the cell is written after it */
        cells += CELL;
        stored.at += lengths[lead];
        stored.left--;
    }
    for (; stored.left > 0; stored.left--, cells += CELL) {
        uint64_t cell = word_of(data + stored.at, size - stored.at), fields = cell_fields(cell);
        memcpy(cells, &fields, CELL);
        stored.at += lengths[cell & 255];
    }
}

static bool rows_and_channels_fit(size_t rows, size_t channels)
{
    return rows >= 1 && rows <= 256 && channels >= 1 && channels <= 64;
}

uint64_t fast_unpack(size_t rows, size_t channels, const uint8_t *data, size_t data_len, uint8_t *cells, size_t cells_len)
{
    if (!rows_and_channels_fit(rows, channels) || data_len > 65535)
        return refuse(16, 0);
    size_t count = rows * channels;
    uint64_t refusal = data_len == 0 ? 0 : scan_cells(data, data_len, count, false).refusal;
    if (refusal != 0)
        return refusal;
    if (cells_len < count * CELL)
        return refuse(14, 0);
    if (!groups_made)
        make_groups();
    if (data_len == 0)
        memset(cells, 0, count * CELL);
    else
        fill_cells(data, data_len, count, cells);
    return rows;
}

/* Packing */

static size_t measure_cells(const uint8_t *cells, size_t count)
{
    size_t shortest = 0;
    for (; count > 1; count--, cells += CELL) {
        uint64_t fields = word(cells) & low_bytes[CELL];
        shortest += shortest_length(fields, used_count(fields));
    }
    uint64_t last = word_of(cells, CELL);
    return shortest + shortest_length(last, used_count(last));
}

/* Writes a word, or what there is room for. */
static inline void put_some(uint8_t *to, const uint8_t *end, uint64_t bytes, unsigned length)
{
    if (end - to >= 8)
        put_word(to, bytes);
    else
        memcpy(to, &bytes, length);
}

static void write_cells(const uint8_t *cells, size_t count, uint8_t *out, const uint8_t *end)
{
    unsigned length;
    for (; count > 1 && end - out >= 8; count--, cells += CELL) {
        uint64_t fields = word(cells) & low_bytes[CELL];
        if (fields == 0) {
            *out++ = EMPTY;
            continue;
        }
        put_word(out, shortest_form(fields, &length));
        out += length;
    }
    for (; count > 0; count--, cells += CELL) {
        uint64_t form = shortest_form(word_of(cells, CELL), &length);
        put_some(out, end, form, length);
        out += length;
    }
}

uint64_t fast_pack(size_t rows, size_t channels, const uint8_t *cells, size_t cells_len, uint8_t *out, size_t out_len)
{
    if (!rows_and_channels_fit(rows, channels) || cells_len != rows * channels * CELL)
        return refuse(16, 0);
    size_t count = rows * channels;
    size_t shortest = measure_cells(cells, count), length = shortest == count ? 0 : shortest;
    if (length > 65535)
        return refuse(15, 0);
    if (length > out_len)
        return refuse(14, 0);
    if (!groups_made)
        make_groups();
    if (length > 0)
        write_cells(cells, count, out, out + length);
    return length + 65536 * (uint64_t)rows;
}

/* The walk over a file */

struct header {
    bool stripped;
    uint32_t size, song_length, channels, patterns, instruments;
};

/* What the second pass of a press needs to know of a pattern. */
struct pattern {
    uint32_t at, data, size, rows, stored;
    bool same;
};

/* The same of an instrument: I and H as they are, the bytes of all its samples' data, and I and H as they are written. */
struct instrument {
    uint32_t at, size, head_size, samples, data, new_size, new_head_size;
};

/* Room for what the first pass of a press finds, and the kind that is written. */
struct found {
    struct pattern patterns[256];
    struct instrument instruments[128];
    bool stripped;
};

struct walk {
    uint64_t answer; /* the end, or a refusal */
    struct header header;
    size_t pressed;
};

static inline size_t smaller(size_t a, size_t b)
{
    return a < b ? a : b;
}

static bool is_stripped(const uint8_t *file)
{
    return (file[37] | number16(file + 58)) == 0;
}

static uint32_t least_header(bool stripped, uint32_t song_length)
{
    return stripped ? 20 + song_length : 276;
}

static uint64_t try_header(const uint8_t *file, size_t file_len, struct header *header)
{
    if (file_len > 16777216)
        return refuse(2, 0);
    if (file_len < 80)
        return refuse(1, 0);
    if (!is_stripped(file) && (file[37] != 0x1A || number16(file + 58) != 0x0104))
        return refuse(3, 0);
    *header = (struct header){is_stripped(file), number32(file + 60), number16(file + 64), number16(file + 68), number16(file + 70),
                              number16(file + 72)};
    if (header->size < least_header(header->stripped, header->song_length))
        return refuse(4, 0);
    if (header->song_length - 1 > 255 || header->patterns - 1 > 255 || header->channels - 1 > 63 || header->instruments > 128)
        return refuse(5, 0);
    return header->size > file_len - 60 ? refuse(1, 0) : 0;
}

static inline uint64_t try_pattern(const uint8_t *file, size_t file_len, size_t at, uint32_t channels, bool measured,
                                   struct pattern *pattern)
{
    if (file_len - at < 9)
        return refuse(1, at);
    uint32_t length = number32(file + at), rows = number16(file + at + 5), size = number16(file + at + 7);
    if (length < 9 || rows - 1 > 255)
        return refuse(6, at);
    if ((uint64_t)length + size > file_len - at)
        return refuse(1, at);
    *pattern = (struct pattern){(uint32_t)at, (uint32_t)at + length, size, rows, 0, true};
    if (size == 0)
        return 0;
    size_t count = (size_t)rows * channels;
    struct scan scan = scan_cells(file + pattern->data, size, count, measured);
    pattern->stored = scan.shortest == count ? 0 : (uint32_t)scan.shortest;
    pattern->same = scan.same && scan.shortest == size;
    return scan.refusal == 0 ? 0 : scan.refusal + pattern->data;
}

/* Samples. A header of a stripped module may end anywhere, and the rest reads as 0. */

#define HEAD_READ 18 /* the bytes of a header that are looked at */

struct head {
    uint32_t length, loop_start, loop_length, type, kind;
};

static inline struct head whole_head(const uint8_t *from)
{
    return (struct head){number32(from), number32(from + 4), number32(from + 8), from[14], from[17]};
}

/* From three words that are there, of which only 'size' bytes are the header's. */
static inline struct head head_of_words(const uint8_t *from, size_t size)
{
    uint64_t first = word(from) & low_bytes[smaller(size, 8)];
    uint64_t second = word(from + 8) & low_bytes[size < 8 ? 0 : smaller(size - 8, 8)];
    uint64_t third = word(from + 16) & low_bytes[size < 16 ? 0 : smaller(size - 16, 8)];
    return (struct head){(uint32_t)first, (uint32_t)(first >> 32), (uint32_t)second, second >> 48 & 255, third >> 8 & 255};
}

static struct head head_of_copy(const uint8_t *from, size_t size)
{
    uint8_t copy[HEAD_READ] = {0};
    memcpy(copy, from, size);
    return whole_head(copy);
}

static inline struct head head_at(const uint8_t *file, size_t file_len, size_t at, size_t size)
{
    if (size >= HEAD_READ)
        return whole_head(file + at);
    return file_len - at >= 24 ? head_of_words(file + at, size) : head_of_copy(file + at, size);
}

/* The bytes of a sample's data. */
static inline uint32_t sample_bytes(const struct head *head)
{
    return head->kind != 0xAD || head->length == 0 ? head->length : 16 + head->length / 2 + head->length % 2;
}

static inline uint64_t try_head(const struct head *head, size_t at)
{
    bool loops = head->loop_length > 0 && (head->type & 3) != 0;
    if (head->kind == 0xAD && head->type & 16)
        return refuse(12, at);
    if ((head->type & 3) == 3 || (head->type & 16 && head->length % 2 != 0) ||
        (loops && (uint64_t)head->loop_start + head->loop_length > head->length) ||
        (loops && head->type & 16 && (head->loop_start | head->loop_length) % 2 != 0))
        return refuse(13, at);
    return 0;
}

/* Where the first data begin that are not all there, if some are not. */
static size_t cut_data(const uint8_t *file, size_t file_len, size_t at, uint32_t samples, size_t head_size)
{
    size_t data = at + samples * head_size;
    for (;; at += head_size) {
        struct head head = head_at(file, file_len, at, head_size);
        if (sample_bytes(&head) > file_len - data)
            return data;
        data += sample_bytes(&head);
    }
}

/* Tries the samples of an instrument whose own bytes are there. */
static inline uint64_t try_samples(const uint8_t *file, size_t file_len, struct instrument *instrument)
{
    size_t heads = (size_t)instrument->at + instrument->size, head_size = instrument->head_size, at = heads;
    uint64_t bytes = 0;
    if ((uint64_t)instrument->samples * head_size > file_len - heads)
        return refuse(1, instrument->at);
    for (uint32_t i = 0; i < instrument->samples; i++, at += head_size) {
        struct head head = head_at(file, file_len, at, head_size);
        uint64_t refusal = try_head(&head, at);
        if (refusal != 0)
            return refusal;
        bytes += sample_bytes(&head);
    }
    if (bytes > file_len - at)
        return refuse(1, cut_data(file, file_len, heads, instrument->samples, head_size));
    instrument->data = (uint32_t)bytes;
    return 0;
}

static inline uint64_t try_normal_instrument(const uint8_t *file, size_t file_len, size_t at, struct instrument *instrument)
{
    if (file_len - at < 29)
        return refuse(1, at);
    uint32_t size = number32(file + at), samples = number16(file + at + 27);
    if (size < 29 || samples > 16 || (size < 263 && samples > 0))
        return refuse(10, at);
    if (size > file_len - at)
        return refuse(1, at);
    *instrument = (struct instrument){.at = (uint32_t)at, .size = size, .samples = samples};
    if (samples == 0)
        return 0;
    instrument->head_size = number32(file + at + 29);
    return instrument->head_size < 40 ? refuse(11, at) : try_samples(file, file_len, instrument);
}

/* k and then H of a stripped module's instrument, in a word, as far as I bytes hold them. */
static inline uint64_t cut_numbers(const uint8_t *from, size_t size, size_t there)
{
    if (size <= 27)
        return 0;
    return there >= 35 ? word(from + 27) & low_bytes[smaller(size - 27, 6)] : word_of(from + 27, smaller(size - 27, 6));
}

static inline uint64_t try_stripped_instrument(const uint8_t *file, size_t file_len, size_t at, struct instrument *instrument)
{
    if (file_len - at < 4)
        return refuse(1, at);
    uint32_t size = number32(file + at);
    if (size < 4)
        return refuse(10, at);
    if (size > file_len - at)
        return refuse(1, at);
    uint64_t numbers = cut_numbers(file + at, size, file_len - at);
    *instrument = (struct instrument){.at = (uint32_t)at, .size = size, .samples = numbers & 0xFFFF};
    if (instrument->samples == 0)
        return 0;
    instrument->head_size = (uint32_t)(numbers >> 16);
    return instrument->samples > 16 ? refuse(10, at) : try_samples(file, file_len, instrument);
}

/* The form in which an instrument is written */

/* How many bytes are left if zeros at the end are cut off; 'least' of them always are. */
static inline size_t without_zeros(const uint8_t *bytes, size_t size, size_t least)
{
    for (; size >= least + 8; size -= 8) {
        uint64_t last = word(bytes + size - 8);
        if (last != 0)
            return size - (unsigned)__builtin_clzll(last) / 8;
    }
    while (size > least && bytes[size - 1] == 0)
        size--;
    return size;
}

/* The smallest H that cuts off nothing but zeros of any header. */
static inline size_t smallest_head(const uint8_t *heads, size_t size, uint32_t samples)
{
    size_t most = smaller(size, 40), least = 0;
    for (; samples > 0 && least < most; samples--, heads += size)
        least = without_zeros(heads, most, least);
    return least;
}

/* H is chosen before I, since it is among what I may cut off; k is never 0 there. */
static inline void find_stripped_form(const uint8_t *file, struct instrument *instrument)
{
    const uint8_t *from = file + instrument->at;
    if (instrument->samples == 0) {
        instrument->new_size = (uint32_t)without_zeros(from, smaller(instrument->size, 27), 4);
        return;
    }
    size_t head_size = smallest_head(from + instrument->size, instrument->head_size, instrument->samples);
    size_t size = without_zeros(from, smaller(instrument->size, 241), 33);
    instrument->new_head_size = (uint32_t)head_size;
    instrument->new_size = size > 33 ? (uint32_t)size : head_size > 0 ? 30 : 28;
}

/* The bytes that it takes. */
static inline size_t find_form(const uint8_t *file, struct instrument *instrument, bool stripped)
{
    if (stripped) {
        find_stripped_form(file, instrument);
    } else {
        instrument->new_size = instrument->samples > 0 ? 263 : 29;
        instrument->new_head_size = 40;
    }
    return instrument->new_size + (size_t)instrument->samples * instrument->new_head_size + instrument->data;
}

static inline size_t walk_patterns(const uint8_t *file, size_t file_len, struct walk *walk, struct found *found)
{
    size_t at = 60 + (size_t)walk->header.size;
    for (uint32_t i = 0; i < walk->header.patterns; i++) {
        struct pattern one, *pattern = found == NULL ? &one : &found->patterns[i];
        walk->answer = try_pattern(file, file_len, at, walk->header.channels, found != NULL, pattern);
        if (walk->answer != 0)
            return at;
        walk->pressed += 9 + pattern->stored;
        at = pattern->data + (size_t)pattern->size;
    }
    return at;
}

static inline size_t walk_instruments(const uint8_t *file, size_t file_len, size_t at, struct walk *walk, struct found *found)
{
    for (uint32_t i = 0; i < walk->header.instruments; i++) {
        struct instrument one, *instrument = found == NULL ? &one : &found->instruments[i];
        walk->answer = walk->header.stripped ? try_stripped_instrument(file, file_len, at, instrument)
                                             : try_normal_instrument(file, file_len, at, instrument);
        if (walk->answer != 0)
            return at;
        if (found != NULL)
            walk->pressed += find_form(file, instrument, found->stripped);
        at += instrument->size + (size_t)instrument->samples * instrument->head_size + instrument->data;
    }
    return at;
}

/* With room for what is found, measures for a press; without, only tries. In its callers always, so that each has loops of its own. */
static inline __attribute__((always_inline)) struct walk walk_file(const uint8_t *file, size_t file_len, struct found *found)
{
    struct walk walk = {.pressed = 0};
    walk.answer = try_header(file, file_len, &walk.header);
    if (walk.answer != 0)
        return walk;
    if (found != NULL)
        walk.pressed = 60 + least_header(found->stripped, walk.header.song_length);
    size_t at = walk_patterns(file, file_len, &walk, found);
    if (walk.answer != 0)
        return walk;
    at = walk_instruments(file, file_len, at, &walk, found);
    if (walk.answer == 0)
        walk.answer = at;
    return walk;
}

uint64_t fast_check(const uint8_t *file, size_t file_len)
{
    return walk_file(file, file_len, NULL).answer;
}

/* Pressing and converting */

/* Which kind is written, and whether with the tracker name. */
struct form {
    bool stripped, tracker;
};

static uint8_t *press_header(const uint8_t *file, const struct header *header, struct form form, uint8_t *out)
{
    uint32_t restart = number16(file + 66), size = least_header(form.stripped, header->song_length);
    memcpy(out, form.stripped ? "\0\0\0\0\0\0\0\0\0\0\0\0\0\0\0\0" : "Extended module: ", 17);
    memcpy(out + 17, file + 17, 63);
    out[37] = form.stripped ? 0 : 0x1A;
    if (!form.tracker)
        memset(out + 38, 0, 20);
    put16(out + 58, form.stripped ? 0 : 0x0104);
    put32(out + 60, size);
    put16(out + 66, restart < header->song_length ? restart : 0);
    memcpy(out + 80, file + 80, header->song_length);
    memset(out + 80 + header->song_length, 0, size - 20 - header->song_length);
    return out + 60 + size;
}

/* 'end' is the pressed file's: up to there a whole word may be written, since what comes later is written later. */
static void press_cells(const uint8_t *data, size_t size, size_t count, uint8_t *out, const uint8_t *end)
{
    for (size_t at = 0; count > 0; count--) {
        unsigned length;
        if (data[at] == EMPTY) {
            *out++ = EMPTY;
            at++;
            continue;
        }
        uint64_t cell = size - at >= 8 ? word(data + at) : word_of(data + at, size - at);
        uint64_t form = shortest_form(cell_fields(cell), &length);
        put_some(out, end, form, length);
        at += lengths[cell & 255];
        out += length;
    }
}

static uint8_t *press_pattern(const uint8_t *file, const struct pattern *pattern, uint32_t channels, uint8_t *out, const uint8_t *end)
{
    put32(out, 9);
    out[4] = 0;
    put16(out + 5, pattern->rows);
    put16(out + 7, pattern->stored);
    if (pattern->stored > 0 && pattern->same)
        memcpy(out + 9, file + pattern->data, pattern->stored);
    else if (pattern->stored > 0)
        press_cells(file + pattern->data, pattern->size, (size_t)pattern->rows * channels, out + 9, end);
    return out + 9 + pattern->stored;
}

/* Writes bytes of which only 'size' are there, and 0 for the others. */
static inline void put_cut(uint8_t *to, const uint8_t *from, size_t size, size_t wanted)
{
    if (size >= wanted) {
        memcpy(to, from, wanted);
    } else {
        memset(to, 0, wanted);
        memcpy(to, from, size);
    }
}

/* Instruments of an accepted file */

static uint8_t *press_normal(const uint8_t *file, const struct instrument *instrument, uint8_t *out)
{
    const uint8_t *from = file + instrument->at, *heads = from + instrument->size;
    size_t size = instrument->size, head_size = instrument->head_size;
    put_cut(out, from, size, 29);
    put32(out, instrument->new_size);
    if (instrument->samples == 0)
        return out + 29;
    put32(out + 29, 40);
    put_cut(out + 33, from + 33, size > 33 ? size - 33 : 0, 208);
    memset(out + 241, 0, 22);
    out += 263;
    for (uint32_t i = 0; i < instrument->samples; i++, out += 40, heads += head_size)
        put_cut(out, heads, head_size, 40);
    memcpy(out, heads, instrument->data);
    return out + instrument->data;
}

/* Writes the first bytes of each header. Where there are 40 in the file and up to the output's end, 40 are copied. */
static uint8_t *press_heads(const uint8_t *heads, const uint8_t *file_end, const struct instrument *instrument, uint8_t *out,
                            const uint8_t *end)
{
    size_t size = instrument->new_head_size;
    for (uint32_t i = 0; i < instrument->samples; i++, out += size, heads += instrument->head_size) {
        if (file_end - heads >= 40 && end - out >= 40)
            memcpy(out, heads, 40);
        else
            memcpy(out, heads, size);
    }
    return out;
}

/* Nothing is there to be filled with 0, and an instrument that is not cut is copied. */
static uint8_t *press_stripped(const uint8_t *file, const uint8_t *file_end, const struct instrument *instrument, uint8_t *out,
                               const uint8_t *end)
{
    const uint8_t *from = file + instrument->at, *heads = from + instrument->size;
    size_t size = instrument->new_size, heads_bytes = (size_t)instrument->samples * instrument->head_size;
    bool same_heads = instrument->new_head_size == instrument->head_size;
    if (size == instrument->size && same_heads) {
        memcpy(out, from, size + heads_bytes + instrument->data);
        return out + size + heads_bytes + instrument->data;
    }
    memcpy(out, from, size);
    put32(out, (uint32_t)size);
    if (size > 30)
        put32(out + 29, instrument->new_head_size);
    else if (size == 30)
        out[29] = (uint8_t)instrument->new_head_size;
    out = press_heads(heads, file_end, instrument, out + size, end);
    memcpy(out, heads + heads_bytes, instrument->data);
    return out + instrument->data;
}

static uint64_t press_as(const uint8_t *file, size_t file_len, struct form form, uint8_t *out, size_t out_len)
{
    struct found found;
    found.stripped = form.stripped;
    struct walk walk = walk_file(file, file_len, &found);
    if (walk.answer >> 32 != 0)
        return walk.answer;
    if (walk.pressed > 16777216)
        return refuse(2, 0);
    if (walk.pressed > out_len)
        return refuse(14, 0);
    if (!groups_made)
        make_groups();
    const uint8_t *end = out + walk.pressed;
    out = press_header(file, &walk.header, form, out);
    for (uint32_t i = 0; i < walk.header.patterns; i++)
        out = press_pattern(file, &found.patterns[i], walk.header.channels, out, end);
    for (uint32_t i = 0; i < walk.header.instruments; i++)
        out = form.stripped ? press_stripped(file, file + file_len, &found.instruments[i], out, end)
                            : press_normal(file, &found.instruments[i], out);
    return walk.pressed;
}

uint64_t fast_press(const uint8_t *file, size_t file_len, uint8_t *out, size_t out_len)
{
    bool stripped = file_len >= 80 && is_stripped(file);
    return press_as(file, file_len, (struct form){stripped, !stripped}, out, out_len);
}

uint64_t fast_to_normal(const uint8_t *file, size_t file_len, uint8_t *out, size_t out_len)
{
    return press_as(file, file_len, (struct form){.stripped = false, .tracker = false}, out, out_len);
}

uint64_t fast_to_stripped(const uint8_t *file, size_t file_len, uint8_t *out, size_t out_len)
{
    return press_as(file, file_len, (struct form){.stripped = true, .tracker = false}, out, out_len);
}

/* ADPCM samples */

#define ADPCM_LONG 4096 /* values from which a table of every byte is worth its making */

/* What a byte adds: its low half alone, and both its halves. */
struct steps {
    uint8_t low[256];
    uint8_t both[256];
};

static void make_steps(const uint8_t *deltas, struct steps *steps)
{
    for (unsigned pair = 0; pair < 256; pair++) {
        steps->low[pair] = deltas[pair & 15];
        steps->both[pair] = (uint8_t)(deltas[pair & 15] + deltas[pair >> 4]);
    }
}

/* All values but the last one of an odd length; returns the last sum. */
static uint8_t decode_long(const uint8_t *bytes, size_t pairs, int16_t *restrict values)
{
    struct steps steps;
    uint8_t sum = 0;
    make_steps(bytes, &steps);
    for (size_t i = 0; i < pairs; i++) {
        uint8_t pair = bytes[16 + i];
        values[2 * i] = (int8_t)(uint8_t)(sum + steps.low[pair]);
        sum = (uint8_t)(sum + steps.both[pair]);
        values[2 * i + 1] = (int8_t)sum;
    }
    return sum;
}

static uint8_t decode_short(const uint8_t *bytes, size_t pairs, int16_t *restrict values)
{
    uint8_t sum = 0;
    for (size_t i = 0; i < pairs; i++) {
        uint8_t pair = bytes[16 + i];
        uint8_t first = (uint8_t)(sum + bytes[pair & 15]);
        sum = (uint8_t)(first + bytes[pair >> 4]);
        values[2 * i] = (int8_t)first;
        values[2 * i + 1] = (int8_t)sum;
    }
    return sum;
}

uint64_t fast_adpcm(size_t length, const uint8_t *bytes, size_t bytes_len, int16_t *values, size_t values_len)
{
    if (length > 33554432 || bytes_len != (length == 0 ? 0 : 16 + length / 2 + length % 2))
        return refuse(16, 0);
    if (length > values_len)
        return refuse(14, 0);
    uint8_t sum = length >= ADPCM_LONG ? decode_long(bytes, length / 2, values) : decode_short(bytes, length / 2, values);
    if (length % 2 != 0)
        values[length - 1] = (int8_t)(uint8_t)(sum + bytes[bytes[bytes_len - 1] & 15]);
    return length;
}
