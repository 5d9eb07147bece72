/* modules.h: modules made by rule and by chance, for the comparison and the benchmark. The same seed gives the same bytes on
   every machine. Every byte that the rules paper ignores is filled with noise, so that nobody can depend on it. */

#ifndef MODULES_H
#define MODULES_H

#include <stdbool.h>
#include <stddef.h>
#include <stdint.h>

struct chance {
    uint64_t state;
};

uint64_t chance_next(struct chance *chance);
uint32_t chance_below(struct chance *chance, uint32_t limit);                /* 0..limit-1 */
uint32_t chance_between(struct chance *chance, uint32_t least, uint32_t most);
bool chance_percent(struct chance *chance, uint32_t percent);

/* A number of the file that a test may want to change: where it stands, and its bytes (1, 2 or 4). */
struct field {
    uint32_t place;
    uint32_t width;
};

/* Bytes that grow as they are written; 'fields' are those that the rules read. */
struct module {
    uint8_t *bytes;
    size_t length;
    size_t room;
    struct field *fields;
    size_t field_count;
    size_t field_room;
};

enum cells {
    CELLS_EVERY_FORM, /* each cell in any form that reads as it: plain, marked, marked with fields that are 0, bits 5 and 6 */
    CELLS_EMPTY,      /* every cell empty, in any form */
    CELLS_NONE,       /* no data: every cell empty */
    CELLS_DENSE,      /* as a tracker writes them: a note or effect in nearly every cell, each in its shortest form */
    CELLS_SPARSE      /* the same, with four cells in five empty, in runs */
};

/* What to build. Numbers behind 'most' are chosen by chance from 0 (rows: from 1) up to it. */
struct shape {
    bool stripped;                     /* a stripped module: I and H of any size, around their limits too */
    uint32_t song_length;
    uint32_t restart;
    uint32_t channels;
    uint32_t patterns;
    uint32_t instruments;
    uint32_t header_extra_most;        /* bytes between the order table and the first pattern */
    uint32_t zeros_percent;            /* of the instruments and sample headers end in zeros */
    uint32_t pattern_extra_most;       /* L above 9 */
    uint32_t rows;                     /* of every pattern; 0: by chance, up to rows_most */
    uint32_t rows_most;
    int cells;                         /* enum cells; -1: by chance, a choice for each pattern */
    uint32_t samples_least;            /* of each instrument */
    uint32_t samples_most;
    uint32_t instrument_extra_most;    /* I above 29 or 263, if not stripped */
    uint32_t sample_header_extra_most; /* H above 40, if not stripped */
    uint32_t sample_length_least;
    uint32_t sample_length_most;
    uint32_t adpcm_percent;            /* of the samples are of kind AD */
    uint32_t trailing_most;            /* bytes behind the last instrument */
};

/* A shape by chance, of a few kilobytes; 'large' allows every limit of the rules. */
struct shape shape_by_chance(struct chance *chance, bool large);

/* The same of a stripped module, or of a normal one that ends many structures in zeros, as a stripped one would cut them off. */
struct shape kind_by_chance(struct chance *chance, bool large, bool stripped);

void module_build(struct module *module, const struct shape *shape, struct chance *chance);
void module_free(struct module *module);

/* One pattern's stored data behind what the module holds; data stays within 65,535 bytes. */
void module_put_cells(struct module *module, size_t count, int cells, struct chance *chance);

void module_put_noise(struct module *module, size_t count, struct chance *chance);

/* Five bytes to a cell; 'percent' of the fields are not 0. */
void cells_by_chance(uint8_t *cells, size_t count, uint32_t percent, struct chance *chance);

uint32_t field_get(const uint8_t *bytes, struct field field);
void field_put(uint8_t *bytes, struct field field, uint32_t number);

#endif
