/* bench.c: the library's speed as ratios to C, of normal modules and of stripped ones, that of the tables and of the small reader as
   ratios to the check of the same file, and the stack of each call.

   A ratio to C is the library's best time divided by that of C compiled with -O3: of the reference, and of the faster one of two, the
   reference and fast.c. All are taken in turns in one run, in processor time. Below 1 the library is faster. All buffers are written
   before, so no page is met for the first time.
   The reference is careful C, a byte at a time: no branch on what a cell holds but for empty ones, no tricks with words. fast.c is
   written for speed.

   bench [--rounds N] [--emulated-by NAME] */

#define _POSIX_C_SOURCE 200809L

#include "../include/fiddlemarsh.h"
#include "../tests/modules.h"
#include "../tests/reference.h"
#include "fast.h"
#include "stack.h"
#include "timed.h"

#include <stdbool.h>
#include <stdio.h>
#include <stdlib.h>
#include <string.h>
#include <time.h>
#if defined(__x86_64__)
#include <cpuid.h>
#endif

#define COUNT(array) (sizeof(array) / sizeof((array)[0]))
#define SECONDS_FOR_A_TURN 0.004
#define DELTA_BYTES ((size_t)1 << 20)
#define PATTERNS_MOST 4096 /* of a set */

/* What a file has at most. */
enum { FILE_PATTERNS = 256, FILE_INSTRUMENTS = 128, FILE_SAMPLES = 2048 };

struct pattern {
    size_t rows;
    size_t channels;
    const uint8_t *data;
    size_t size;
    uint8_t *cells;
    size_t cells_len;
};

struct set {
    const char *name;
    struct module *modules;
    size_t module_count;
    struct pattern *patterns;
    size_t pattern_count;
    const struct module *normal; /* of a set of stripped modules: those that it was made of */
};

/* The sides of a comparison. */
struct side {
    uint64_t (*check)(const uint8_t *, size_t);
    uint64_t (*unpack)(size_t, size_t, const uint8_t *, size_t, uint8_t *, size_t);
    uint64_t (*pack)(size_t, size_t, const uint8_t *, size_t, uint8_t *, size_t);
    uint64_t (*press)(const uint8_t *, size_t, uint8_t *, size_t);
    uint64_t (*to_normal)(const uint8_t *, size_t, uint8_t *, size_t);
    uint64_t (*to_stripped)(const uint8_t *, size_t, uint8_t *, size_t);
    uint32_t (*tables)(const uint8_t *, size_t); /* the check that fills the side's own tables: 0, or the refusal's number */
    uint64_t (*decode)(size_t, const uint8_t *, size_t, int16_t *, size_t);
    uint64_t (*code)(size_t, const int16_t *, size_t, uint8_t *, size_t);
    uint64_t (*adpcm)(size_t, const uint8_t *, size_t, int16_t *, size_t);
};

static struct {
    uint32_t patterns[3 * FILE_PATTERNS];
    uint32_t instruments[3 * FILE_INSTRUMENTS];
    uint32_t samples[7 * FILE_SAMPLES];
    int8_t tunes[2 * FILE_SAMPLES];
} flat;

static struct {
    struct reference_pattern_row patterns[FILE_PATTERNS];
    struct reference_instrument_row instruments[FILE_INSTRUMENTS];
    struct reference_sample_row samples[FILE_SAMPLES];
    struct reference_checked checked;
} rows;

static uint32_t library_tables(const uint8_t *file, size_t file_len)
{
    return fiddlemarsh_refusal(fiddlemarsh_tables(file, file_len, flat.patterns, COUNT(flat.patterns), flat.instruments,
                                                  COUNT(flat.instruments), flat.samples, COUNT(flat.samples), flat.tunes,
                                                  COUNT(flat.tunes)));
}

static uint32_t reference_tables(const uint8_t *file, size_t file_len)
{
    struct reference_tables tables = {rows.patterns, FILE_PATTERNS, rows.instruments, FILE_INSTRUMENTS, rows.samples, FILE_SAMPLES};
    rows.checked = reference_check_tables(file, file_len, &tables);
    return rows.checked.refusal.number;
}

static const struct side library = {fiddlemarsh_check, fiddlemarsh_unpack, fiddlemarsh_pack, fiddlemarsh_press, fiddlemarsh_to_normal,
                                    fiddlemarsh_to_stripped, library_tables, fiddlemarsh_decode, fiddlemarsh_code,
                                    fiddlemarsh_adpcm};
static const struct side reference = {reference_loader_check, reference_loader_unpack, reference_loader_pack,
                                      reference_loader_press, reference_loader_to_normal, reference_loader_to_stripped,
                                      reference_tables, reference_loader_decode, reference_loader_code, reference_loader_adpcm};
static const struct side fast = {fast_check, fast_unpack, fast_pack, fast_press, fast_to_normal, fast_to_stripped, NULL, NULL, NULL,
                                 fast_adpcm};

static uint8_t *output; /* room for any answer */
static size_t rounds = 9;

static void *want(size_t size)
{
    void *memory = malloc(size > 0 ? size : 1);
    if (memory == NULL) {
        fprintf(stderr, "out of memory\n");
        exit(2);
    }
    memset(memory, 0, size);
    return memory;
}

/* The sets */

static void collect_patterns(struct set *set, const struct module *module)
{
    reference_tables(module->bytes, module->length);
    for (uint32_t i = 0; i < rows.checked.patterns && set->pattern_count < PATTERNS_MOST; i++) {
        struct pattern *pattern = &set->patterns[set->pattern_count++];
        *pattern = (struct pattern){.rows = rows.patterns[i].rows, .channels = rows.checked.channels,
                                    .data = module->bytes + rows.patterns[i].data_place, .size = rows.patterns[i].data_size};
        pattern->cells_len = pattern->rows * pattern->channels * 5;
        pattern->cells = want(pattern->cells_len);
        reference_unpack(pattern->rows, pattern->channels, pattern->data, pattern->size, pattern->cells, pattern->cells_len);
    }
}

static struct set make_set(const char *name, const struct shape *shape, size_t count, uint64_t seed)
{
    struct chance chance = {seed};
    struct set set = {name, want(count * sizeof(struct module)), count, want(PATTERNS_MOST * sizeof(struct pattern)), 0, NULL};
    for (size_t i = 0; i < count; i++) {
        module_build(&set.modules[i], shape, &chance);
        collect_patterns(&set, &set.modules[i]);
    }
    return set;
}

/* A normal module as a stripped one: cut wherever it can be, by the reference; or nowhere, with mark and version of a stripped one. */
static struct module strip(const struct module *normal, bool cut)
{
    struct module stripped = {.bytes = want(normal->length), .length = normal->length};
    if (cut) {
        stripped.length = reference_to_stripped(normal->bytes, normal->length, stripped.bytes, normal->length).count;
    } else {
        memcpy(stripped.bytes, normal->bytes, normal->length);
        stripped.bytes[37] = stripped.bytes[58] = stripped.bytes[59] = 0;
    }
    return stripped;
}

static struct set strip_set(const char *name, const struct set *normal, bool cut)
{
    size_t count = normal->module_count;
    struct set set = {name, want(count * sizeof(struct module)), count, want(PATTERNS_MOST * sizeof(struct pattern)), 0,
                      normal->modules};
    for (size_t i = 0; i < count; i++) {
        set.modules[i] = strip(&normal->modules[i], cut);
        collect_patterns(&set, &set.modules[i]);
    }
    return set;
}

/* As many tracker files are: short patterns most of whose cells are empty, and a few short samples. */
static const struct shape small_shape = {.song_length = 12, .channels = 4, .patterns = 3, .instruments = 4,
                                         .rows = 64, .cells = CELLS_SPARSE, .samples_most = 1,
                                         .sample_length_least = 64, .sample_length_most = 800};
static const struct shape dense_shape = {.song_length = 64, .channels = 16, .patterns = 100, .rows = 64, .cells = CELLS_DENSE};
static const struct shape sparse_shape = {.song_length = 64, .channels = 16, .patterns = 200, .rows = 64, .cells = CELLS_SPARSE};
static const struct shape any_form_shape = {.song_length = 64, .channels = 16, .patterns = 100, .rows = 64,
                                            .cells = CELLS_EVERY_FORM};
static const struct shape samples_shape = {.song_length = 4, .channels = 4, .patterns = 2, .instruments = 8,
                                           .rows = 64, .cells = CELLS_SPARSE, .samples_least = 16, .samples_most = 16,
                                           .sample_length_least = 130000, .sample_length_most = 130900};

/* For the tables and the reader: as many samples as a file can have, and as many patterns and instruments. */
static const struct shape every_sample_shape = {.song_length = 64, .channels = 8, .patterns = 64, .instruments = 128,
                                                .rows = 64, .cells = CELLS_SPARSE, .samples_least = 16, .samples_most = 16,
                                                .sample_length_least = 64, .sample_length_most = 800};
static const struct shape every_pattern_shape = {.song_length = 64, .channels = 8, .patterns = 256, .instruments = 128,
                                                 .rows = 64, .cells = CELLS_SPARSE, .samples_least = 1, .samples_most = 1,
                                                 .sample_length_least = 64, .sample_length_most = 800};

/* The check, too, has then nothing to do but step from structure to structure. */
static struct shape without_cells(struct shape shape)
{
    shape.cells = CELLS_NONE;
    return shape;
}

/* Every instrument and sample header ends in zeros from anywhere on, so that a stripped module has much to cut off. */
static struct shape with_zeros(struct shape shape)
{
    shape.zeros_percent = 100;
    return shape;
}

/* All sides must agree before anybody looks at a clock. */

static void disagree(const struct set *set, const char *call)
{
    fprintf(stderr, "%s of '%s': library, reference and fast.c differ: run the comparison in tests first\n", call, set->name);
    exit(1);
}

static void must_agree_on_patterns(const struct set *set, uint8_t *other, const struct side *side)
{
    for (size_t i = 0; i < set->pattern_count; i++) {
        const struct pattern *one = &set->patterns[i];
        uint64_t rows = fiddlemarsh_unpack(one->rows, one->channels, one->data, one->size, output, FIDDLEMARSH_CELLS_MOST);
        if (side->unpack(one->rows, one->channels, one->data, one->size, other, FIDDLEMARSH_CELLS_MOST) != rows ||
            memcmp(output, other, one->cells_len) != 0)
            disagree(set, "unpack");
        uint64_t packed = fiddlemarsh_pack(one->rows, one->channels, one->cells, one->cells_len, output, FIDDLEMARSH_DATA_MOST);
        if (side->pack(one->rows, one->channels, one->cells, one->cells_len, other, FIDDLEMARSH_DATA_MOST) != packed ||
            memcmp(output, other, fiddlemarsh_packed_length(packed)) != 0)
            disagree(set, "pack");
    }
}

typedef uint64_t press_call(const uint8_t *, size_t, uint8_t *, size_t);

/* A press or a conversion, into as much room as it may need. */
static void must_agree_on_press(const struct set *set, const struct module *module, const char *name, press_call *first,
                                press_call *second, uint8_t *other)
{
    size_t room = fiddlemarsh_normal_room(module->length);
    uint64_t length = first(module->bytes, module->length, output, room);
    if (second(module->bytes, module->length, other, room) != length || fiddlemarsh_refused(length) ||
        memcmp(output, other, length) != 0)
        disagree(set, name);
}

static void must_agree_on_modules(const struct set *set, const struct module *modules, uint8_t *other, const struct side *side)
{
    for (size_t i = 0; i < set->module_count; i++) {
        const struct module *module = &modules[i];
        if (fiddlemarsh_check(module->bytes, module->length) != side->check(module->bytes, module->length))
            disagree(set, "check");
        must_agree_on_press(set, module, "press", library.press, side->press, other);
        must_agree_on_press(set, module, "to_normal", library.to_normal, side->to_normal, other);
        must_agree_on_press(set, module, "to_stripped", library.to_stripped, side->to_stripped, other);
    }
}

static void must_agree_with(const struct set *set, uint8_t *other, const struct side *side)
{
    must_agree_on_modules(set, set->modules, other, side);
    if (set->normal != NULL)
        must_agree_on_modules(set, set->normal, other, side);
    must_agree_on_patterns(set, other, side);
}

static bool same_sample(size_t number)
{
    const uint32_t *numbers = &flat.samples[7 * number];
    const int8_t *tunes = &flat.tunes[2 * number];
    const struct reference_sample_row *row = &rows.samples[number];
    return numbers[0] == row->header_place && numbers[1] == row->data_place && numbers[2] == row->length &&
           numbers[3] == row->width && numbers[4] == row->loop_kind && numbers[5] == row->loop_start &&
           numbers[6] == row->loop_length && tunes[0] == row->finetune && tunes[1] == row->relative_note;
}

/* The same of the tables, and of the structures that the reader hands over. */
static void tables_must_agree(const struct set *set)
{
    for (size_t i = 0; i < set->module_count; i++) {
        const struct module *module = &set->modules[i];
        const struct reference_checked *checked = &rows.checked;
        if (library_tables(module->bytes, module->length) != 0 || reference_tables(module->bytes, module->length) != 0 ||
            memcmp(flat.patterns, rows.patterns, checked->patterns * sizeof rows.patterns[0]) != 0 ||
            memcmp(flat.instruments, rows.instruments, checked->instruments * sizeof rows.instruments[0]) != 0 ||
            timed_reader(module->bytes, module->length) != checked->patterns + checked->instruments + checked->samples)
            disagree(set, "tables");
        for (size_t number = 0; number < checked->samples; number++)
            if (!same_sample(number))
                disagree(set, "tables");
    }
}

static void must_agree(const struct set *set)
{
    uint8_t *other = want(FIDDLEMARSH_FILE_MOST);
    must_agree_with(set, other, &reference);
    must_agree_with(set, other, &fast);
    free(other);
    tables_must_agree(set);
}

/* Work to be timed: one call over a whole set */

static volatile uint64_t kept; /* so that no answer is left out */

static void run_check(const struct set *set, const struct side *side)
{
    uint64_t sum = 0;
    for (size_t i = 0; i < set->module_count; i++)
        sum += side->check(set->modules[i].bytes, set->modules[i].length);
    kept += sum;
}

static void run_unpack(const struct set *set, const struct side *side)
{
    uint64_t sum = 0;
    for (size_t i = 0; i < set->pattern_count; i++) {
        const struct pattern *pattern = &set->patterns[i];
        sum += side->unpack(pattern->rows, pattern->channels, pattern->data, pattern->size, output, FIDDLEMARSH_CELLS_MOST);
    }
    kept += sum;
}

static void run_pack(const struct set *set, const struct side *side)
{
    uint64_t sum = 0;
    for (size_t i = 0; i < set->pattern_count; i++) {
        const struct pattern *pattern = &set->patterns[i];
        sum += side->pack(pattern->rows, pattern->channels, pattern->cells, pattern->cells_len, output, FIDDLEMARSH_DATA_MOST);
    }
    kept += sum;
}

static void run_press(const struct set *set, const struct side *side)
{
    uint64_t sum = 0;
    for (size_t i = 0; i < set->module_count; i++)
        sum += side->press(set->modules[i].bytes, set->modules[i].length, output, set->modules[i].length);
    kept += sum;
}

static void run_to_normal(const struct set *set, const struct side *side)
{
    uint64_t sum = 0;
    for (size_t i = 0; i < set->module_count; i++)
        sum += side->to_normal(set->modules[i].bytes, set->modules[i].length, output, FIDDLEMARSH_FILE_MOST);
    kept += sum;
}

/* Of the modules that the set was made of. */
static void run_to_stripped(const struct set *set, const struct side *side)
{
    uint64_t sum = 0;
    for (size_t i = 0; i < set->module_count; i++)
        sum += side->to_stripped(set->normal[i].bytes, set->normal[i].length, output, set->normal[i].length);
    kept += sum;
}

static void run_tables(const struct set *set, const struct side *side)
{
    uint64_t sum = 0;
    for (size_t i = 0; i < set->module_count; i++)
        sum += side->tables(set->modules[i].bytes, set->modules[i].length);
    kept += sum;
}

static void run_reader(const struct set *set, const struct side *side)
{
    (void)side;
    uint64_t sum = 0;
    for (size_t i = 0; i < set->module_count; i++)
        sum += timed_reader(set->modules[i].bytes, set->modules[i].length);
    kept += sum;
}

static void run_copy(const struct set *set, const struct side *side)
{
    (void)side;
    for (size_t i = 0; i < set->module_count; i++) {
        memcpy(output, set->modules[i].bytes, set->modules[i].length);
        kept += output[set->modules[i].length - 1];
    }
}

/* Timing */

/* Deltas: a sample of a module's own bytes, whatever the set. Coding takes the values that decoding gave. */
static size_t delta_width;
static uint8_t deltas[DELTA_BYTES];
static int16_t delta_values[DELTA_BYTES];

static void run_decode(const struct set *set, const struct side *side)
{
    (void)set;
    kept += side->decode(delta_width, deltas, DELTA_BYTES, delta_values, DELTA_BYTES);
}

static void run_code(const struct set *set, const struct side *side)
{
    (void)set;
    kept += side->code(delta_width, delta_values, DELTA_BYTES * 8 / delta_width, deltas, DELTA_BYTES);
}

/* ADPCM: a table and the indexes of a sample, of the same bytes. */
static size_t adpcm_length;
static int16_t adpcm_values[DELTA_BYTES];

static void run_adpcm(const struct set *set, const struct side *side)
{
    (void)set;
    kept += side->adpcm(adpcm_length, deltas, 16 + (adpcm_length + 1) / 2, adpcm_values, adpcm_length);
}

typedef void work(const struct set *, const struct side *);

static double now(void)
{
    struct timespec time;
    clock_gettime(CLOCK_PROCESS_CPUTIME_ID, &time);
    return (double)time.tv_sec + 1e-9 * (double)time.tv_nsec;
}

static double time_of(work *run, const struct set *set, const struct side *side, size_t times)
{
    double start = now();
    for (size_t i = 0; i < times; i++)
        run(set, side);
    return now() - start;
}

static size_t times_for_a_turn(work *run, const struct set *set, const struct side *side)
{
    size_t times = 1;
    while (time_of(run, set, side, times) < SECONDS_FOR_A_TURN)
        times *= 2;
    return times;
}

/* Best time of one work on one side, over the best of another, taken in turns. */
static double ratio(const struct set *set, work *first, const struct side *first_side, work *second, const struct side *second_side)
{
    size_t times = times_for_a_turn(second, set, second_side);
    double first_best = 1e9, second_best = 1e9;
    for (size_t round = 0; round < rounds; round++) {
        double first_time = time_of(first, set, first_side, times), second_time = time_of(second, set, second_side, times);
        first_best = first_time < first_best ? first_time : first_best;
        second_best = second_time < second_best ? second_time : second_best;
    }
    return first_best / second_best;
}

/* The library's best time over the reference's and over that of the faster C. */
struct figure {
    double to_reference;
    double to_faster;
    bool is_fast; /* fast.c is the faster */
};

/* A table of figures has a row for each set and these columns. */
struct column {
    const char *name;
    work *run;
    int width;
};

enum { COLUMNS = 4, ROWS_MOST = 5 };

static const struct column normal_columns[COLUMNS] = {
    {"check", run_check, 7}, {"unpack", run_unpack, 7}, {"pack", run_pack, 7}, {"press", run_press, 7}};
static const struct column stripped_columns[COLUMNS] = {
    {"check", run_check, 7}, {"press", run_press, 7}, {"to_normal", run_to_normal, 11}, {"to_stripped", run_to_stripped, 11}};

static struct figure figure_of(const struct set *set, work *run)
{
    const struct side *const sides[] = {&library, &reference, &fast};
    size_t times = times_for_a_turn(run, set, &reference);
    double best[COUNT(sides)] = {1e9, 1e9, 1e9};
    for (size_t round = 0; round < rounds; round++)
        for (size_t i = 0; i < COUNT(sides); i++) {
            double time = time_of(run, set, sides[i], times);
            best[i] = time < best[i] ? time : best[i];
        }
    bool is_fast = best[2] < best[1];
    return (struct figure){best[0] / best[1], best[0] / best[is_fast ? 2 : 1], is_fast};
}

static void say_heading(const char *heading, const struct column *columns)
{
    printf("%-46s", heading);
    for (size_t i = 0; i < COLUMNS; i++)
        printf(" %*s", columns[i].width, columns[i].name);
    printf("\n");
}

static void say_ratios(const struct set *set, const struct column *columns, struct figure *figures)
{
    printf("%-46s", set->name);
    for (size_t i = 0; i < COLUMNS; i++) {
        figures[i] = figure_of(set, columns[i].run);
        printf(" %*.2f", columns[i].width, figures[i].to_reference);
        fflush(stdout);
    }
    printf("\n");
}

static void say_faster(const struct set *set, const struct column *columns, const struct figure *figures)
{
    printf("%-46s", set->name);
    for (size_t i = 0; i < COLUMNS; i++)
        printf(" %*.2f%c", columns[i].width - 1, figures[i].to_faster, figures[i].is_fast ? '*' : ' ');
    printf("\n");
}

static void say_tables(const struct set *sets, size_t set_count, const struct column *columns)
{
    struct figure figures[ROWS_MOST][COLUMNS];
    say_heading("time of the library / time of the reference", columns);
    for (size_t i = 0; i < set_count; i++) {
        must_agree(&sets[i]);
        say_ratios(&sets[i], columns, figures[i]);
    }
    printf("\n");
    say_heading("time of the library / time of the faster C", columns);
    for (size_t i = 0; i < set_count; i++)
        say_faster(&sets[i], columns, figures[i]);
    printf("\n");
}

/* A sample of 1 MiB, at both widths. */
static void say_delta_ratios(const struct set *set)
{
    memcpy(deltas, set->modules[0].bytes + set->modules[0].length - DELTA_BYTES, DELTA_BYTES);
    for (delta_width = 8; delta_width <= 16; delta_width += 8)
        printf("deltas at %2zu bits, time of the library / the reference's: decode %.2f, code %.2f\n", delta_width,
               ratio(set, run_decode, &library, run_decode, &reference), ratio(set, run_code, &library, run_code, &reference));
    printf("\n");
}

static void must_agree_on_adpcm(const struct set *set)
{
    static int16_t want[DELTA_BYTES];
    const struct side *const sides[] = {&library, &fast};
    reference.adpcm(adpcm_length, deltas, 16 + (adpcm_length + 1) / 2, want, adpcm_length);
    for (size_t i = 0; i < COUNT(sides); i++) {
        run_adpcm(set, sides[i]);
        if (memcmp(adpcm_values, want, adpcm_length * sizeof want[0]) != 0)
            disagree(set, "adpcm");
    }
}

/* A long sample, and a short one of odd length. */
static void say_adpcm_ratios(const struct set *set)
{
    const size_t lengths[] = {DELTA_BYTES, 1001};
    for (size_t i = 0; i < COUNT(lengths); i++) {
        adpcm_length = lengths[i];
        must_agree_on_adpcm(set);
        struct figure figure = figure_of(set, run_adpcm);
        printf("ADPCM of %7zu values, time of the library / the reference's: %.2f, / the faster C's: %.2f%c\n", adpcm_length,
               figure.to_reference, figure.to_faster, figure.is_fast ? '*' : ' ');
    }
    printf("\n");
}

/* Over the check of the same file; the reference's tables over its own check. */
static void say_structure_ratios(const struct set *set)
{
    printf("%-46s %8.2f %7.2f %23.2f\n", set->name, ratio(set, run_tables, &library, run_check, &library),
           ratio(set, run_reader, &library, run_check, &library), ratio(set, run_tables, &reference, run_check, &reference));
    fflush(stdout);
}

static void say_structure_table(const struct set *sets, size_t set_count)
{
    printf("time / time of the check of the same file         tables  reader  the reference's tables\n");
    for (size_t i = 0; i < set_count; i++) {
        tables_must_agree(&sets[i]);
        say_structure_ratios(&sets[i]);
    }
    printf("\n");
}

/* Stack */

/* One call at a time: the set's loop would count, too. */
static struct module stack_module;
static const struct pattern *stack_pattern;

static void stack_check(void *nothing)
{
    (void)nothing;
    kept += fiddlemarsh_check(stack_module.bytes, stack_module.length);
}

static void stack_unpack(void *nothing)
{
    (void)nothing;
    const struct pattern *pattern = stack_pattern;
    kept += fiddlemarsh_unpack(pattern->rows, pattern->channels, pattern->data, pattern->size, output, FIDDLEMARSH_CELLS_MOST);
}

static void stack_pack(void *nothing)
{
    (void)nothing;
    const struct pattern *pattern = stack_pattern;
    kept += fiddlemarsh_pack(pattern->rows, pattern->channels, pattern->cells, pattern->cells_len, output, FIDDLEMARSH_DATA_MOST);
}

static void stack_press(void *nothing)
{
    (void)nothing;
    kept += fiddlemarsh_press(stack_module.bytes, stack_module.length, output, FIDDLEMARSH_FILE_MOST);
}

static void stack_to_normal(void *nothing)
{
    (void)nothing;
    kept += fiddlemarsh_to_normal(stack_module.bytes, stack_module.length, output, FIDDLEMARSH_FILE_MOST);
}

static void stack_to_stripped(void *nothing)
{
    (void)nothing;
    kept += fiddlemarsh_to_stripped(stack_module.bytes, stack_module.length, output, FIDDLEMARSH_FILE_MOST);
}

static void stack_tables(void *nothing)
{
    (void)nothing;
    kept += library_tables(stack_module.bytes, stack_module.length);
}

static void stack_decode(void *nothing)
{
    (void)nothing;
    run_decode(NULL, &library);
}

static void stack_code(void *nothing)
{
    (void)nothing;
    run_code(NULL, &library);
}

static void stack_adpcm(void *nothing)
{
    (void)nothing;
    run_adpcm(NULL, &library);
}

/* A row of the table from each note of an octave, and the refusals. */
static uint64_t stack_note;

static void stack_period(void *nothing)
{
    (void)nothing;
    kept += fiddlemarsh_period(stack_note, 127);
}

static void keep_largest(size_t *largest, void (*run)(void *))
{
    size_t use = stack_use(run, NULL);
    *largest = use > *largest ? use : *largest;
}

/* The calls that take a module. */
static void (*const module_calls[])(void *) = {stack_check, stack_press, stack_to_normal, stack_to_stripped, stack_tables};

/* The most that any call took. */
static struct {
    size_t module[COUNT(module_calls)], unpack, pack, decode, code, adpcm, period;
} most;

/* A whole module, and cut ones. */
static void keep_module(const struct module *module)
{
    stack_module = *module;
    for (size_t i = 0; i < COUNT(module_calls); i++) {
        for (stack_module.length = 1; stack_module.length < module->length; stack_module.length *= 2) /* refusals */
            keep_largest(&most.module[i], module_calls[i]);
        stack_module.length = module->length;
        keep_largest(&most.module[i], module_calls[i]);
    }
}

static void keep_set(const struct set *set)
{
    for (size_t i = 0; i < set->module_count && i < 20; i++) {
        keep_module(&set->modules[i]);
        if (set->normal != NULL)
            keep_module(&set->normal[i]);
    }
    for (size_t i = 0; i < set->pattern_count && i < 50; i++) {
        stack_pattern = &set->patterns[i];
        keep_largest(&most.unpack, stack_unpack);
        keep_largest(&most.pack, stack_pack);
    }
}

static void say_stack(const struct set *sets, size_t set_count, const struct set *stripped_sets, size_t stripped_count)
{
    for (size_t i = 0; i < set_count; i++)
        keep_set(&sets[i]);
    for (size_t i = 0; i < stripped_count; i++)
        keep_set(&stripped_sets[i]);
    for (delta_width = 8; delta_width <= 16; delta_width += 8) {
        keep_largest(&most.decode, stack_decode);
        keep_largest(&most.code, stack_code);
    }
    keep_largest(&most.adpcm, stack_adpcm);
    for (stack_note = 0; stack_note <= FIDDLEMARSH_REAL_NOTE_MOST + 1; stack_note++)
        keep_largest(&most.period, stack_period);
    printf("largest stack use of a call, in bytes: check %zu, unpack %zu, pack %zu, press %zu, to_normal %zu, to_stripped %zu, tables %zu, "
           "decode %zu, code %zu, adpcm %zu, period %zu\n",
           most.module[0], most.unpack, most.pack, most.module[1], most.module[2], most.module[3], most.module[4], most.decode,
           most.code, most.adpcm, most.period);
}

/* The machine */

/* QEMU's translator tells its name where a hypervisor would; other emulators are known only by the command line. */
static const char *emulator_seen(void)
{
#if defined(__x86_64__)
    unsigned a, b, c, d;
    char name[13] = {0};
    if (__get_cpuid(1, &a, &b, &c, &d) && c >> 31) {
        __cpuid(0x40000000, a, b, c, d);
        memcpy(name, &b, 4), memcpy(name + 4, &c, 4), memcpy(name + 8, &d, 4);
        if (strcmp(name, "TCGTCGTCGTCG") == 0)
            return "QEMU";
    }
#endif
    return NULL;
}

static void say_conditions(const char *emulator)
{
    if (emulator == NULL)
        emulator = emulator_seen();
    printf("run: %s%s; %zu rounds in turns, best of each, processor time\n", emulator != NULL ? "EMULATED by " : "native",
           emulator != NULL ? emulator : "", rounds);
    printf("buffers: all written once before the timing, not cleared between calls\n");
    printf("C: tests/reference.c and bench/fast.c at -O3, compiled by %s; * where fast.c is the faster\n\n", __VERSION__);
}

static const char *read_arguments(int argc, char **argv)
{
    const char *emulator = NULL;
    for (int i = 1; i < argc; i += 2) {
        if (i + 1 < argc && strcmp(argv[i], "--rounds") == 0 && atoi(argv[i + 1]) > 0) {
            rounds = (size_t)atoi(argv[i + 1]);
        } else if (i + 1 < argc && strcmp(argv[i], "--emulated-by") == 0) {
            emulator = argv[i + 1];
        } else {
            fprintf(stderr, "usage: bench [--rounds N] [--emulated-by NAME]\n");
            exit(2);
        }
    }
    return emulator;
}

int main(int argc, char **argv)
{
    say_conditions(read_arguments(argc, argv));
    output = want(FIDDLEMARSH_FILE_MOST);
    memset(output, 0x55, FIDDLEMARSH_FILE_MOST);
    const struct set sets[] = {
        make_set("patterns, dense", &dense_shape, 1, 1),
        make_set("patterns, four cells in five empty, in runs", &sparse_shape, 1, 2),
        make_set("patterns, cells in every stored form", &any_form_shape, 1, 3),
        make_set("samples, near 16 MiB", &samples_shape, 1, 4),
        make_set("400 small modules", &small_shape, 400, 5),
    };
    say_tables(sets, COUNT(sets), normal_columns);
    printf("press of samples / memcpy of the same bytes: %.2f (the reference: %.2f)\n\n",
           ratio(&sets[3], run_press, &library, run_copy, &library), ratio(&sets[3], run_press, &reference, run_copy, &reference));
    say_delta_ratios(&sets[3]);
    say_adpcm_ratios(&sets[3]);
    const struct shape bare_samples = without_cells(every_sample_shape), bare_patterns = without_cells(every_pattern_shape);
    const struct set structure_sets[] = {
        make_set("128 instruments of 16 samples, 64 patterns", &every_sample_shape, 1, 6),
        make_set("the same without cells", &bare_samples, 1, 6),
        make_set("256 patterns, 128 instruments of one sample", &every_pattern_shape, 1, 7),
        make_set("the same without cells", &bare_patterns, 1, 7),
    };
    say_structure_table(structure_sets, COUNT(structure_sets));
    const struct shape small_zeros = with_zeros(small_shape), sample_zeros = with_zeros(bare_samples);
    const struct set zeros[] = {make_set("400 small modules", &small_zeros, 400, 8), make_set("2,048 samples", &sample_zeros, 1, 9)};
    const struct set stripped_sets[] = {
        strip_set("patterns, four cells in five empty, in runs", &sets[1], true),
        strip_set("samples, near 16 MiB", &sets[3], true),
        strip_set("400 small modules", &zeros[0], true),
        strip_set("2,048 samples without cells", &zeros[1], true),
        strip_set("the same, nothing cut off", &zeros[1], false),
    };
    printf("stripped modules, and normal ones of the same content that are converted to them\n\n");
    say_tables(stripped_sets, COUNT(stripped_sets), stripped_columns);
    say_stack(sets, COUNT(sets), stripped_sets, COUNT(stripped_sets));
    return 0;
}
