/* samples.c: fiddlemarsh samples, the sheet for whoever sets a board up: a line a sample. What is told of a sample stands in cell_of and
   in heads, for people and for spreadsheets alike. */

#include "commands.h"

#include "../include/fiddlemarsh.h"
#include "input.h"

#include <stdlib.h>
#include <string.h>

/* Where the name stands in a sample's header, and its bytes. */
enum { NAME_AT = 18, NAME_BYTES = 22 };

/* A cell has at most a name in which every byte is escaped. */
enum { TEXT_MOST = 5 * NAME_BYTES + 1 };

enum column { INSTRUMENT, SAMPLE, NAME, PLACE, BYTES, WIDTH, KIND, VALUES, LOOP, LOOP_START, LOOP_LENGTH, FINETUNE, RELATIVE_NOTE, COLUMNS };

static const char *const heads[COLUMNS] = {"instrument", "sample", "name",       "place",       "bytes",    "width",        "kind",
                                           "values",     "loop",   "loop start", "loop length", "finetune", "relative note"};

static const char *const loops[] = {
    [FIDDLEMARSH_LOOP_NONE] = "none", [FIDDLEMARSH_LOOP_FORWARD] = "forward", [FIDDLEMARSH_LOOP_BOTH_WAYS] = "both ways"};

/* An accepted module with its tables. */
struct sheet {
    const char *name;
    const uint8_t *file;
    uint32_t patterns[FIDDLEMARSH_PATTERN_TABLE_MOST];
    uint32_t instruments[FIDDLEMARSH_INSTRUMENT_TABLE_MOST];
    uint32_t samples[FIDDLEMARSH_SAMPLE_TABLE_MOST];
    int8_t tunes[FIDDLEMARSH_TUNE_TABLE_MOST];
};

/* A sample of a sheet. Instruments, and the samples of each, are counted from 1, as trackers do. */
struct sample {
    unsigned instrument;
    unsigned number;
    uint8_t name[NAME_BYTES];
    const uint32_t *row;
    const int8_t *tune;
    unsigned values;
    bool adpcm;
};

static struct sample sample_at(const struct sheet *sheet, uint32_t instrument, uint32_t number)
{
    const uint32_t *owner = sheet->instruments + instrument * FIDDLEMARSH_INSTRUMENT_NUMBERS;
    uint32_t at = owner[FIDDLEMARSH_INSTRUMENT_FIRST_SAMPLE] + number;
    uint32_t header_size = fiddlemarsh_sample_header_size(owner, sheet->samples);
    const uint32_t *row = sheet->samples + at * FIDDLEMARSH_SAMPLE_NUMBERS;
    struct sample sample = {.instrument = instrument + 1,
                            .number = number + 1,
                            .row = row,
                            .tune = sheet->tunes + at * FIDDLEMARSH_SAMPLE_TUNES,
                            .values = fiddlemarsh_sample_values(sheet->file, row, header_size),
                            .adpcm = fiddlemarsh_sample_is_adpcm(sheet->file, row, header_size)};
    for (uint32_t i = 0; i < NAME_BYTES; i++)
        sample.name[i] = fiddlemarsh_sample_header_byte(sheet->file, row, header_size, NAME_AT + i);
    return sample;
}

/* Names */

/* A name ends at its first zero byte, and blanks at its end are none of it. */
static size_t name_length(const uint8_t *name)
{
    size_t length = 0;
    while (length < NAME_BYTES && name[length] != 0)
        length++;
    while (length > 0 && name[length - 1] == ' ')
        length--;
    return length;
}

static bool is_printable(uint8_t byte)
{
    return byte >= ' ' && byte <= '~';
}

/* For people: which letters the other bytes are nobody knows. */
static void name_for_people(const uint8_t *name, char *text)
{
    for (size_t left = name_length(name); left > 0; left--, name++)
        *text++ = is_printable(*name) ? (char)*name : '?';
    *text = 0;
}

/* For spreadsheets: escaped as in a record of check, and so is a first letter that would make a formula of the name. */
static void name_for_sheets(const uint8_t *name, char *text)
{
    size_t length = name_length(name);
    strcpy(text, length == 0 ? "-" : "");
    for (size_t i = 0; i < length; i++) {
        bool plain = is_printable(name[i]) && name[i] != '\\' && (i > 0 || strchr("=+-@", name[i]) == NULL);
        text += sprintf(text, plain ? "%c" : "\\0%03o", name[i]);
    }
}

/* Cells */

static void cell_of(struct manner manner, const struct sample *sample, enum column column, char *text)
{
    switch (column) {
    case INSTRUMENT: sprintf(text, "%u", sample->instrument); break;
    case SAMPLE: sprintf(text, "%u", sample->number); break;
    case NAME: (manner.tsv ? name_for_sheets : name_for_people)(sample->name, text); break;
    case PLACE: sprintf(text, "%u", (unsigned)sample->row[FIDDLEMARSH_SAMPLE_DATA_PLACE]); break;
    case BYTES: sprintf(text, "%u", (unsigned)sample->row[FIDDLEMARSH_SAMPLE_LENGTH]); break;
    case WIDTH: sprintf(text, "%u", (unsigned)sample->row[FIDDLEMARSH_SAMPLE_WIDTH]); break;
    case KIND: strcpy(text, sample->adpcm ? "ADPCM" : "delta"); break;
    case VALUES: sprintf(text, "%u", sample->values); break;
    case LOOP: strcpy(text, loops[sample->row[FIDDLEMARSH_SAMPLE_LOOP_KIND]]); break;
    case LOOP_START: sprintf(text, "%u", (unsigned)sample->row[FIDDLEMARSH_SAMPLE_LOOP_START]); break;
    case LOOP_LENGTH: sprintf(text, "%u", (unsigned)sample->row[FIDDLEMARSH_SAMPLE_LOOP_LENGTH]); break;
    case FINETUNE: sprintf(text, "%d", sample->tune[FIDDLEMARSH_SAMPLE_FINETUNE]); break;
    case RELATIVE_NOTE: sprintf(text, "%d", sample->tune[FIDDLEMARSH_SAMPLE_RELATIVE_NOTE]); break;
    case COLUMNS: break;
    }
}

/* Lines */

/* What is done with each line of a sheet: its cells are measured, or told. */
typedef void line_work(const char *const *cells, size_t *widths);

static void measure_line(const char *const *cells, size_t *widths)
{
    for (unsigned i = 0; i < COLUMNS; i++)
        widths[i] = strlen(cells[i]) > widths[i] ? strlen(cells[i]) : widths[i];
}

/* Words begin, and numbers end, below one another. */
static void say_aligned(const char *const *cells, size_t *widths)
{
    for (unsigned i = 0; i < COLUMNS; i++) {
        int width = (int)widths[i];
        bool word = i == NAME || i == KIND || i == LOOP;
        printf("%s%*s", i == 0 ? "" : "  ", word ? -width : width, cells[i]);
    }
    putchar('\n');
}

static void say_fields(const char *const *cells, size_t *widths)
{
    (void)widths;
    for (unsigned i = 0; i < COLUMNS; i++)
        printf("%s%s", i == 0 ? "" : "\t", cells[i]);
    putchar('\n');
}

static void each_line(struct manner manner, const struct sheet *sheet, line_work *work, size_t *widths)
{
    char texts[COLUMNS][TEXT_MOST];
    const char *cells[COLUMNS];
    work(heads, widths);
    for (uint32_t i = 0; i < fiddlemarsh_instruments(sheet->file); i++)
        for (uint32_t j = 0; j < sheet->instruments[i * FIDDLEMARSH_INSTRUMENT_NUMBERS + FIDDLEMARSH_INSTRUMENT_SAMPLES]; j++) {
            struct sample sample = sample_at(sheet, i, j);
            for (unsigned k = 0; k < COLUMNS; k++) {
                cell_of(manner, &sample, k, texts[k]);
                cells[k] = texts[k];
            }
            work(cells, widths);
        }
}

static void say_table(struct manner manner, const struct sheet *sheet)
{
    size_t widths[COLUMNS] = {0};
    unsigned samples = fiddlemarsh_samples(sheet->file, sheet->instruments), instruments = fiddlemarsh_instruments(sheet->file);
    say_name(stdout, sheet->name);
    printf(": %u sample%s in %u instrument%s\n", samples, samples == 1 ? "" : "s", instruments, instruments == 1 ? "" : "s");
    if (samples == 0)
        return;
    each_line(manner, sheet, measure_line, widths);
    each_line(manner, sheet, say_aligned, widths);
    puts("A place is that of a sample's data, a byte of the file, counted from 0. Values, loop start and loop length count samples.");
}

enum status say_samples(struct manner manner, char *named)
{
    static struct sheet sheet;
    struct name name = {.text = named};
    struct input input;
    if (!read_input(&name, &input))
        return TROUBLE;
    uint64_t answer = fiddlemarsh_tables(input.bytes.first, input.bytes.length, sheet.patterns, FIDDLEMARSH_PATTERN_TABLE_MOST,
                                         sheet.instruments, FIDDLEMARSH_INSTRUMENT_TABLE_MOST, sheet.samples,
                                         FIDDLEMARSH_SAMPLE_TABLE_MOST, sheet.tunes, FIDDLEMARSH_TUNE_TABLE_MOST);
    enum status status = ACCEPTED;
    sheet.name = named;
    sheet.file = input.bytes.first;
    if (fiddlemarsh_refused(answer))
        status = say_refusal(stderr, (struct finding){.name = named, .answer = answer, .length = input.bytes.length});
    else if (manner.tsv)
        each_line(manner, &sheet, say_fields, NULL);
    else
        say_table(manner, &sheet);
    free(input.bytes.first);
    return status;
}
