/* header_test.c: the header's numbers, names, sentences and functions are those that are written out here, and README's table of
   refusals has the same sentences. Compiled as C99 and as C++.

   header_test README */

#include "../include/fiddlemarsh.h"

#include <stdio.h>
#include <string.h>

static int wrong;

static void must(int holds, int line)
{
    if (holds)
        return;
    fprintf(stderr, "header_test.c:%d: does not hold\n", line);
    wrong = 1;
}

#define MUST(condition) must(condition, __LINE__)
#define TEXT_OF(number) #number
#define TEXT(number) TEXT_OF(number)

struct refusal {
    uint32_t number; /* by the rules */
    uint32_t constant;
    const char *name;
    const char *words;
};

static const struct refusal refusals[] = {
    {0, FIDDLEMARSH_ACCEPTED, "accepted", "nothing is wrong with it"},
    {1, FIDDLEMARSH_CUT, "cut",
     "the file ends before all of it is there: it was cut short on its way, or a size in it is wrong; save it anew and send it again"},
    {2, FIDDLEMARSH_FILE_TOO_LONG, "file_too_long",
     "the file is over 16,777,216 bytes, or would be once converted, too large for a board: shorten its samples"},
    {3, FIDDLEMARSH_MARK_OR_VERSION, "mark_or_version",
     "this is no XM module, or a very old one: save it as XM 1.04"},
    {4, FIDDLEMARSH_HEADER_SIZE, "header_size",
     "the header has no room for the order table: save the module with another tracker"},
    {5, FIDDLEMARSH_HEADER_COUNTS, "header_counts",
     "FastTracker II allows 1 to 256 orders, 1 to 256 patterns, 1 to 64 channels and up to 128 instruments, and this module has more, "
     "or none: keep to them"},
    {6, FIDDLEMARSH_PATTERN_HEADER, "pattern_header",
     "the pattern at this place has no rows or over 256, or its header is cut: give it 1 to 256 rows, or save the module with "
     "another tracker"},
    {7, FIDDLEMARSH_CELL_CUT, "cell_cut",
     "the pattern's stored size is too small for its rows: save the module with another tracker"},
    {8, FIDDLEMARSH_CELLS_LEFT_OVER, "cells_left_over",
     "the pattern's stored size is too large for its rows: save the module with another tracker"},
    {9, FIDDLEMARSH_NOTE, "note",
     "the note at this place is above 97, which older versions refused: every note is kept now, so check the module again"},
    {10, FIDDLEMARSH_INSTRUMENT, "instrument",
     "the instrument at this place has over 16 samples, or its header is cut: leave it 16, or save the module with another tracker"},
    {11, FIDDLEMARSH_SAMPLE_HEADER_SIZE, "sample_header_size",
     "the samples of the instrument at this place were written by a broken tool: save the module with another tracker"},
    {12, FIDDLEMARSH_SAMPLE_KIND, "sample_kind",
     "the sample at this place is packed as ADPCM and marked as 16-bit, which cannot both be: save it plain"},
    {13, FIDDLEMARSH_SAMPLE_LOOP_OR_LENGTH, "sample_loop_or_length",
     "the loop of the sample at this place does not lie inside it, or goes forward and back at once, or begins or ends within a value, "
     "or half a value is left at the sample's end: set its loop and its end again"},
    {14, FIDDLEMARSH_ROOM, "room",
     "the room lent for the answer is too short: nothing is wrong with the module, the program has to lend more"},
    {15, FIDDLEMARSH_PACKED_TOO_LONG, "packed_too_long",
     "the pattern would take over 65,535 bytes: there is too much in it, so split it"},
    {16, FIDDLEMARSH_ARGUMENT, "argument",
     "an argument is out of its range: nothing is wrong with the module, the program asked for what is not there"},
};

#define REFUSAL_COUNT (sizeof refusals / sizeof refusals[0])

static void test_refusals(void)
{
    MUST(REFUSAL_COUNT == 17);
    for (uint32_t i = 0; i < REFUSAL_COUNT; i++) {
        const struct refusal *refusal = &refusals[i];
        int right = refusal->number == i && refusal->constant == i && strcmp(fiddlemarsh_refusal_name(i), refusal->name) == 0 &&
                    strcmp(fiddlemarsh_refusal_words(i), refusal->words) == 0;
        if (!right)
            fprintf(stderr, "refusal number %u, %s: its constant, name or sentence is another\n", (unsigned)i, refusal->name);
        MUST(right);
    }
    MUST(strcmp(fiddlemarsh_refusal_name(17), "unknown") == 0 && strcmp(fiddlemarsh_refusal_name(0xFFFFFFFFu), "unknown") == 0);
    MUST(strcmp(fiddlemarsh_refusal_words(17), "this program does not know that number: it is older than the library that gave it") == 0);
}

static void test_answers(void)
{
    const uint64_t refused = (uint64_t)13 << 32 | 16777215u; /* number 13 at the last place of a file */
    const uint64_t least = (uint64_t)1 << 32, most = least - 1;
    const uint64_t packed = 65535u + 65536u * 256u; /* the longest packed pattern, 256 rows */
    MUST(fiddlemarsh_refused(refused) && !fiddlemarsh_refused(packed) && !fiddlemarsh_refused(345));
    MUST(fiddlemarsh_refused(least) == 1 && fiddlemarsh_refused(most) == 0 && fiddlemarsh_refused(0) == 0);
    MUST(fiddlemarsh_refusal(refused) == 13 && fiddlemarsh_refusal(least) == 1 && fiddlemarsh_refusal(345) == 0);
    MUST(fiddlemarsh_place(refused) == 16777215u && fiddlemarsh_place(least) == 0 && fiddlemarsh_place(345) == 0);
    MUST(fiddlemarsh_end(345) == 345 && fiddlemarsh_end(refused) == 0);
    MUST(fiddlemarsh_unpacked_rows(64) == 64 && fiddlemarsh_unpacked_rows(refused) == 0);
    MUST(fiddlemarsh_packed_length(packed) == 65535u && fiddlemarsh_packed_rows(packed) == 256u);
    MUST(fiddlemarsh_packed_length(2097152) == 0 && fiddlemarsh_packed_rows(2097152) == 32); /* 32 empty rows */
    MUST(fiddlemarsh_packed_length(refused) == 0 && fiddlemarsh_packed_rows(refused) == 0);
    MUST(fiddlemarsh_length(16777216) == 16777216u && fiddlemarsh_length(refused) == 0);
    MUST(fiddlemarsh_decoded_values(16777216) == 16777216u && fiddlemarsh_decoded_values(refused) == 0);
    MUST(fiddlemarsh_coded_bytes(33554432) == 33554432u && fiddlemarsh_coded_bytes(refused) == 0);
    MUST(fiddlemarsh_period_dividend(160096) == 29024 && fiddlemarsh_period_divisor(160096) == 2);
    MUST(fiddlemarsh_period_dividend(67124232) == 15368 && fiddlemarsh_period_divisor(67124232) == 1024);
    MUST(fiddlemarsh_period_dividend(refused) == 0 && fiddlemarsh_period_divisor(refused) == 0);
}

static void test_counts(void)
{
    uint8_t file[80];
    const uint32_t instruments[6] = {4000, 3, 0, 5000, 16, 3};
    for (size_t i = 0; i < sizeof file; i++)
        file[i] = (uint8_t)i;
    MUST(fiddlemarsh_is_stripped(file) == 0);
    file[37] = 0x1A;
    MUST(fiddlemarsh_is_stripped(file) == 0);
    file[37] = 0;
    MUST(fiddlemarsh_is_stripped(file) == 1);
    MUST(fiddlemarsh_channels(file) == 17732 && fiddlemarsh_patterns(file) == 18246 && fiddlemarsh_instruments(file) == 18760);
    file[72] = 2, file[73] = 0;
    MUST(fiddlemarsh_instruments(file) == 2 && fiddlemarsh_samples(file, instruments) == 19);
    file[72] = 1;
    MUST(fiddlemarsh_samples(file, instruments) == 3);
    file[72] = 0;
    MUST(fiddlemarsh_samples(file, instruments) == 0 && fiddlemarsh_samples(file, NULL) == 0);
}

/* Two rows, and a sample header where the second one says, of any size: what is cut off reads as 0. */
static void test_sample_headers(void)
{
    uint8_t file[64] = {0};
    const uint32_t rows[14] = {40, 64, 0, 8, 0, 0, 0, 20, 64, 0, 16, 0, 0, 0};
    const uint32_t *row = rows + FIDDLEMARSH_SAMPLE_NUMBERS;
    file[20] = 0x01, file[21] = 0x02, file[22] = 0x03, file[23] = 0x84;
    MUST(fiddlemarsh_sample_header_length(file, row, 40) == 0x84030201u && fiddlemarsh_sample_is_adpcm(file, row, 40) == 0);
    file[40] = 7;
    MUST(fiddlemarsh_sample_values(file, rows, 40) == 7 && fiddlemarsh_sample_values(file, row, 40) == 0x42018100u);
    MUST(fiddlemarsh_sample_values(file, rows, 1) == 7 && fiddlemarsh_sample_values(file, row, 2) == 0x0100u);
    file[37] = 0xAD;
    MUST(fiddlemarsh_sample_is_adpcm(file, row, 40) == 1 && fiddlemarsh_sample_is_adpcm(file, rows, 40) == 0);
    MUST(fiddlemarsh_sample_is_adpcm(file, row, 18) == 1 && fiddlemarsh_sample_is_adpcm(file, row, 17) == 0);
    MUST(fiddlemarsh_sample_header_byte(file, row, 18, 17) == 0xAD && fiddlemarsh_sample_header_byte(file, row, 17, 17) == 0);
    MUST(fiddlemarsh_sample_header_length(file, row, 4) == 0x84030201u && fiddlemarsh_sample_header_length(file, row, 3) == 0x030201u);
    MUST(fiddlemarsh_sample_header_length(file, row, 1) == 1 && fiddlemarsh_sample_header_length(file, row, 0) == 0);
}

/* Four instruments: two samples of headers of 41 bytes; none; sixteen of none; and one of 3. */
static void test_sample_header_sizes(void)
{
    const uint32_t instruments[12] = {345, 2, 0, 700, 0, 2, 729, 16, 2, 757, 1, 18};
    uint32_t samples[19 * FIDDLEMARSH_SAMPLE_NUMBERS] = {0};
    const uint32_t places[4][3] = {{0, 608, 690}, {1, 649, 700}, {2, 757, 757}, {18, 787, 790}};
    for (size_t i = 0; i < 4; i++) {
        uint32_t *row = samples + places[i][0] * FIDDLEMARSH_SAMPLE_NUMBERS;
        row[FIDDLEMARSH_SAMPLE_HEADER_PLACE] = places[i][1];
        row[FIDDLEMARSH_SAMPLE_DATA_PLACE] = places[i][2];
    }
    MUST(fiddlemarsh_sample_header_size(instruments, samples) == 41);
    MUST(fiddlemarsh_sample_header_size(instruments + 3, samples) == 0 && fiddlemarsh_sample_header_size(instruments + 3, NULL) == 0);
    MUST(fiddlemarsh_sample_header_size(instruments + 6, samples) == 0);
    MUST(fiddlemarsh_sample_header_size(instruments + 9, samples) == 3);
}

/* 128 instruments of 28 bytes with 16 samples each, whose headers have no bytes, behind one order and one pattern header; as a normal
   module they take 263 + 16 x 40 each, and the order table 255 more. */
static void test_normal_room(void)
{
    MUST(FIDDLEMARSH_NORMAL_MORE_MOST == 336 + 9 + 128 * (263 + 16 * 40) - (81 + 9 + 128 * 28));
    MUST(fiddlemarsh_normal_room(0) == 112255 && fiddlemarsh_normal_room(90) == 112345);
    MUST(fiddlemarsh_normal_room(16664960) == 16777215 && fiddlemarsh_normal_room(16664961) == 16777216);
    MUST(fiddlemarsh_normal_room(16664962) == 16777216 && fiddlemarsh_normal_room(16777216) == 16777216);
    MUST(fiddlemarsh_normal_room(16777217) == 16777216 && fiddlemarsh_normal_room((size_t)-1) == 16777216);
}

static void test_constants(void)
{
    MUST(FIDDLEMARSH_FILE_MOST == 16777216 && FIDDLEMARSH_DATA_MOST == 65535);
    MUST(FIDDLEMARSH_NORMAL_MORE_MOST == 112255);
    MUST(FIDDLEMARSH_ROWS_MOST == 256 && FIDDLEMARSH_CHANNELS_MOST == 64);
    MUST(FIDDLEMARSH_PATTERNS_MOST == 256 && FIDDLEMARSH_INSTRUMENTS_MOST == 128 && FIDDLEMARSH_SAMPLES_MOST == 2048);
    MUST(FIDDLEMARSH_VALUES_MOST == 33554432);
    MUST(FIDDLEMARSH_REAL_NOTE_MOST == 118);
    MUST(FIDDLEMARSH_CELL_BYTES == 5 && FIDDLEMARSH_CELLS_MOST == 81920);
    MUST(FIDDLEMARSH_CELLS_SIZE(256, 64) == 81920 && FIDDLEMARSH_CELLS_SIZE(1, 1) == 5 && FIDDLEMARSH_CELLS_SIZE(60 + 4, 3 + 1) == 1280);
    MUST(sizeof FIDDLEMARSH_CELLS_SIZE(1, 1) == sizeof(size_t));
    MUST(FIDDLEMARSH_PATTERN_NUMBERS == 3 && FIDDLEMARSH_PATTERN_TABLE_MOST == 768);
    MUST(FIDDLEMARSH_PATTERN_DATA_PLACE == 0 && FIDDLEMARSH_PATTERN_DATA_SIZE == 1 && FIDDLEMARSH_PATTERN_ROWS == 2);
    MUST(FIDDLEMARSH_INSTRUMENT_NUMBERS == 3 && FIDDLEMARSH_INSTRUMENT_TABLE_MOST == 384);
    MUST(FIDDLEMARSH_INSTRUMENT_PLACE == 0 && FIDDLEMARSH_INSTRUMENT_SAMPLES == 1 && FIDDLEMARSH_INSTRUMENT_FIRST_SAMPLE == 2);
    MUST(FIDDLEMARSH_SAMPLE_NUMBERS == 7 && FIDDLEMARSH_SAMPLE_TABLE_MOST == 14336);
    MUST(FIDDLEMARSH_SAMPLE_HEADER_PLACE == 0 && FIDDLEMARSH_SAMPLE_DATA_PLACE == 1);
    MUST(FIDDLEMARSH_SAMPLE_LENGTH == 2 && FIDDLEMARSH_SAMPLE_WIDTH == 3);
    MUST(FIDDLEMARSH_SAMPLE_LOOP_KIND == 4 && FIDDLEMARSH_SAMPLE_LOOP_START == 5 && FIDDLEMARSH_SAMPLE_LOOP_LENGTH == 6);
    MUST(FIDDLEMARSH_LOOP_NONE == 0 && FIDDLEMARSH_LOOP_FORWARD == 1 && FIDDLEMARSH_LOOP_BOTH_WAYS == 2);
    MUST(FIDDLEMARSH_SAMPLE_TUNES == 2 && FIDDLEMARSH_TUNE_TABLE_MOST == 4096);
    MUST(FIDDLEMARSH_SAMPLE_FINETUNE == 0 && FIDDLEMARSH_SAMPLE_RELATIVE_NOTE == 1);
    MUST(strcmp(FIDDLEMARSH_VERSION, TEXT(FIDDLEMARSH_VERSION_MAJOR) "." TEXT(FIDDLEMARSH_VERSION_MINOR) "." TEXT(
                                         FIDDLEMARSH_VERSION_PATCH)) == 0);
    MUST(FIDDLEMARSH_VERSION_MAJOR == 6 && FIDDLEMARSH_VERSION_MINOR == 0 && FIDDLEMARSH_VERSION_PATCH == 5);
}

/* README has a row for each number, which ends with its sentence. */
static void test_readme(const char *name)
{
    char line[1024], begins[16], ends[512];
    FILE *readme = fopen(name, "r");
    size_t found = 1; /* 0 has nothing to tell */
    MUST(readme != NULL);
    while (readme != NULL && fgets(line, sizeof line, readme) != NULL) {
        snprintf(begins, sizeof begins, "| %u | ", (unsigned)found);
        if (found >= REFUSAL_COUNT || strncmp(line, begins, strlen(begins)) != 0)
            continue;
        snprintf(ends, sizeof ends, " | %s |\n", refusals[found].words);
        if (strlen(line) < strlen(ends) || strcmp(line + strlen(line) - strlen(ends), ends) != 0)
            break;
        found++;
    }
    if (found < REFUSAL_COUNT)
        fprintf(stderr, "%s: the row of refusal number %u does not end with the header's sentence\n", name, (unsigned)found);
    MUST(found == REFUSAL_COUNT);
    if (readme != NULL)
        fclose(readme);
}

int main(int argc, char **argv)
{
    if (argc != 2) {
        fprintf(stderr, "usage: header_test README\n");
        return 2;
    }
    test_refusals();
    test_answers();
    test_counts();
    test_sample_headers();
    test_sample_header_sizes();
    test_normal_room();
    test_constants();
    test_readme(argv[1]);
    if (!wrong)
        printf("header_test: all hold\n");
    return wrong;
}
