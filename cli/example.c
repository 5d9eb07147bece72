/* example.c: makes an example module, as a tracker that doesn't pack would save it: a melody over a bass line and one silent
   pattern, played by an instrument with one looped 8-bit sample. Pressing it makes it much shorter.

   example FILE */

#include <stdint.h>
#include <stdio.h>
#include <string.h>

enum {
    CHANNELS = 4,
    ROWS = 64,
    PATTERNS = 3,
    CELL = 5,
    WAVE = 64,  /* bytes of one period */
    TURNS = 24, /* periods in the sample */
    LENGTH_MOST = 16384
};

static uint8_t file[LENGTH_MOST];
static size_t length;

static void put(const void *bytes, size_t count)
{
    memcpy(file + length, bytes, count);
    length += count;
}

static void put_number(uint32_t number, size_t width)
{
    for (; width > 0; width--, number >>= 8)
        file[length++] = (uint8_t)number;
}

static void put_text(const char *text, size_t width)
{
    char field[32] = {0};
    memcpy(field, text, strlen(text) < width ? strlen(text) : width);
    put(field, width);
}

static void put_zeros(size_t count)
{
    memset(file + length, 0, count);
    length += count;
}

static void put_header(void)
{
    const uint8_t order[256] = {2, 0, 1, 0, 1, 2};
    put("Extended Module: ", 17);
    put_text("Marsh lights", 20);
    put_number(0x1A, 1);
    put_text("Fiddlemarsh example", 20);
    put_number(0x0104, 2);
    put_number(276, 4);
    put_number(6, 2); /* song length */
    put_number(1, 2); /* restart */
    put_number(CHANNELS, 2);
    put_number(PATTERNS, 2);
    put_number(1, 2);   /* instruments */
    put_number(1, 2);   /* flags: linear periods */
    put_number(6, 2);   /* tempo */
    put_number(125, 2); /* BPM */
    put(order, sizeof order);
}

/* A note and its instrument; a volume on every first beat, and now and then a vibrato. */
static void write_note(uint8_t *cell, unsigned row, unsigned note)
{
    cell[0] = (uint8_t)note;
    cell[1] = 1;
    cell[2] = row % 16 == 0 ? 0x50 : 0;
    if (row % 24 == 8) {
        cell[3] = 4;
        cell[4] = 0x34;
    }
}

static void put_pattern(unsigned number)
{
    static const uint8_t melody[16] = {49, 52, 56, 61, 59, 56, 52, 49, 47, 51, 54, 59, 57, 54, 51, 47};
    static const uint8_t bass[4] = {25, 25, 23, 30};
    uint8_t cells[ROWS][CHANNELS][CELL];
    memset(cells, 0, sizeof cells);
    for (unsigned row = 0; row < ROWS && number < 2; row++) {
        if (row % 4 == 0)
            write_note(cells[row][0], row, melody[(row / 4 + 4 * number) % 16]);
        if (row % 8 == 4)
            write_note(cells[row][1], row, melody[(row / 4 + 7) % 16] + 12u);
        if (row % 16 == 0)
            write_note(cells[row][2], row, bass[row / 16]);
        if (row % 16 == 14)
            cells[row][2][0] = 97; /* key off */
    }
    put_number(9, 4);
    put_number(0, 1);
    put_number(ROWS, 2);
    put_number(sizeof cells, 2);
    put(cells, sizeof cells); /* plain, as every note is below 128 */
}

/* A triangle that loses its edge and grows quieter, as differences. */
static void put_sample_data(void)
{
    int before = 0;
    for (int i = 0; i < WAVE * TURNS; i++) {
        int step = i % WAVE, height = step < WAVE / 2 ? 2 * step - WAVE / 2 : 3 * WAVE / 2 - 2 * step;
        int value = height * 3 * (TURNS - i / WAVE) / TURNS;
        put_number((uint32_t)(value - before) & 255, 1);
        before = value;
    }
}

static void put_instrument(void)
{
    put_number(263, 4);
    put_text("plucked triangle", 22);
    put_number(0, 1);
    put_number(1, 2);  /* samples */
    put_number(40, 4); /* sample header size */
    put_zeros(96 + 48 + 48 + 14);
    put_number(1024, 2); /* fadeout */
    put_zeros(22);
    put_number(WAVE * TURNS, 4);
    put_number(WAVE * (TURNS - 4), 4); /* loop start */
    put_number(WAVE * 4, 4);           /* loop length */
    put_number(64, 1);                 /* volume */
    put_number(0, 1);                  /* finetune */
    put_number(1, 1);                  /* type: 8-bit, forward loop */
    put_number(128, 1);                /* panning */
    put_number(12, 1);                 /* relative note */
    put_number(0, 1);                  /* kind */
    put_text("triangle", 22);
    put_sample_data();
}

int main(int argc, char **argv)
{
    if (argc != 2) {
        fprintf(stderr, "usage: example FILE\n");
        return 2;
    }
    put_header();
    for (unsigned number = 0; number < PATTERNS; number++)
        put_pattern(number);
    put_instrument();
    FILE *out = fopen(argv[1], "wb");
    if (out == NULL || fwrite(file, 1, length, out) != length || fclose(out) != 0) {
        perror(argv[1]);
        return 2;
    }
    return 0;
}
