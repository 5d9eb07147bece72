/* fiddlemarsh.h: checking, opening, packing, pressing and converting FastTracker II (XM) modules, version 0x0104, and Stripped
   Modules. This file is the manual.

   C99 or later, and C++. Link with libfiddlemarsh.a; of other libraries it needs at most memset and memcpy, which every libc has.
   Where it is installed:

       cc program.c $(pkg-config --cflags --libs fiddlemarsh)


   Memory

   Every slice is a pointer and its length. Lengths count bytes, unless a call says otherwise. The caller owns all of it,
   before, during and after a call: the library allocates nothing, frees nothing, and keeps no pointer. A pointer must be good for
   its whole length (readable, and for what a call fills writable), and may be NULL if the length is 0. Bytes need no alignment;
   numbers of 16 and 32 bits need that of their types.
   What a call writes must not overlap what it reads, nor one thing that it fills another: pressing, converting, packing or decoding
   in place is not possible.

   Threads

   There is no state. Any number of threads may call at once, also on the same input, as long as no two calls write to the same
   memory and nobody changes a call's input while it runs. A call never waits, and never fails to return.

   Answers

   Each call returns one 64-bit number. From 2^32 up it is a refusal: the refusal's number times 2^32, plus the place. Below
   2^32 the call did its work, and the answer is what is said at the call. The functions behind the calls take an answer apart,
   and give a name and a sentence for each refusal number. The end of this file shows a whole program.

   A refused call changed nothing: all memory lent to it holds what it held. A call that did its work changed only what it is
   said to fill; what lies beyond stays. Input is never changed. Every number and every byte is fixed by the input: the same
   call gives the same answer, always.

   The first fault in the order of the file is the answer. A place counts bytes from 0, from the start of the slice that is
   read.

   Machine

   The library is code for x86-64 by the System V ABI, as Linux and the BSDs have it: pointers and size_t of 64 bits. It is
   position independent, and uses no registers but the general ones and those of SSE2, which every x86-64 has.

   Stack and time

   Stack is what a call takes below its caller's, return address included: the most that was measured on x86-64.

       call       stack, bytes    time grows with
       check               360    file_len: what stands in headers and patterns is read once, sample data are passed over
       unpack              224    data_len + rows x channels
       pack                 72    cells_len
       press               680    file_len: as the check, and once more what is written
       to_normal           680    file_len: as the check, and once more what is written
       to_stripped         680    file_len: as the check, and once more what is written
       tables              536    file_len: as the check, and once more the headers
       decode               40    bytes_len
       code                 64    values_len
       adpcm                56    length
       period               24    nothing: it is the same for all

   Time grows in proportion to that and no faster, whatever the input holds.

   Normal and stripped modules

   There are two kinds of module, and every call that takes a module takes both. In a normal one the mark (byte 37) is 1A hex and the
   version (bytes 58 and 59) 0x0104. In a stripped one, a Stripped Module, both are 0. It is shorter: its order table ends with the
   song, and each of its instruments and sample headers may be cut off anywhere, and what is cut off reads as 0. ID text and tracker
   name say nothing in it. Which kind an accepted module is, fiddlemarsh_is_stripped tells. Pressing leaves a module the kind that it
   is; fiddlemarsh_to_normal and fiddlemarsh_to_stripped convert it.
   Who reads a sample header from the file, at the place that the table has, must heed how long it is
   (fiddlemarsh_sample_header_size): behind it stand other bytes, or none. The same holds of an instrument, whose first four bytes
   say how long it is: from there on its name and all else in it read as 0.

   Pressed files and players

   A pressed file begins with the ID text "Extended module: ", as the rules of the boards have it. FastTracker II writes a capital
   M there, and players that insist on it do not open pressed files (xmp and openmpt123 open none of 70). The boards read the mark
   (byte 37) and the version (bytes 58 and 59), and so does the check. The same holds of a module that is converted to a normal one.
   A stripped one begins with 17 nulls.

   Versions

   Header and library have one version, FIDDLEMARSH_VERSION below, and belong together: the header of one version is not for the
   library of another. From one version to the next there may change,
       if only the patch number is another: time, stack, and the sentences for people, which nobody should compare;
       if the minor number is another: also, there may be more calls, functions, constants, and refusal numbers that only new
           calls give;
       if the major number is another: anything, such as which files are accepted, what a number stands for, and the tables' rows.
   So treat a refusal number that you do not know as a refusal like any other. */

#ifndef FIDDLEMARSH_H
#define FIDDLEMARSH_H

#include <stddef.h>
#include <stdint.h>

#ifdef __cplusplus
extern "C" {
#endif

#define FIDDLEMARSH_VERSION_MAJOR 6
#define FIDDLEMARSH_VERSION_MINOR 0
#define FIDDLEMARSH_VERSION_PATCH 5
#define FIDDLEMARSH_VERSION "6.0.5"

/* The refusal numbers, and the place that comes with each. */
enum fiddlemarsh_number {
    FIDDLEMARSH_ACCEPTED = 0,
    /* A structure or its data reaches past the end of the file. Place: the start of the header, pattern or instrument that is
       cut; for cut sample headers, their instrument's start; for cut sample data, where that data would begin. */
    FIDDLEMARSH_CUT = 1,
    /* The file is over FIDDLEMARSH_FILE_MOST bytes, or would be once it is converted. Place 0. */
    FIDDLEMARSH_FILE_TOO_LONG = 2,
    /* Mark (byte 37) and version are neither 1A hex and 0x0104, as in a normal module, nor both 0, as in a stripped one: no XM
       module. Place 0. */
    FIDDLEMARSH_MARK_OR_VERSION = 3,
    /* The header size is below 276, or in a stripped module below 20 + song length. Place 0. */
    FIDDLEMARSH_HEADER_SIZE = 4,
    /* Song length or patterns not 1..256, channels not 1..64, or instruments above 128. Place 0. */
    FIDDLEMARSH_HEADER_COUNTS = 5,
    /* A pattern header's length is below 9, or its rows are not 1..256. Place: the pattern's start. */
    FIDDLEMARSH_PATTERN_HEADER = 6,
    /* A cell needs a byte past its pattern's data. Place: where the cell's lead byte stands, or would stand. */
    FIDDLEMARSH_CELL_CUT = 7,
    /* Bytes are left after a pattern's last cell. Place: the first of them. */
    FIDDLEMARSH_CELLS_LEFT_OVER = 8,
    /* No longer given: every note is kept. Before version 3.0.0, a note above 97; place: the cell's lead byte, in packing the cell's
       first byte. The number stays for those who read old logs. */
    FIDDLEMARSH_NOTE = 9,
    /* An instrument's size is below 29, it has over 16 samples, or its size is below 263 and it has samples; in a stripped module,
       its size is below 4, or it has over 16 samples. Place: the instrument's start. */
    FIDDLEMARSH_INSTRUMENT = 10,
    /* A sample header size is below 40. Never given of a stripped module. Place: the instrument's start. */
    FIDDLEMARSH_SAMPLE_HEADER_SIZE = 11,
    /* A sample's kind is AD hex (ADPCM), and its type has the 16-bit bit set. Place: the sample header's start. */
    FIDDLEMARSH_SAMPLE_KIND = 12,
    /* A sample's loop bits are 3, its length is odd at 16 bits, it loops past its own end, or it loops at 16 bits and its loop start or
       loop length is odd. Place: the sample header's start. */
    FIDDLEMARSH_SAMPLE_LOOP_OR_LENGTH = 13,
    /* The buffer lent for the answer is too short. Tried last of all: with a longer buffer the call would succeed. Place 0. */
    FIDDLEMARSH_ROOM = 14,
    /* The packed pattern would exceed 65,535 bytes. Only packing gives it, and only from 43 channels up. Place 0. */
    FIDDLEMARSH_PACKED_TOO_LONG = 15,
    /* An argument is out of its range. Place 0. */
    FIDDLEMARSH_ARGUMENT = 16
};

/* Limits, for callers that set memory aside beforehand. */
#define FIDDLEMARSH_FILE_MOST 16777216 /* bytes of a module */
#define FIDDLEMARSH_NORMAL_MORE_MOST 112255 /* bytes by which a module may grow when it is converted to a normal one */
#define FIDDLEMARSH_DATA_MOST 65535    /* bytes of one pattern's stored cells */
#define FIDDLEMARSH_ROWS_MOST 256      /* rows of a pattern */
#define FIDDLEMARSH_CHANNELS_MOST 64
#define FIDDLEMARSH_PATTERNS_MOST 256
#define FIDDLEMARSH_INSTRUMENTS_MOST 128
#define FIDDLEMARSH_SAMPLES_MOST 2048 /* of a module: 128 instruments with 16 each */
#define FIDDLEMARSH_VALUES_MOST 33554432 /* values of a sample: ADPCM has two to a byte */
#define FIDDLEMARSH_REAL_NOTE_MOST 118 /* of a period: A#9 */

/* Cells: five bytes each (note, instrument, volume, effect, parameter), each of any value, row by row and in a row channel by
   channel. Stored, a cell takes one byte to six. */
#define FIDDLEMARSH_CELL_BYTES 5
#define FIDDLEMARSH_CELLS_SIZE(rows, channels) ((size_t)(rows) * (size_t)(channels) * FIDDLEMARSH_CELL_BYTES) /* bytes */
#define FIDDLEMARSH_CELLS_MOST 81920 /* bytes of the largest pattern's cells, 256 rows of 64 channels */

/* The tables of a module: how many numbers make a row, where each stands in it, and how many numbers are enough for every
   module. All are uint32_t but for the tunes, which are int8_t: finetune and relative note are signed.
   Rows have the order of the file, and are counted from 0. */
#define FIDDLEMARSH_PATTERN_NUMBERS 3
#define FIDDLEMARSH_PATTERN_DATA_PLACE 0 /* where its stored cells begin */
#define FIDDLEMARSH_PATTERN_DATA_SIZE 1  /* their bytes; 0 if every cell is empty and none is stored */
#define FIDDLEMARSH_PATTERN_ROWS 2
#define FIDDLEMARSH_PATTERN_TABLE_MOST 768

#define FIDDLEMARSH_INSTRUMENT_NUMBERS 3
#define FIDDLEMARSH_INSTRUMENT_PLACE 0
#define FIDDLEMARSH_INSTRUMENT_SAMPLES 1      /* how many it has */
#define FIDDLEMARSH_INSTRUMENT_FIRST_SAMPLE 2 /* the number of its first one, or of the next one if it has none */
#define FIDDLEMARSH_INSTRUMENT_TABLE_MOST 384

#define FIDDLEMARSH_SAMPLE_NUMBERS 7
#define FIDDLEMARSH_SAMPLE_HEADER_PLACE 0 /* how long it is, fiddlemarsh_sample_header_size tells */
#define FIDDLEMARSH_SAMPLE_DATA_PLACE 1
#define FIDDLEMARSH_SAMPLE_LENGTH 2      /* bytes of its data, as they are stored */
#define FIDDLEMARSH_SAMPLE_WIDTH 3       /* 8 or 16 bits to a value */
#define FIDDLEMARSH_SAMPLE_LOOP_KIND 4   /* one of the three below */
#define FIDDLEMARSH_SAMPLE_LOOP_START 5  /* how many values come before the loop; 0 of a sample that doesn't loop */
#define FIDDLEMARSH_SAMPLE_LOOP_LENGTH 6 /* how many values it has; 0 of a sample that doesn't loop */
#define FIDDLEMARSH_SAMPLE_TABLE_MOST 14336

/* How a sample loops. The loop lies among its values: start + loop length is at most fiddlemarsh_sample_values. */
#define FIDDLEMARSH_LOOP_NONE 0
#define FIDDLEMARSH_LOOP_FORWARD 1
#define FIDDLEMARSH_LOOP_BOTH_WAYS 2

#define FIDDLEMARSH_SAMPLE_TUNES 2
#define FIDDLEMARSH_SAMPLE_FINETUNE 0
#define FIDDLEMARSH_SAMPLE_RELATIVE_NOTE 1
#define FIDDLEMARSH_TUNE_TABLE_MOST 4096

/* The calls. */

/* Checks a whole module.
   Returns the end: the place behind the last structure. Bytes from there to file_len are no part of the module.
   Refusals: 1 to 8, and 10 to 13. */
uint64_t fiddlemarsh_check(const uint8_t *file, size_t file_len);

/* Unpacks one pattern's stored data, as it stands in a module, into cells.
   rows 1..256 and channels 1..64 come from the pattern's header and the module's; data_len is at most 65,535.
   Returns the rows, and has filled FIDDLEMARSH_CELLS_SIZE(rows, channels) bytes of cells. With data_len 0 every cell is empty,
   and they are filled with 0.
   Room of FIDDLEMARSH_CELLS_MOST bytes is enough for every pattern.
   Refusals, in this order: 16 (rows, channels or data_len), then 7 and 8 over the data, then 14. */
uint64_t fiddlemarsh_unpack(size_t rows, size_t channels, const uint8_t *data, size_t data_len, uint8_t *cells, size_t cells_len);

/* Packs cells, laid out as unpacking gives them, into the shortest stored data.
   rows 1..256, channels 1..64, and cells_len is exactly FIDDLEMARSH_CELLS_SIZE(rows, channels).
   Returns length + 65,536 x rows, and has filled length bytes of out. Where every cell is empty the length is 0.
   Room of FIDDLEMARSH_DATA_MOST bytes is enough for every pattern.
   Refusals, in this order: 16 (rows, channels or cells_len), 15, 14. */
uint64_t fiddlemarsh_pack(size_t rows, size_t channels, const uint8_t *cells, size_t cells_len, uint8_t *out, size_t out_len);

/* Presses a module: writes the shortest file of the same content, in one fixed form (see 'Pressed files and players' above).
   Returns the length, and has filled that many bytes of out. The length never exceeds file_len, so room of file_len bytes is
   always enough. A pressed file is accepted, and pressing it again gives the same bytes.
   A stripped module is pressed into the shortest stripped one: its content has no tracker name, which is written as nulls.
   Refusals: those of the check, then 14. */
uint64_t fiddlemarsh_press(const uint8_t *file, size_t file_len, uint8_t *out, size_t out_len);

/* Converts a module to a normal one: writes the shortest normal file of its content, with 20 nulls as tracker name. All else in the
   content is kept. A module that is normal already only loses its tracker name; pressing keeps that.
   Returns the length, and has filled that many bytes of out. The length may exceed file_len, by at most FIDDLEMARSH_NORMAL_MORE_MOST
   bytes, and never exceeds FIDDLEMARSH_FILE_MOST: room of fiddlemarsh_normal_room(file_len) bytes is always enough. (Of the bytes
   that may come in addition, 255 are an order table's of one entry; 875 are an instrument's, 263 bytes for 28 and 40 for each of 16
   sample headers of none; and of instruments there are 128.) A module that is normal already never gets longer, and never gets 2.
   What is written is accepted, and pressing it again gives the same bytes.
   Refusals: those of the check, then 2 if the file written would be over FIDDLEMARSH_FILE_MOST bytes, then 14. */
uint64_t fiddlemarsh_to_normal(const uint8_t *file, size_t file_len, uint8_t *out, size_t out_len);

/* Converts a module to a stripped one: writes the shortest stripped file of its content, but for the tracker name, which a stripped
   module has not. A module that is stripped already is pressed by this.
   Returns the length, and has filled that many bytes of out. The length never exceeds file_len, so room of file_len bytes is always
   enough. What is written is accepted, and pressing it again gives the same bytes.
   Refusals: those of the check, then 14. */
uint64_t fiddlemarsh_to_stripped(const uint8_t *file, size_t file_len, uint8_t *out, size_t out_len);

/* Checks a whole module as fiddlemarsh_check does, and fills the tables that say where everything stands: of each pattern,
   instrument and sample a row, as described at FIDDLEMARSH_PATTERN_NUMBERS and behind it.
   Lengths count numbers, not rows or bytes: a table of 256 patterns has the length 768. A row that is not whole counts for none, and
   there are as many rows for samples as both samples and tunes have whole. Tables of the lengths FIDDLEMARSH_PATTERN_TABLE_MOST,
   FIDDLEMARSH_INSTRUMENT_TABLE_MOST, FIDDLEMARSH_SAMPLE_TABLE_MOST and FIDDLEMARSH_TUNE_TABLE_MOST are enough for every module.
   A table that needs no row may be NULL with length 0.
   Returns the end, as the check does. How many rows were filled is told by the functions below; numbers behind them stay.
   Refusals: those of the check, then 14 if one of the tables is too short; then none is changed. */
uint64_t fiddlemarsh_tables(const uint8_t *file, size_t file_len, uint32_t *patterns, size_t patterns_len, uint32_t *instruments,
                            size_t instruments_len, uint32_t *samples, size_t samples_len, int8_t *tunes, size_t tunes_len);

/* Decodes a sample's data, as they stand in a module, into signed values: each stored number is the difference from the value
   before, and sums wrap. For samples of any kind but ADPCM (see fiddlemarsh_sample_is_adpcm).
   width 8 or 16 is that of the sample; bytes_len is at most FIDDLEMARSH_FILE_MOST, and even at 16. values_len counts values.
   Returns how many values it has filled: bytes_len, or half of it at 16. No bytes give no values.
   Refusals, in this order: 16 (width or bytes_len), 14. */
uint64_t fiddlemarsh_decode(size_t width, const uint8_t *bytes, size_t bytes_len, int16_t *values, size_t values_len);

/* Codes values as a sample's data: the way back.
   width 8 or 16; values_len counts values, at most FIDDLEMARSH_FILE_MOST, and at 8 each is -128..127.
   Returns how many bytes it has filled: values_len, or twice as many at 16.
   Refusals, in this order: 16 (width, values_len or a value), 14. */
uint64_t fiddlemarsh_code(size_t width, const int16_t *values, size_t values_len, uint8_t *bytes, size_t bytes_len);

/* Decodes the data of an ADPCM sample, as they stand in a module, into signed values of 8 bits: a table of 16 differences, and then an
   index into it for each value, two to a byte, the low half first.
   length is that of the sample's header (fiddlemarsh_sample_header_length), how many values there are, and at most
   FIDDLEMARSH_VALUES_MOST. bytes_len is exactly that of the data: 16 + length / 2, rounded up; and 0 if length is 0. values_len counts
   values. At an odd length the high half of the last byte is not looked at.
   Returns how many values it has filled: length.
   Refusals, in this order: 16 (length or bytes_len), 14. */
uint64_t fiddlemarsh_adpcm(size_t length, const uint8_t *bytes, size_t bytes_len, int16_t *values, size_t values_len);

/* The Amiga period of a note with its finetune, as two whole numbers: a dividend and a divisor, which is a power of two.
   note 0..FIDDLEMARSH_REAL_NOTE_MOST is the real note, the pattern's and the sample's relative note added up (0 is C-0); finetune
   -128..127 is the sample's. Sixteen finetunes are an eighth of a halftone, and between these the table of the format's description
   is interpolated.
   Returns dividend + 65,536 x divisor: the period is dividend / divisor. The dividend is at most 29,024, the divisor 2 to 1,024.
   Refusals: 16 (note or finetune, or note 0 with a finetune below 0, which lies outside the table). */
uint64_t fiddlemarsh_period(uint64_t note, int64_t finetune);

/* Room that is enough for fiddlemarsh_to_normal of a file of that length, whatever it holds. */
static inline size_t fiddlemarsh_normal_room(size_t file_len)
{
    return file_len < FIDDLEMARSH_FILE_MOST - FIDDLEMARSH_NORMAL_MORE_MOST ? file_len + FIDDLEMARSH_NORMAL_MORE_MOST
                                                                           : FIDDLEMARSH_FILE_MOST;
}

/* Which kind a module that was accepted is, and how much there is in it: for others the answers mean nothing, and for a file of
   under 74 bytes the memory behind it would be read. */

/* 1 if it is a stripped module, 0 if it is a normal one. */
static inline int fiddlemarsh_is_stripped(const uint8_t *file)
{
    return file[37] == 0;
}

static inline uint32_t fiddlemarsh_channels(const uint8_t *file)
{
    return file[68] + 256u * file[69];
}

/* How many rows of the pattern table are filled. */
static inline uint32_t fiddlemarsh_patterns(const uint8_t *file)
{
    return file[70] + 256u * file[71];
}

/* How many rows of the instrument table are filled. */
static inline uint32_t fiddlemarsh_instruments(const uint8_t *file)
{
    return file[72] + 256u * file[73];
}

/* How many rows of the sample table are filled, by the instrument table of the same module. */
static inline uint32_t fiddlemarsh_samples(const uint8_t *file, const uint32_t *instruments)
{
    uint32_t count = fiddlemarsh_instruments(file);
    const uint32_t *last = instruments + (count > 0 ? count - 1 : 0) * FIDDLEMARSH_INSTRUMENT_NUMBERS;
    return count > 0 ? last[FIDDLEMARSH_INSTRUMENT_FIRST_SAMPLE] + last[FIDDLEMARSH_INSTRUMENT_SAMPLES] : 0;
}

/* How a sample's data are stored is not in its row: its header says it, which stands where the row says. Of a module that was
   accepted, with its tables: */

/* The bytes that each sample header of an instrument has, by the instrument's row and the whole sample table; 0 if it has no samples.
   In a normal module they are 40 or more, in a stripped one any number, and the bytes of a header that are not there read as 0. */
static inline uint32_t fiddlemarsh_sample_header_size(const uint32_t *instrument, const uint32_t *samples)
{
    uint32_t count = instrument[FIDDLEMARSH_INSTRUMENT_SAMPLES];
    if (count == 0)
        return 0;
    /* the headers stand together, and the first one's data right behind them */
    const uint32_t *first = samples + instrument[FIDDLEMARSH_INSTRUMENT_FIRST_SAMPLE] * FIDDLEMARSH_SAMPLE_NUMBERS;
    return (first[FIDDLEMARSH_SAMPLE_DATA_PLACE] - first[FIDDLEMARSH_SAMPLE_HEADER_PLACE]) / count;
}

/* The byte at an offset of a sample's header, by the sample's row and the size of its instrument's sample headers. */
static inline uint8_t fiddlemarsh_sample_header_byte(const uint8_t *file, const uint32_t *row, uint32_t header_size, uint32_t offset)
{
    return offset < header_size ? file[row[FIDDLEMARSH_SAMPLE_HEADER_PLACE] + offset] : (uint8_t)0;
}

/* 1 if its data are for fiddlemarsh_adpcm (kind AD hex), 0 if they are for fiddlemarsh_decode. */
static inline int fiddlemarsh_sample_is_adpcm(const uint8_t *file, const uint32_t *row, uint32_t header_size)
{
    return fiddlemarsh_sample_header_byte(file, row, header_size, 17) == 0xAD;
}

/* The length that its header says: of ADPCM data how many values they are, of others how many bytes. */
static inline uint32_t fiddlemarsh_sample_header_length(const uint8_t *file, const uint32_t *row, uint32_t header_size)
{
    uint32_t length = 0;
    for (uint32_t offset = 4; offset > 0; offset--)
        length = 256u * length + fiddlemarsh_sample_header_byte(file, row, header_size, offset - 1);
    return length;
}

/* How many values its data are, of either kind: what decoding gives. */
static inline uint32_t fiddlemarsh_sample_values(const uint8_t *file, const uint32_t *row, uint32_t header_size)
{
    return fiddlemarsh_sample_header_length(file, row, header_size) / (row[FIDDLEMARSH_SAMPLE_WIDTH] / 8);
}

/* Taking an answer apart. */

/* 1 if the call was refused, else 0. */
static inline int fiddlemarsh_refused(uint64_t answer)
{
    return answer >> 32 != 0;
}

/* The refusal's number, one of enum fiddlemarsh_number; FIDDLEMARSH_ACCEPTED if the call did its work. */
static inline uint32_t fiddlemarsh_refusal(uint64_t answer)
{
    return (uint32_t)(answer >> 32);
}

/* A refusal's place; 0 if the call did its work. */
static inline uint32_t fiddlemarsh_place(uint64_t answer)
{
    return fiddlemarsh_refused(answer) ? (uint32_t)answer : 0;
}

/* The end that an accepted check reports, with tables or without; 0 of a refusal. */
static inline uint32_t fiddlemarsh_end(uint64_t answer)
{
    return fiddlemarsh_refused(answer) ? 0 : (uint32_t)answer;
}

/* The rows that unpacking reports; 0 of a refusal. */
static inline uint32_t fiddlemarsh_unpacked_rows(uint64_t answer)
{
    return fiddlemarsh_refused(answer) ? 0 : (uint32_t)answer;
}

/* The length that packing reports; 0 of a refusal, and of empty cells alone. */
static inline uint32_t fiddlemarsh_packed_length(uint64_t answer)
{
    return fiddlemarsh_refused(answer) ? 0 : (uint32_t)answer & 0xFFFF;
}

/* The row number that packing reports; 0 of a refusal. */
static inline uint32_t fiddlemarsh_packed_rows(uint64_t answer)
{
    return fiddlemarsh_refused(answer) ? 0 : (uint32_t)answer >> 16;
}

/* The length that pressing and converting report; 0 of a refusal. */
static inline uint32_t fiddlemarsh_length(uint64_t answer)
{
    return fiddlemarsh_refused(answer) ? 0 : (uint32_t)answer;
}

/* How many values decoding reports, of deltas or of ADPCM; 0 of a refusal, and of no bytes. */
static inline uint32_t fiddlemarsh_decoded_values(uint64_t answer)
{
    return fiddlemarsh_refused(answer) ? 0 : (uint32_t)answer;
}

/* How many bytes coding reports; 0 of a refusal, and of no values. */
static inline uint32_t fiddlemarsh_coded_bytes(uint64_t answer)
{
    return fiddlemarsh_refused(answer) ? 0 : (uint32_t)answer;
}

/* The dividend of a period; 0 of a refusal. */
static inline uint32_t fiddlemarsh_period_dividend(uint64_t answer)
{
    return fiddlemarsh_refused(answer) ? 0 : (uint32_t)(answer % 65536);
}

/* The divisor of a period; 0 of a refusal. */
static inline uint32_t fiddlemarsh_period_divisor(uint64_t answer)
{
    return fiddlemarsh_refused(answer) ? 0 : (uint32_t)(answer / 65536);
}

/* What a refusal number means. */

/* Its name: that of its constant, in small letters and without FIDDLEMARSH_. "unknown" of a number that this header has not. */
static inline const char *fiddlemarsh_refusal_name(uint32_t number)
{
    switch (number) {
    case FIDDLEMARSH_ACCEPTED: return "accepted";
    case FIDDLEMARSH_CUT: return "cut";
    case FIDDLEMARSH_FILE_TOO_LONG: return "file_too_long";
    case FIDDLEMARSH_MARK_OR_VERSION: return "mark_or_version";
    case FIDDLEMARSH_HEADER_SIZE: return "header_size";
    case FIDDLEMARSH_HEADER_COUNTS: return "header_counts";
    case FIDDLEMARSH_PATTERN_HEADER: return "pattern_header";
    case FIDDLEMARSH_CELL_CUT: return "cell_cut";
    case FIDDLEMARSH_CELLS_LEFT_OVER: return "cells_left_over";
    case FIDDLEMARSH_NOTE: return "note";
    case FIDDLEMARSH_INSTRUMENT: return "instrument";
    case FIDDLEMARSH_SAMPLE_HEADER_SIZE: return "sample_header_size";
    case FIDDLEMARSH_SAMPLE_KIND: return "sample_kind";
    case FIDDLEMARSH_SAMPLE_LOOP_OR_LENGTH: return "sample_loop_or_length";
    case FIDDLEMARSH_ROOM: return "room";
    case FIDDLEMARSH_PACKED_TOO_LONG: return "packed_too_long";
    case FIDDLEMARSH_ARGUMENT: return "argument";
    default: return "unknown";
    }
}

/* A sentence for whoever sent the module: what is wrong, and what to do about it. It starts with a small letter and has no
   full stop, so that it can follow a file's name. */
static inline const char *fiddlemarsh_refusal_words(uint32_t number)
{
    switch (number) {
    case FIDDLEMARSH_ACCEPTED:
        return "nothing is wrong with it";
    case FIDDLEMARSH_CUT:
        return "the file ends before all of it is there: it was cut short on its way, or a size in it is wrong; save it anew and "
               "send it again";
    case FIDDLEMARSH_FILE_TOO_LONG:
        return "the file is over 16,777,216 bytes, or would be once converted, too large for a board: shorten its samples";
    case FIDDLEMARSH_MARK_OR_VERSION:
        return "this is no XM module, or a very old one: save it as XM 1.04";
    case FIDDLEMARSH_HEADER_SIZE:
        return "the header has no room for the order table: save the module with another tracker";
    case FIDDLEMARSH_HEADER_COUNTS:
        return "FastTracker II allows 1 to 256 orders, 1 to 256 patterns, 1 to 64 channels and up to 128 instruments, and this "
               "module has more, or none: keep to them";
    case FIDDLEMARSH_PATTERN_HEADER:
        return "the pattern at this place has no rows or over 256, or its header is cut: give it 1 to 256 rows, or save the module "
               "with another tracker";
    case FIDDLEMARSH_CELL_CUT:
        return "the pattern's stored size is too small for its rows: save the module with another tracker";
    case FIDDLEMARSH_CELLS_LEFT_OVER:
        return "the pattern's stored size is too large for its rows: save the module with another tracker";
    case FIDDLEMARSH_NOTE:
        return "the note at this place is above 97, which older versions refused: every note is kept now, so check the module "
               "again";
    case FIDDLEMARSH_INSTRUMENT:
        return "the instrument at this place has over 16 samples, or its header is cut: leave it 16, or save the module with "
               "another tracker";
    case FIDDLEMARSH_SAMPLE_HEADER_SIZE:
        return "the samples of the instrument at this place were written by a broken tool: save the module with another tracker";
    case FIDDLEMARSH_SAMPLE_KIND:
        return "the sample at this place is packed as ADPCM and marked as 16-bit, which cannot both be: save it plain";
    case FIDDLEMARSH_SAMPLE_LOOP_OR_LENGTH:
        return "the loop of the sample at this place does not lie inside it, or goes forward and back at once, or begins or ends "
               "within a value, or half a value is left at the sample's end: set its loop and its end again";
    case FIDDLEMARSH_ROOM:
        return "the room lent for the answer is too short: nothing is wrong with the module, the program has to lend more";
    case FIDDLEMARSH_PACKED_TOO_LONG:
        return "the pattern would take over 65,535 bytes: there is too much in it, so split it";
    case FIDDLEMARSH_ARGUMENT:
        return "an argument is out of its range: nothing is wrong with the module, the program asked for what is not there";
    default:
        return "this program does not know that number: it is older than the library that gave it";
    }
}

#ifdef __cplusplus
}
#endif

/* A whole program, for 'program FILE': it checks a module, fills the tables, unpacks every pattern and decodes every sample.

       #include <fiddlemarsh.h>
       #include <stdio.h>
       #include <stdlib.h>

       static uint8_t file[FIDDLEMARSH_FILE_MOST + 1]; // a byte more than a module may have: refused as too long, not cut
       static uint32_t patterns[FIDDLEMARSH_PATTERN_TABLE_MOST];
       static uint32_t instruments[FIDDLEMARSH_INSTRUMENT_TABLE_MOST];
       static uint32_t samples[FIDDLEMARSH_SAMPLE_TABLE_MOST];
       static int8_t tunes[FIDDLEMARSH_TUNE_TABLE_MOST];
       static uint8_t cells[FIDDLEMARSH_CELLS_MOST];
       static int16_t values[FIDDLEMARSH_VALUES_MOST];

       static void stop_if_refused(const char *call, uint64_t answer)
       {
           uint32_t number = fiddlemarsh_refusal(answer);
           if (!fiddlemarsh_refused(answer))
               return;
           printf("%s: refused, number %u (%s) at place %u: %s\n", call, (unsigned)number, fiddlemarsh_refusal_name(number),
                  (unsigned)fiddlemarsh_place(answer), fiddlemarsh_refusal_words(number));
           exit(1);
       }

       static void open_pattern(uint32_t number, uint32_t channels)
       {
           const uint32_t *row = patterns + number * FIDDLEMARSH_PATTERN_NUMBERS;
           uint64_t answer = fiddlemarsh_unpack(row[FIDDLEMARSH_PATTERN_ROWS], channels, file + row[FIDDLEMARSH_PATTERN_DATA_PLACE],
                                                row[FIDDLEMARSH_PATTERN_DATA_SIZE], cells, sizeof cells);
           stop_if_refused("unpack", answer);
           size_t size = FIDDLEMARSH_CELLS_SIZE(fiddlemarsh_unpacked_rows(answer), channels), notes = 0;
           for (size_t cell = 0; cell < size; cell += FIDDLEMARSH_CELL_BYTES)
               notes += cells[cell] != 0;
           printf("pattern %u: %u rows, %zu notes\n", (unsigned)number, (unsigned)fiddlemarsh_unpacked_rows(answer), notes);
       }

       static void open_sample(uint32_t number, uint32_t header_size)
       {
           const uint32_t *row = samples + number * FIDDLEMARSH_SAMPLE_NUMBERS;
           const int8_t *tune = tunes + number * FIDDLEMARSH_SAMPLE_TUNES;
           const uint8_t *data = file + row[FIDDLEMARSH_SAMPLE_DATA_PLACE];
           uint32_t length = row[FIDDLEMARSH_SAMPLE_LENGTH];
           uint64_t answer = fiddlemarsh_sample_is_adpcm(file, row, header_size)
                                 ? fiddlemarsh_adpcm(fiddlemarsh_sample_header_length(file, row, header_size), data, length, values,
                                                     FIDDLEMARSH_VALUES_MOST)
                                 : fiddlemarsh_decode(row[FIDDLEMARSH_SAMPLE_WIDTH], data, length, values, FIDDLEMARSH_VALUES_MOST);
           stop_if_refused("decode", answer);
           int highest = 0;
           for (uint32_t i = 0; i < fiddlemarsh_decoded_values(answer); i++)
               highest = values[i] > highest ? values[i] : highest;
           printf("sample %u: %u values of %u bits, up to %d, finetune %d, relative note %d", (unsigned)number,
                  (unsigned)fiddlemarsh_decoded_values(answer), (unsigned)row[FIDDLEMARSH_SAMPLE_WIDTH], highest,
                  tune[FIDDLEMARSH_SAMPLE_FINETUNE], tune[FIDDLEMARSH_SAMPLE_RELATIVE_NOTE]);
           if (row[FIDDLEMARSH_SAMPLE_LOOP_KIND] != FIDDLEMARSH_LOOP_NONE)
               printf(", then %u values from %u on over and over", (unsigned)row[FIDDLEMARSH_SAMPLE_LOOP_LENGTH],
                      (unsigned)row[FIDDLEMARSH_SAMPLE_LOOP_START]);
           putchar('\n');
       }

       static void open_instrument(uint32_t number)
       {
           const uint32_t *row = instruments + number * FIDDLEMARSH_INSTRUMENT_NUMBERS;
           for (uint32_t i = 0; i < row[FIDDLEMARSH_INSTRUMENT_SAMPLES]; i++)
               open_sample(row[FIDDLEMARSH_INSTRUMENT_FIRST_SAMPLE] + i, fiddlemarsh_sample_header_size(row, samples));
       }

       int main(int argc, char **argv)
       {
           FILE *in = argc == 2 ? fopen(argv[1], "rb") : NULL;
           if (in == NULL)
               return 2;
           size_t file_len = fread(file, 1, sizeof file, in);
           fclose(in);

           uint64_t answer = fiddlemarsh_tables(file, file_len, patterns, FIDDLEMARSH_PATTERN_TABLE_MOST, instruments,
                                                FIDDLEMARSH_INSTRUMENT_TABLE_MOST, samples, FIDDLEMARSH_SAMPLE_TABLE_MOST, tunes,
                                                FIDDLEMARSH_TUNE_TABLE_MOST);
           stop_if_refused("tables", answer);
           printf("accepted as a %s module, ends at place %u\n", fiddlemarsh_is_stripped(file) ? "stripped" : "normal",
                  (unsigned)fiddlemarsh_end(answer));
           for (uint32_t i = 0; i < fiddlemarsh_patterns(file); i++)
               open_pattern(i, fiddlemarsh_channels(file));
           for (uint32_t i = 0; i < fiddlemarsh_instruments(file); i++)
               open_instrument(i);
           return 0;
       }
*/

#endif
