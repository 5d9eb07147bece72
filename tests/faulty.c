/* faulty.c: the library's calls, answered by a copy of the reference that has a deliberate fault (REFERENCE_COPY names it). The
   comparison must notice. */

#define REFERENCE_CALL static

#include "../include/fiddlemarsh.h"
#include REFERENCE_COPY

uint64_t fiddlemarsh_check(const uint8_t *file, size_t file_len)
{
    return reference_loader_check(file, file_len);
}

uint64_t fiddlemarsh_unpack(size_t rows, size_t channels, const uint8_t *data, size_t data_len, uint8_t *cells, size_t cells_len)
{
    return reference_loader_unpack(rows, channels, data, data_len, cells, cells_len);
}

uint64_t fiddlemarsh_pack(size_t rows, size_t channels, const uint8_t *cells, size_t cells_len, uint8_t *out, size_t out_len)
{
    return reference_loader_pack(rows, channels, cells, cells_len, out, out_len);
}

uint64_t fiddlemarsh_press(const uint8_t *file, size_t file_len, uint8_t *out, size_t out_len)
{
    return reference_loader_press(file, file_len, out, out_len);
}

uint64_t fiddlemarsh_to_normal(const uint8_t *file, size_t file_len, uint8_t *out, size_t out_len)
{
    return reference_loader_to_normal(file, file_len, out, out_len);
}

uint64_t fiddlemarsh_to_stripped(const uint8_t *file, size_t file_len, uint8_t *out, size_t out_len)
{
    return reference_loader_to_stripped(file, file_len, out, out_len);
}

uint64_t fiddlemarsh_tables(const uint8_t *file, size_t file_len, uint32_t *patterns, size_t patterns_len, uint32_t *instruments,
                            size_t instruments_len, uint32_t *samples, size_t samples_len, int8_t *tunes, size_t tunes_len)
{
    return reference_loader_tables(file, file_len, patterns, patterns_len, instruments, instruments_len, samples, samples_len, tunes,
                                   tunes_len);
}

uint64_t fiddlemarsh_decode(size_t width, const uint8_t *bytes, size_t bytes_len, int16_t *values, size_t values_len)
{
    return reference_loader_decode(width, bytes, bytes_len, values, values_len);
}

uint64_t fiddlemarsh_code(size_t width, const int16_t *values, size_t values_len, uint8_t *bytes, size_t bytes_len)
{
    return reference_loader_code(width, values, values_len, bytes, bytes_len);
}

uint64_t fiddlemarsh_adpcm(size_t length, const uint8_t *bytes, size_t bytes_len, int16_t *values, size_t values_len)
{
    return reference_loader_adpcm(length, bytes, bytes_len, values, values_len);
}

uint64_t fiddlemarsh_period(uint64_t note, int64_t finetune)
{
    return reference_loader_period(note, finetune);
}
