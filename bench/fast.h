/* fast.h: seven of the calls once more, in C written for speed. Their answers are those of the library and the reference. */

#ifndef FAST_H
#define FAST_H

#include <stddef.h>
#include <stdint.h>

uint64_t fast_check(const uint8_t *file, size_t file_len);
uint64_t fast_unpack(size_t rows, size_t channels, const uint8_t *data, size_t data_len, uint8_t *cells, size_t cells_len);
uint64_t fast_pack(size_t rows, size_t channels, const uint8_t *cells, size_t cells_len, uint8_t *out, size_t out_len);
uint64_t fast_press(const uint8_t *file, size_t file_len, uint8_t *out, size_t out_len);
uint64_t fast_to_normal(const uint8_t *file, size_t file_len, uint8_t *out, size_t out_len);
uint64_t fast_to_stripped(const uint8_t *file, size_t file_len, uint8_t *out, size_t out_len);
uint64_t fast_adpcm(size_t length, const uint8_t *bytes, size_t bytes_len, int16_t *values, size_t values_len);

#endif
