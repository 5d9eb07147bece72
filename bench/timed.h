/* timed.h: what crates/timed exports for the benchmark. It is no part of the library. */

#ifndef TIMED_H
#define TIMED_H

#include <stddef.h>
#include <stdint.h>

/* The small reader, made and run to the end. Returns how many structures it handed over; 0 of a refused file. */
size_t timed_reader(const uint8_t *file, size_t file_len);

#endif
