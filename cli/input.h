/* input.h: reading a whole file. */

#ifndef INPUT_H
#define INPUT_H

#include "names.h"

#include <stdbool.h>
#include <stddef.h>
#include <stdint.h>
#include <sys/stat.h>

struct bytes {
    uint8_t *first;
    size_t length;
};

/* A file that was read, for the caller to free(bytes.first). */
struct input {
    struct bytes bytes;
    struct stat about;
};

/* Reads to the end, but never more than one byte over the library's limit: that is enough for the answer. What was found in a
   directory is read only if it is a regular file, and a pipe that nobody writes to is not waited for. Tells the trouble if it fails. */
bool read_input(const struct name *name, struct input *input);

#endif
