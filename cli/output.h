/* output.h: writing a file whole or not at all. A temporary file beside it gets the bytes first, and its name last. */

#ifndef OUTPUT_H
#define OUTPUT_H

#include "input.h"
#include "say.h"

/* Where bytes are to go: OUT itself, or what it links to. */
struct output {
    const char *name; /* as the user has it */
    char *path;
    bool replaces;
    struct stat about; /* of the file that it replaces */
};

/* Signals that end the program remove the temporary file first. */
void take_signals(void);

/* Whether there may be a file of that name. A device or a pipe must not be replaced by a file, nor a file that may not be written.
   Tells the trouble if not. What is found is for free_output. */
enum status find_output(const char *name, struct output *output);
void free_output(struct output *output);

/* The bytes are in a temporary file, safe on the disk. Tells the trouble if that fails. */
enum status put_aside(const struct output *output, struct bytes bytes);

/* The temporary file becomes OUT, or goes. */
enum status put_in_place(const struct output *output);
void remove_temporary(void);

#endif
