/* names.h: the files to work on, as they were named, and in directories as they were found. */

#ifndef NAMES_H
#define NAMES_H

#include <stdbool.h>
#include <stddef.h>
#include <sys/stat.h>

struct name {
    char *text;
    bool found;     /* in a directory, not named */
    bool no_module; /* a directory that has no module in it */
    int because;    /* of a directory that cannot be read: the errno */
};

struct names {
    struct name *first;
    size_t count;
    size_t room;
};

bool is_standard_input(const char *text);

/* A name of somebody's own, or what is in the directory of that name: the files in it and in its directories whose names end in .xm or
   .XM, in the order of their names. Links to directories are not followed, and the directory 'but' (it may be NULL) is passed over. */
void add_named(struct names *names, const char *text, const struct stat *but);

void free_names(struct names *names);

bool same_file(const struct stat *one, const struct stat *other);

/* "directory/text", for the caller to free. */
char *join(const char *directory, const char *text);

/* Tells why a name is no file to be read, if it isn't one. */
bool is_file(const struct name *name);

#endif
