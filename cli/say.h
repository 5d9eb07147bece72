/* say.h: what the program tells: lines for people, records for scripts, troubles, counts and progress. Whatever a file is called, one
   line stays one line, and nothing that a terminal would obey reaches it. */

#ifndef SAY_H
#define SAY_H

#include <stdbool.h>
#include <stddef.h>
#include <stdint.h>
#include <stdio.h>

/* Exit statuses; of several files the largest counts. */
enum status { ACCEPTED = 0, REFUSED = 1, TROUBLE = 2 };

/* How to tell. */
struct manner {
    bool quiet; /* only what needs a person */
    bool tsv;   /* records for scripts */
};

/* How many files ended in each status. */
struct counts {
    size_t of[TROUBLE + 1];
};

/* What there is to tell of a file that was read: the library's answer, and how many bytes there were. */
struct finding {
    const char *name;
    uint64_t answer;
    size_t length;
    bool stripped; /* which kind of module an accepted file is */
};

void say_name(FILE *to, const char *name);

/* A kind of module by its name, normal or stripped. */
const char *kind_name(bool stripped);

enum status trouble(const char *name, const char *format, ...);
enum status wrong_usage(const char *what, const char *which);

/* Of a checked file, on standard output. A trouble has been told by then: of it there is only a record. */
enum status say_checked(struct manner manner, struct finding finding);
void say_trouble_record(struct manner manner, const char *name);

/* The line of a refused file. */
enum status say_refusal(FILE *to, struct finding finding);

/* The last line, with 'done' for what became of accepted files. */
void say_counts(struct manner manner, struct counts counts, const char *done);

/* The largest of the statuses counted. */
enum status worst_of(struct counts counts);

/* On a terminal that shows no lines meanwhile, how far long work has come. */
void say_progress(struct manner manner, size_t done, size_t all);
void clear_progress(void);

#endif
