/* same.c: fiddlemarsh same. Files are one song exactly when they press to the same bytes, which is proved of the press. Of each file
   only the length and a sum of its pressed bytes are kept; files that agree in both are read again, and their bytes compared. So no
   more than two modules are in memory, however many files there are. */

#define _XOPEN_SOURCE 700

#include "commands.h"

#include "../include/fiddlemarsh.h"

#include <stdlib.h>
#include <string.h>

/* What is kept of a file. */
struct entry {
    const struct name *name;
    struct finding finding; /* the check's */
    enum status status;
    size_t length; /* of its pressed bytes */
    uint64_t sum;
    struct entry *first; /* of its song, itself perhaps; NULL before that is known, and of what is not accepted */
    struct entry *next;  /* of its song, in the order given; NULL of the last */
    size_t song;         /* its number, from 1; 0 of what is not accepted */
};

struct entries {
    struct entry *first;
    size_t count;
};

/* Reading */

/* A sieve and no more: where it differs the bytes do, and where it agrees they are compared. */
static uint64_t sum_of(struct bytes bytes)
{
    uint64_t sum = 0;
    for (size_t i = 0; i < bytes.length; i++)
        sum = 31 * sum + bytes.first[i];
    return sum;
}

/* A pressed module is never longer than its input, so there is room for it. */
static enum status press_accepted(const struct name *name, struct bytes module, struct bytes *pressed)
{
    pressed->first = malloc(module.length);
    if (pressed->first == NULL)
        return trouble(name->text, "not enough memory");
    pressed->length = fiddlemarsh_length(fiddlemarsh_press(module.first, module.length, pressed->first, module.length));
    return ACCEPTED;
}

/* Of an accepted file the pressed bytes, for the caller to free; of others none. Tells the trouble if there is one. */
static enum status read_pressed(const struct name *name, struct finding *finding, struct bytes *pressed)
{
    struct input input;
    *pressed = (struct bytes){NULL, 0};
    if (!is_file(name) || !read_input(name, &input))
        return TROUBLE;
    enum status status = REFUSED;
    *finding = check_module(name->text, input.bytes);
    if (!S_ISREG(input.about.st_mode)) /* even if it is refused: what is told of it must not hang on what is in it */
        status = trouble(name->text, "is not a regular file: it may have to be read twice");
    else if (!fiddlemarsh_refused(finding->answer))
        status = press_accepted(name, input.bytes, pressed);
    free(input.bytes.first);
    return status;
}

static void read_first(struct entry *entry)
{
    struct bytes pressed;
    entry->status = read_pressed(entry->name, &entry->finding, &pressed);
    entry->length = pressed.length;
    entry->sum = sum_of(pressed);
    free(pressed.first);
}

/* Nothing can be told of a file that is not what it was at first. */
static bool read_again(struct entry *entry, struct bytes *pressed)
{
    struct finding finding;
    enum status status = read_pressed(entry->name, &finding, pressed);
    if (status == ACCEPTED && pressed->length == entry->length && sum_of(*pressed) == entry->sum)
        return true;
    entry->status = status == TROUBLE ? TROUBLE : trouble(entry->name->text, "was changed while files were compared");
    free(pressed->first);
    return false;
}

/* Comparing */

/* By length and sum; those that agree in both are in the order given, which is that of their memory. */
static int by_sieve(const void *left, const void *right)
{
    const struct entry *one = *(struct entry *const *)left, *other = *(struct entry *const *)right;
    if (one->length != other->length)
        return one->length < other->length ? -1 : 1;
    if (one->sum != other->sum)
        return one->sum < other->sum ? -1 : 1;
    return one < other ? -1 : one > other;
}

static bool same_sieve(const struct entry *one, const struct entry *other)
{
    return one->length == other->length && one->sum == other->sum;
}

static bool same_bytes(struct bytes one, struct bytes other)
{
    return one.length == other.length && memcmp(one.first, other.first, one.length) == 0;
}

static bool is_open(const struct entry *entry)
{
    return entry->status == ACCEPTED && entry->first == NULL;
}

/* Those that are one song with the first of them. */
static void gather(struct entry **alike, size_t count)
{
    struct entry *first = alike[0], *last = first;
    struct bytes pressed, other;
    if (!read_again(first, &pressed))
        return;
    first->first = first;
    for (size_t i = 1; i < count; i++) {
        if (!is_open(alike[i]) || !read_again(alike[i], &other))
            continue;
        if (same_bytes(pressed, other)) {
            alike[i]->first = first;
            last = last->next = alike[i];
        }
        free(other.first);
    }
    free(pressed.first);
}

/* Of files that agree in the sieve. One that no other agrees with is alone, and is not read again. */
static void compare_alike(struct entry **alike, size_t count)
{
    if (count == 1)
        alike[0]->first = alike[0];
    for (size_t i = 0; i < count; i++)
        if (is_open(alike[i]))
            gather(alike + i, count - i);
}

static void compare_all(struct manner no_lines, struct entry **accepted, size_t count)
{
    qsort(accepted, count, sizeof accepted[0], by_sieve);
    for (size_t i = 0, behind; i < count; i = behind) {
        say_progress(no_lines, i, count);
        for (behind = i + 1; behind < count && same_sieve(accepted[i], accepted[behind]);)
            behind++;
        compare_alike(accepted + i, behind - i);
    }
}

/* Telling */

static bool is_alone(const struct entry *entry)
{
    return entry->first == entry && entry->next == NULL;
}

static void say_group(const struct entry *entry)
{
    const char *before = ": one song with ";
    say_name(stdout, entry->name->text);
    for (entry = entry->next; entry != NULL; entry = entry->next, before = ", ") {
        fputs(before, stdout);
        say_name(stdout, entry->name->text);
    }
    putchar('\n');
}

static void say_lines(struct manner manner, struct entries entries)
{
    const struct entry *entry, *behind = entries.first + entries.count;
    for (entry = entries.first; entry < behind; entry++)
        if (entry->first == entry && !is_alone(entry))
            say_group(entry);
    for (entry = entries.first; entry < behind && !manner.quiet; entry++)
        if (is_alone(entry)) {
            say_name(stdout, entry->name->text);
            puts(": alone");
        }
    for (entry = entries.first; entry < behind; entry++)
        if (entry->status == REFUSED)
            say_refusal(stdout, entry->finding);
}

/* The number of the song, and then what check has. */
static void say_records(struct manner manner, struct entries entries)
{
    const struct manner every = {.tsv = true};
    for (const struct entry *entry = entries.first; entry < entries.first + entries.count; entry++) {
        if (manner.quiet && is_alone(entry))
            continue;
        if (entry->status == ACCEPTED)
            printf("%zu\t", entry->song);
        else
            fputs("-\t", stdout);
        if (entry->status == TROUBLE)
            say_trouble_record(every, entry->name->text);
        else
            say_checked(every, entry->finding);
    }
}

/* Songs are numbered in the order of their first files. */
static size_t number_songs(struct entries entries)
{
    size_t songs = 0;
    for (struct entry *entry = entries.first; entry < entries.first + entries.count; entry++)
        if (entry->status == ACCEPTED)
            entry->song = entry->first == entry ? ++songs : entry->first->song;
    return songs;
}

static enum status say_all(struct manner manner, struct entries entries)
{
    struct counts counts = {{0}};
    char done[64];
    size_t songs = number_songs(entries);
    for (size_t i = 0; i < entries.count; i++)
        counts.of[entries.first[i].status]++;
    clear_progress();
    if (manner.tsv)
        say_records(manner, entries);
    else
        say_lines(manner, entries);
    snprintf(done, sizeof done, "accepted as %zu song%s", songs, songs == 1 ? "" : "s");
    say_counts(manner, counts, done);
    return worst_of(counts);
}

static void read_and_compare(const struct names *names, struct entries entries, struct entry **accepted)
{
    const struct manner no_lines = {.quiet = true}; /* they all come at the end */
    size_t count = 0;
    for (size_t i = 0; i < entries.count; i++) {
        say_progress(no_lines, i, entries.count);
        entries.first[i].name = &names->first[i];
        read_first(&entries.first[i]);
        if (entries.first[i].status == ACCEPTED)
            accepted[count++] = &entries.first[i];
    }
    compare_all(no_lines, accepted, count);
}

enum status same_files(struct manner manner, int count, char **named)
{
    struct names names = {NULL, 0, 0};
    for (int i = 0; i < count; i++)
        add_named(&names, named[i], NULL);
    struct entries entries = {calloc(names.count, sizeof(struct entry)), names.count};
    struct entry **accepted = calloc(names.count, sizeof(struct entry *));
    enum status status;
    if (entries.first == NULL || accepted == NULL)
        status = trouble("the list of files", "not enough memory");
    else {
        read_and_compare(&names, entries, accepted);
        status = say_all(manner, entries);
    }
    free(accepted);
    free(entries.first);
    free_names(&names);
    return status;
}
