/* press.c: fiddlemarsh press, and convert. */

#define _XOPEN_SOURCE 700

#include "commands.h"

#include "../include/fiddlemarsh.h"
#include "output.h"

#include <errno.h>
#include <stdlib.h>
#include <string.h>

/* Files that are not written over: those that are to be read, and those that were written into a directory so far. */
struct kept {
    struct stat *first;
    size_t count;
};

/* One file to press or convert. */
struct job {
    struct manner manner;
    enum target to;
    const struct name *in;
    const char *out;
    struct kept *kept; /* NULL where the user names OUT */
};

/* In a directory */

/* The user named no OUT, so nothing of the user's own is written over unasked. */
static bool may_replace(const struct job *job, const struct input *input, const struct output *output)
{
    const struct kept *kept = job->kept;
    if (kept == NULL || !output->replaces)
        return true;
    if (same_file(&input->about, &output->about)) {
        trouble(job->in->text, "would be written over itself: not done");
        return false;
    }
    for (size_t i = 0; i < kept->count; i++)
        if (same_file(&kept->first[i], &output->about)) {
            trouble(job->in->text, "would be written over another of these files: not done");
            return false;
        }
    return true;
}

static void keep(struct kept *kept, const char *path)
{
    if (kept != NULL && stat(path, &kept->first[kept->count]) == 0)
        kept->count++;
}

/* One file */

#define MODULE_LEAST 80 /* bytes: a file of fewer is refused */

/* Whether a module is of the kind that is wanted; of one that is refused it does not matter. */
static bool has_kind(const struct job *job, struct bytes module)
{
    bool stripped = module.length >= MODULE_LEAST && fiddlemarsh_is_stripped(module.first);
    return job->to == OWN_KIND || (job->to == STRIPPED_KIND) == stripped;
}

/* A module that is of the kind already is pressed, which keeps its tracker name. */
static uint64_t write_module(const struct job *job, struct bytes module, struct bytes room)
{
    if (has_kind(job, module))
        return fiddlemarsh_press(module.first, module.length, room.first, room.length);
    if (job->to == NORMAL_KIND)
        return fiddlemarsh_to_normal(module.first, module.length, room.first, room.length);
    return fiddlemarsh_to_stripped(module.first, module.length, room.first, room.length);
}

static void say_work(const struct job *job, struct bytes module, size_t written)
{
    const char *kind = kind_name(job->to == STRIPPED_KIND);
    bool already = has_kind(job, module);
    if (already && job->to != OWN_KIND)
        printf("a %s module already, ", kind);
    printf("%zu bytes ", module.length);
    if (already)
        printf("pressed into %zu", written);
    else
        printf("converted to a %s module of %zu", kind, written);
}

/* Told before OUT is replaced: if it cannot be told, OUT stays as it was. */
static bool say_pressed(const struct job *job, struct bytes module, size_t written, const struct output *output)
{
    if (job->manner.quiet)
        return true;
    clear_progress();
    say_name(stdout, job->in->text);
    fputs(": ", stdout);
    say_work(job, module, written);
    fputs(", written to ", stdout);
    say_name(stdout, output->name);
    if (output->replaces && output->about.st_nlink > 1)
        printf("; hard links that still hold the old bytes: %lu", (unsigned long)output->about.st_nlink - 1);
    putchar('\n');
    return fflush(stdout) == 0;
}

static enum status write_pressed(const struct job *job, const struct input *input, const struct output *output, struct bytes pressed)
{
    if (!may_replace(job, input, output) || put_aside(output, pressed) != ACCEPTED)
        return TROUBLE;
    if (!say_pressed(job, input->bytes, pressed.length, output)) {
        int because = errno;
        remove_temporary();
        exit(trouble("standard output", "cannot be written: %s", strerror(because)));
    }
    if (put_in_place(output) != ACCEPTED)
        return TROUBLE;
    keep(job->kept, output->path);
    return ACCEPTED;
}

static enum status press_input(const struct job *job, const struct input *input, struct bytes room)
{
    uint64_t answer = write_module(job, input->bytes, room);
    if (fiddlemarsh_refused(answer))
        return say_refusal(stderr, (struct finding){.name = job->in->text, .answer = answer, .length = input->bytes.length});
    struct output output;
    enum status status = find_output(job->out, &output);
    if (status == ACCEPTED)
        status = write_pressed(job, input, &output, (struct bytes){room.first, fiddlemarsh_length(answer)});
    free_output(&output);
    return status;
}

static enum status press_one(const struct job *job)
{
    struct input input;
    if (!is_file(job->in) || !read_input(job->in, &input))
        return TROUBLE;
    size_t length = fiddlemarsh_normal_room(input.bytes.length); /* a pressed module needs less */
    struct bytes room = {malloc(length), length};
    enum status status = room.first == NULL ? trouble(job->in->text, "not enough memory") : press_input(job, &input, room);
    free(room.first);
    free(input.bytes.first);
    return status;
}

enum status press_file(struct manner manner, enum target to, char *in, const char *out)
{
    struct name name = {.text = in};
    return press_one(&(struct job){manner, to, &name, out, NULL});
}

/* Many files */

static enum status press_found(struct manner manner, enum target to, const struct name *in, const char *directory, struct kept *kept)
{
    const char *slash = strrchr(in->text, '/');
    char *out = join(directory, slash == NULL ? in->text : slash + 1);
    enum status status = press_one(&(struct job){manner, to, in, out, kept});
    free(out);
    return status;
}

static enum status press_all(struct manner manner, enum target to, const char *directory, const struct names *names)
{
    struct counts counts = {{0}};
    struct kept kept = {calloc(2 * names->count, sizeof(struct stat)), 0};
    if (kept.first == NULL)
        return trouble(directory, "not enough memory");
    for (size_t i = 0; i < names->count; i++)
        keep(&kept, names->first[i].text);
    for (size_t i = 0; i < names->count; i++) {
        say_progress(manner, i, names->count);
        counts.of[press_found(manner, to, &names->first[i], directory, &kept)]++;
    }
    say_counts(manner, counts, to == OWN_KIND ? "pressed" : "converted or pressed");
    free(kept.first);
    return worst_of(counts);
}

enum status press_into(struct manner manner, enum target to, const char *directory, int count, char **named)
{
    struct stat about;
    struct names names = {NULL, 0, 0};
    if (stat(directory, &about) != 0)
        return trouble(directory, "cannot be written into: %s", strerror(errno));
    if (!S_ISDIR(about.st_mode))
        return trouble(directory, "is not a directory");
    for (int i = 0; i < count; i++)
        add_named(&names, named[i], &about);
    enum status status = press_all(manner, to, directory, &names);
    free_names(&names);
    return status;
}
