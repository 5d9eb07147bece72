/* listing_test.c: the listing program, run on modules of every shape, stripped ones too, on damaged ones and around its limit. Its one
   line must be what the reference says.

   listing_test PROGRAM [ARGUMENT...]      the command that starts the listing */

#define _XOPEN_SOURCE 700 /* fileno, fork, pipe */

#include "modules.h"
#include "reference.h"

#include <signal.h>
#include <stdio.h>
#include <stdlib.h>
#include <string.h>
#include <sys/wait.h>
#include <unistd.h>

#define LISTED_MOST 65535
#define LINE_ROOM 256
#define CHUNK 4000 /* written to a pipe at once: the program meets short reads */

static char **command;
static unsigned lines;

static void give_up(const char *what)
{
    perror(what);
    exit(2);
}

/* Running the listing */

static pid_t start(int input, int output)
{
    pid_t child = fork();
    if (child < 0)
        give_up("fork");
    if (child > 0)
        return child;
    if (dup2(input, STDIN_FILENO) < 0 || dup2(output, STDOUT_FILENO) < 0)
        _exit(127);
    execvp(command[0], command);
    _exit(127);
}

static void read_to_end(int from, char *line)
{
    size_t length = 0;
    ssize_t got;
    while (length < LINE_ROOM - 1 && (got = read(from, line + length, LINE_ROOM - 1 - length)) > 0)
        length += (size_t)got;
    line[length] = 0;
}

static void must_end_well(pid_t child)
{
    int status;
    if (waitpid(child, &status, 0) != child || !WIFEXITED(status) || WEXITSTATUS(status) != 0) {
        fprintf(stderr, "a process did not end well\n");
        exit(1);
    }
}

/* Lists what stands behind an open file, and closes it. */
static void list(int input, char *line)
{
    int output[2];
    if (pipe(output) != 0)
        give_up("pipe");
    pid_t child = start(input, output[1]);
    close(input);
    close(output[1]);
    read_to_end(output[0], line);
    close(output[0]);
    must_end_well(child);
}

static int file_of(const uint8_t *bytes, size_t length)
{
    FILE *file = tmpfile();
    if (file == NULL || (length > 0 && fwrite(bytes, 1, length, file) != length) || fflush(file) != 0)
        give_up("temporary file");
    int copy = dup(fileno(file));
    if (copy < 0 || lseek(copy, 0, SEEK_SET) != 0)
        give_up("temporary file");
    fclose(file);
    return copy;
}

/* The listing may stop reading once it has seen enough. */
static void feed(int to, const uint8_t *bytes, size_t length)
{
    size_t at = 0;
    ssize_t put = 1;
    while (at < length && put > 0) {
        put = write(to, bytes + at, length - at < CHUNK ? length - at : CHUNK);
        at += put > 0 ? (size_t)put : 0;
    }
}

static void list_pipe(const uint8_t *bytes, size_t length, char *line)
{
    int input[2];
    if (pipe(input) != 0)
        give_up("pipe");
    pid_t feeder = fork();
    if (feeder < 0)
        give_up("fork");
    if (feeder == 0) {
        close(input[0]);
        feed(input[1], bytes, length);
        _exit(0);
    }
    close(input[1]);
    list(input[0], line);
    must_end_well(feeder);
}

/* What it must write */

static void reference_line(const uint8_t *bytes, size_t length, char *line)
{
    struct reference_checked checked = reference_check(bytes, length);
    if (length > LISTED_MOST)
        snprintf(line, LINE_ROOM, "refused 2 0\n");
    else if (checked.refusal.number != 0)
        snprintf(line, LINE_ROOM, "refused %u %u\n", (unsigned)checked.refusal.number, (unsigned)checked.refusal.place);
    else
        snprintf(line, LINE_ROOM, "ok %u %u %u %u %u\n", (unsigned)checked.end, (unsigned)checked.channels,
                 (unsigned)checked.patterns, (unsigned)checked.instruments, (unsigned)checked.samples);
}

static void try_listing(const uint8_t *bytes, size_t length)
{
    char want[LINE_ROOM], got[LINE_ROOM];
    reference_line(bytes, length, want);
    if (lines % 2 == 0)
        list(file_of(bytes, length), got);
    else
        list_pipe(bytes, length, got);
    lines++;
    if (strcmp(got, want) != 0) {
        fprintf(stderr, "DIFFERENCE: input of %zu bytes\n  wanted: %s  listed: %s\n", length, want, got);
        exit(1);
    }
}

/* Modules */

static void damage(struct module *module, struct chance *chance)
{
    struct field field = module->fields[chance_below(chance, (uint32_t)module->field_count)];
    switch (chance_below(chance, 3)) {
    case 0:
        module->length = chance_below(chance, (uint32_t)module->length);
        break;
    case 1:
        module->bytes[chance_below(chance, (uint32_t)module->length)] ^= (uint8_t)chance_between(chance, 1, 255);
        break;
    default:
        field_put(module->bytes, field, field_get(module->bytes, field) + chance_between(chance, 0, 2) - 1);
    }
}

static void modules_of_every_shape(unsigned rounds)
{
    struct chance chance = {5001};
    struct module module = {0};
    for (unsigned round = 0; round < rounds; round++) {
        struct shape shape = round % 3 == 2 ? kind_by_chance(&chance, false, true) : shape_by_chance(&chance, round % 16 == 0);
        module_build(&module, &shape, &chance);
        try_listing(module.bytes, module.length);
        damage(&module, &chance);
        try_listing(module.bytes, module.length);
    }
    module_free(&module);
}

static void around_the_limit(void)
{
    struct chance chance = {5002};
    struct module module = {0};
    struct shape shape = {.song_length = 1, .channels = 1, .patterns = 1, .rows = 64, .cells = CELLS_NONE};
    module_build(&module, &shape, &chance);
    module_put_noise(&module, 2 * LISTED_MOST - module.length, &chance);
    for (size_t length = LISTED_MOST - 1; length <= LISTED_MOST + 2; length++) {
        try_listing(module.bytes, length);
        try_listing(module.bytes, length);
    }
    try_listing(module.bytes, 2 * LISTED_MOST);
    try_listing(module.bytes, 2 * LISTED_MOST);
    try_listing(module.bytes, 0);
    try_listing(module.bytes, 0);
    module_free(&module);
}

int main(int argc, char **argv)
{
    if (argc < 2) {
        fprintf(stderr, "usage: listing_test PROGRAM [ARGUMENT...]\n");
        return 2;
    }
    command = argv + 1;
    signal(SIGPIPE, SIG_IGN);
    around_the_limit();
    modules_of_every_shape(100);
    printf("listing: %u lines, 0 differences\n", lines);
    return 0;
}
