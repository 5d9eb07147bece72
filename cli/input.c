/* input.c: see input.h. */

#define _XOPEN_SOURCE 700

#include "input.h"

#include "../include/fiddlemarsh.h"
#include "say.h"

#include <errno.h>
#include <fcntl.h>
#include <poll.h>
#include <stdlib.h>
#include <string.h>
#include <unistd.h>

#define BYTES_MOST ((size_t)FIDDLEMARSH_FILE_MOST)

/* How much to ask memory for at first: all of a regular file, and one byte more, which shows its end. */
static size_t first_room(const struct stat *about)
{
    if (!S_ISREG(about->st_mode))
        return 65536;
    return about->st_size < (off_t)BYTES_MOST ? (size_t)about->st_size + 1 : BYTES_MOST + 1;
}

static bool make_room(struct bytes *bytes, size_t *room)
{
    size_t more = 2 * *room < BYTES_MOST + 1 ? 2 * *room : BYTES_MOST + 1;
    uint8_t *grown = realloc(bytes->first, more);
    if (grown == NULL)
        return false;
    bytes->first = grown;
    *room = more;
    return true;
}

/* A read that was interrupted, or came before the bytes, is tried again. */
static ssize_t read_some(int file, uint8_t *to, size_t room)
{
    for (;;) {
        ssize_t got = read(file, to, room);
        if (got >= 0 || (errno != EINTR && errno != EAGAIN))
            return got;
        if (errno == EAGAIN)
            poll(&(struct pollfd){.fd = file, .events = POLLIN}, 1, -1);
    }
}

static bool read_open(int file, struct input *input)
{
    struct bytes *bytes = &input->bytes;
    size_t room = first_room(&input->about);
    bytes->first = malloc(room);
    if (bytes->first == NULL)
        return false;
    while (bytes->length <= BYTES_MOST) {
        if (bytes->length == room && !make_room(bytes, &room))
            return false;
        ssize_t got = read_some(file, bytes->first + bytes->length, room - bytes->length);
        if (got <= 0)
            return got == 0;
        bytes->length += (size_t)got;
    }
    return true;
}

static bool read_known(int file, const struct name *name, struct input *input)
{
    bool standard = is_standard_input(name->text), whole;
    if (fstat(file, &input->about) != 0)
        whole = false;
    else if (name->found && !S_ISREG(input->about.st_mode)) {
        trouble(name->text, "is not a regular file");
        return false;
    } else
        whole = read_open(file, input);
    if (!whole)
        trouble(name->text, "cannot be read: %s", strerror(errno));
    else if (!standard && S_ISFIFO(input->about.st_mode) && input->bytes.length == 0) {
        trouble(name->text, "is a pipe, and nothing comes out of it");
        whole = false;
    }
    if (!whole)
        free(input->bytes.first);
    return whole;
}

bool read_input(const struct name *name, struct input *input)
{
    memset(input, 0, sizeof *input);
    bool standard = is_standard_input(name->text);
    /* O_NONBLOCK: opening a pipe does not wait for somebody who writes to it */
    int file = standard ? STDIN_FILENO : open(name->text, O_RDONLY | O_NONBLOCK | O_NOCTTY | O_CLOEXEC);
    if (file < 0) {
        trouble(name->text, "cannot be opened: %s", strerror(errno));
        return false;
    }
    bool whole = read_known(file, name, input);
    if (!standard)
        close(file);
    return whole;
}
