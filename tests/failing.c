/* failing.c: linked into the command-line program by ld's --wrap, it makes one system call fail, and writes down which were made.

   FAILS='NAME NUMBER ERROR'    the call of that name and number (from 1, 0 for every one) fails with that errno; a write with
                                ERROR 0 writes only one byte
   CALLS=FILE                   gets the names of the calls, a line each */

#define _XOPEN_SOURCE 700

#include <errno.h>
#include <fcntl.h>
#include <stdbool.h>
#include <stdio.h>
#include <stdlib.h>
#include <string.h>
#include <unistd.h>

int __real_close(int file);

static void write_down(const char *name)
{
    const char *calls = getenv("CALLS");
    int file = calls == NULL ? -1 : open(calls, O_WRONLY | O_APPEND | O_CREAT, 0666);
    if (file < 0)
        return;
    dprintf(file, "%s\n", name);
    __real_close(file);
}

/* Whether this call is to fail; errno says with what. */
static bool fails(const char *name)
{
    static int count;
    const char *wish = getenv("FAILS");
    char which[16];
    int number, error;
    write_down(name);
    if (wish == NULL || sscanf(wish, "%15s %d %d", which, &number, &error) != 3 || strcmp(which, name) != 0)
        return false;
    count++;
    if (number != 0 && number != count)
        return false;
    errno = error;
    return true;
}

#define WRAP(type, name, parameters, arguments) \
    type __real_##name parameters;              \
    type __wrap_##name parameters;              \
    type __wrap_##name parameters { return fails(#name) ? -1 : __real_##name arguments; }

WRAP(ssize_t, read, (int file, void *to, size_t size), (file, to, size))
WRAP(int, fsync, (int file), (file))
WRAP(int, fchmod, (int file, mode_t mode), (file, mode))
WRAP(int, fchown, (int file, uid_t owner, gid_t group), (file, owner, group))
WRAP(int, rename, (const char *from, const char *to), (from, to))
WRAP(int, mkstemp, (char *name), (name))

ssize_t __real_write(int file, const void *from, size_t size);
ssize_t __wrap_write(int file, const void *from, size_t size);
int __wrap_close(int file);

ssize_t __wrap_write(int file, const void *from, size_t size)
{
    if (!fails("write"))
        return __real_write(file, from, size);
    return errno != 0 ? -1 : __real_write(file, from, 1);
}

/* As on Linux, the file is closed all the same. */
int __wrap_close(int file)
{
    bool failing = fails("close");
    int error = errno, closed = __real_close(file);
    if (failing)
        errno = error;
    return failing ? -1 : closed;
}
