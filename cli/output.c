/* output.c: see output.h. */

#define _XOPEN_SOURCE 700 /* realpath, mkstemp, fchown */

#include "output.h"

#include <errno.h>
#include <fcntl.h>
#include <signal.h>
#include <stdlib.h>
#include <string.h>
#include <unistd.h>

/* The temporary file, for the signal handler too. */
static char *temporary;
static volatile sig_atomic_t temporary_made;

void remove_temporary(void)
{
    if (temporary_made)
        unlink(temporary);
    temporary_made = 0;
}

static void on_signal(int number)
{
    remove_temporary();
    signal(number, SIG_DFL);
    raise(number);
}

void take_signals(void)
{
    const int ends[] = {SIGHUP, SIGINT, SIGQUIT, SIGPIPE, SIGALRM, SIGTERM, SIGUSR1, SIGUSR2, SIGXCPU, SIGVTALRM, SIGPROF};
    struct sigaction now = {.sa_handler = on_signal}, before;
    sigfillset(&now.sa_mask);
    for (size_t i = 0; i < sizeof ends / sizeof ends[0]; i++)
        if (sigaction(ends[i], NULL, &before) == 0 && before.sa_handler != SIG_IGN)
            sigaction(ends[i], &now, NULL);
    signal(SIGXFSZ, SIG_IGN); /* a file size limit is then trouble with a message, as a full disk is */
}

/* Where bytes may go */

static enum status judge_found(struct output *output)
{
    output->path = realpath(output->name, NULL);
    if (output->path == NULL || stat(output->path, &output->about) != 0)
        return trouble(output->name, "leads nowhere: %s", strerror(errno));
    output->replaces = true;
    if (S_ISDIR(output->about.st_mode))
        return trouble(output->name, "is a directory; --into writes into one");
    if (!S_ISREG(output->about.st_mode))
        return trouble(output->name, "is not a regular file");
    if (access(output->path, W_OK) != 0)
        return trouble(output->name, "cannot be written: %s", strerror(errno));
    return ACCEPTED;
}

enum status find_output(const char *name, struct output *output)
{
    *output = (struct output){.name = name};
    if (lstat(name, &output->about) == 0)
        return judge_found(output);
    if (errno != ENOENT)
        return trouble(name, "cannot be written: %s", strerror(errno));
    output->path = strdup(name);
    return output->path != NULL ? ACCEPTED : trouble(name, "not enough memory");
}

void free_output(struct output *output)
{
    free(output->path);
}

/* The temporary file */

/* The path's directory with its slash; nothing for the current one. */
static size_t directory_length(const char *path)
{
    const char *slash = strrchr(path, '/');
    return slash == NULL ? 0 : (size_t)(slash - path) + 1;
}

/* Makes the temporary file beside the path. A signal that comes meanwhile waits, so that it meets the file or none. */
static int make_temporary(const char *path)
{
    static const char ending[] = ".fiddlemarsh-XXXXXX";
    size_t directory = directory_length(path);
    sigset_t all, before;
    free(temporary);
    temporary = malloc(directory + sizeof ending);
    if (temporary == NULL)
        return -1;
    memcpy(temporary, path, directory);
    memcpy(temporary + directory, ending, sizeof ending);
    sigfillset(&all);
    sigprocmask(SIG_BLOCK, &all, &before);
    int file = mkstemp(temporary);
    temporary_made = file >= 0;
    sigprocmask(SIG_SETMASK, &before, NULL);
    return file;
}

static bool write_all(int file, struct bytes bytes)
{
    while (bytes.length > 0) {
        ssize_t put = write(file, bytes.first, bytes.length);
        if (put < 0 && errno != EINTR)
            return false;
        if (put > 0) {
            bytes.first += put;
            bytes.length -= (size_t)put;
        }
    }
    return true;
}

/* The permissions that a new file would get. */
static mode_t usual_mode(void)
{
    mode_t mask = umask(0);
    umask(mask);
    return 0666 & ~mask;
}

/* Owner, group and permissions of the file that is replaced, as far as the user and the file system can give them. A group that
   cannot be kept is followed by one that gets no more than everybody. */
static void take_over(int file, const struct output *output)
{
    mode_t mode = output->replaces ? output->about.st_mode & 0777 : usual_mode();
    if (output->replaces && fchown(file, output->about.st_uid, output->about.st_gid) != 0 &&
        fchown(file, (uid_t)-1, output->about.st_gid) != 0)
        mode &= ~(mode_t)070 | (mode & 07) << 3;
    fchmod(file, mode);
}

static bool fill_temporary(int file, const struct output *output, struct bytes bytes)
{
    take_over(file, output);
    bool written = write_all(file, bytes) && fsync(file) == 0;
    int because = errno;
    bool closed = close(file) == 0;
    if (!written)
        errno = because;
    return written && closed;
}

enum status put_aside(const struct output *output, struct bytes bytes)
{
    int file = make_temporary(output->path);
    if (file < 0)
        return trouble(output->name, "no file can be made beside it: %s", strerror(errno));
    if (fill_temporary(file, output, bytes))
        return ACCEPTED;
    int because = errno;
    remove_temporary();
    return trouble(output->name, "cannot be written: %s", strerror(because));
}

/* So that the new name lasts, too. Some file systems can't; the file itself is safe by then. */
static void sync_directory(const char *path)
{
    char *directory = strndup(path, directory_length(path));
    if (directory == NULL)
        return;
    int file = open(directory[0] == 0 ? "." : directory, O_RDONLY | O_CLOEXEC);
    if (file >= 0) {
        fsync(file);
        close(file);
    }
    free(directory);
}

enum status put_in_place(const struct output *output)
{
    if (rename(temporary, output->path) != 0) {
        int because = errno;
        remove_temporary();
        return trouble(output->name, "is not written after all: %s", strerror(because));
    }
    temporary_made = 0;
    sync_directory(output->path);
    return ACCEPTED;
}
