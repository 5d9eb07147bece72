/* say.c: see say.h. */

#define _XOPEN_SOURCE 700

#include "say.h"

#include "../include/fiddlemarsh.h"

#include <stdarg.h>
#include <string.h>
#include <time.h>
#include <unistd.h>
#include <wchar.h>
#include <wctype.h>

/* Names */

/* What is no printable letter where the user is becomes a question mark, one for each byte. */
void say_name(FILE *to, const char *name)
{
    mbstate_t state = {0};
    if (strcmp(name, "-") == 0)
        name = "standard input";
    for (size_t left = strlen(name), used; left > 0; name += used, left -= used) {
        wchar_t letter;
        used = mbrtowc(&letter, name, left, &state);
        if (used <= left && iswprint((wint_t)letter)) {
            fwrite(name, 1, used, to);
            continue;
        }
        memset(&state, 0, sizeof state);
        used = 1;
        putc('?', to);
    }
}

const char *kind_name(bool stripped)
{
    return stripped ? "stripped" : "normal";
}

/* In a record: printable ASCII but for the backslash as it stands, every other byte as \0 and three octal digits. The shell's
   printf %b gives the name back. */
static void say_escaped(FILE *to, const char *name)
{
    for (; *name != 0; name++) {
        unsigned char byte = (unsigned char)*name;
        if (byte >= ' ' && byte <= '~' && byte != '\\')
            putc(byte, to);
        else
            fprintf(to, "\\0%03o", byte);
    }
}

/* Troubles */

enum status trouble(const char *name, const char *format, ...)
{
    va_list arguments;
    clear_progress();
    fflush(stdout); /* lines come in the order of the files */
    fputs("fiddlemarsh: ", stderr);
    say_name(stderr, name);
    fputs(": ", stderr);
    va_start(arguments, format);
    vfprintf(stderr, format, arguments);
    va_end(arguments);
    putc('\n', stderr);
    return TROUBLE;
}

enum status wrong_usage(const char *what, const char *which)
{
    fprintf(stderr, "fiddlemarsh: %s", what);
    if (which != NULL)
        say_name(stderr, which);
    fputs("\nTry 'fiddlemarsh --help'.\n", stderr);
    return TROUBLE;
}

/* Lines */

enum status say_refusal(FILE *to, struct finding finding)
{
    unsigned number = fiddlemarsh_refusal(finding.answer), place = fiddlemarsh_place(finding.answer);
    clear_progress();
    say_name(to, finding.name);
    fprintf(to, ": refused, number %u at place %u (0x%X)", number, place, place);
    if (number == FIDDLEMARSH_CUT)
        fprintf(to, " of %zu bytes", finding.length);
    fprintf(to, ": %s\n", fiddlemarsh_refusal_words(number));
    return REFUSED;
}

static void say_accepted(struct finding finding)
{
    unsigned end = fiddlemarsh_end(finding.answer);
    say_name(stdout, finding.name);
    printf(": accepted as a %s module, ends at place %u (0x%X)", kind_name(finding.stripped), end, end);
    if (finding.length > end)
        printf("; %zu bytes follow that are no part of it", finding.length - end);
    putchar('\n');
}

/* Records: ten fields. Of the fifth and sixth, the value found and the limit that it breaks, only a cut file's limit is known. */

static void say_record(struct finding finding)
{
    unsigned number = fiddlemarsh_refusal(finding.answer);
    bool refused = fiddlemarsh_refused(finding.answer);
    if (refused) {
        printf("refused\t%u\t%s\t%u\t-\t", number, fiddlemarsh_refusal_name(number), (unsigned)fiddlemarsh_place(finding.answer));
        if (number == FIDDLEMARSH_CUT)
            printf("%zu", finding.length);
        else
            putchar('-');
        printf("\t-\t%zu\t", finding.length);
    } else {
        printf("accepted\t0\t%s\t-\t-\t-\t%u\t%zu\t", fiddlemarsh_refusal_name(number), (unsigned)fiddlemarsh_end(finding.answer),
               finding.length);
    }
    say_escaped(stdout, finding.name);
    printf("\t%s\n", refused ? "-" : kind_name(finding.stripped));
}

void say_trouble_record(struct manner manner, const char *name)
{
    if (!manner.tsv)
        return;
    fputs("trouble\t-\t-\t-\t-\t-\t-\t-\t", stdout);
    say_escaped(stdout, name);
    puts("\t-");
}

enum status say_checked(struct manner manner, struct finding finding)
{
    enum status status = fiddlemarsh_refused(finding.answer) ? REFUSED : ACCEPTED;
    if (status == ACCEPTED && manner.quiet)
        return status;
    clear_progress();
    if (manner.tsv)
        say_record(finding);
    else if (status == REFUSED)
        say_refusal(stdout, finding);
    else
        say_accepted(finding);
    return status;
}

/* Counts */

void say_counts(struct manner manner, struct counts counts, const char *done)
{
    size_t files = counts.of[ACCEPTED] + counts.of[REFUSED] + counts.of[TROUBLE];
    clear_progress();
    if (!manner.quiet && !manner.tsv)
        printf("%zu file%s: %zu %s, %zu refused, %zu trouble%s\n", files, files == 1 ? "" : "s", counts.of[ACCEPTED], done,
               counts.of[REFUSED], counts.of[TROUBLE], counts.of[TROUBLE] == 1 ? "" : "s");
}

enum status worst_of(struct counts counts)
{
    return counts.of[TROUBLE] > 0 ? TROUBLE : counts.of[REFUSED] > 0 ? REFUSED : ACCEPTED;
}

/* Progress */

static int progress_width; /* of what the terminal shows now */

static double seconds(void)
{
    struct timespec time;
    clock_gettime(CLOCK_MONOTONIC, &time);
    return (double)time.tv_sec + 1e-9 * (double)time.tv_nsec;
}

void say_progress(struct manner manner, size_t done, size_t all)
{
    static double next; /* when to tell again; at first, a second after the start */
    bool lines_show = !manner.quiet && isatty(STDOUT_FILENO);
    if (lines_show || !isatty(STDERR_FILENO))
        return;
    double now = seconds();
    if (next == 0)
        next = now + 1;
    if (now < next)
        return;
    next = now + 0.1;
    progress_width = fprintf(stderr, "\r%zu of %zu files", done, all) - 1;
}

void clear_progress(void)
{
    if (progress_width > 0)
        fprintf(stderr, "\r%*s\r", progress_width, "");
    progress_width = 0;
}
