/* fiddlemarsh.c: checks, presses, converts and compares FastTracker II modules, and tells samples and periods, from the command line, over
   libfiddlemarsh. */

#define _GNU_SOURCE /* getopt_long */

#include "../include/fiddlemarsh.h"
#include "commands.h"
#include "names.h"
#include "output.h"

#include <errno.h>
#include <getopt.h>
#include <locale.h>
#include <stdlib.h>
#include <string.h>
#include <unistd.h>

static const char help[] =
    "Checks, presses, converts and compares FastTracker II (XM) modules, normal and\n"
    "stripped ones, and tells their samples and periods.\n"
    "\n"
    "usage: fiddlemarsh check [--quiet] [--tsv] FILE...\n"
    "       fiddlemarsh press [--quiet] IN OUT\n"
    "       fiddlemarsh press [--quiet] --into DIR FILE...\n"
    "       fiddlemarsh convert --to normal|stripped [--quiet] IN OUT\n"
    "       fiddlemarsh convert --to normal|stripped [--quiet] --into DIR FILE...\n"
    "       fiddlemarsh same [--quiet] [--tsv] FILE...\n"
    "       fiddlemarsh samples [--tsv] FILE\n"
    "       fiddlemarsh period NOTE FINETUNE\n"
    "       fiddlemarsh --help | --version\n"
    "\n"
    "check says of each file whether it is accepted, and as which kind of module, one\n"
    "line a file, and counts them in the last line. press writes the shortest file\n"
    "of the same content and kind to OUT, or that of each FILE into the directory\n"
    "DIR, under the file's own name.\n"
    "\n"
    "convert writes the shortest module of the other kind, normal or stripped, with\n"
    "the same content but for the tracker name, which is then nulls. A normal one may\n"
    "be longer than its file. A file that is of that kind already is pressed, which\n"
    "keeps the tracker name, and its line says so.\n"
    "\n"
    "same says which files are one song: a line for each song that comes more than\n"
    "once, with its files in the order given, then a line for each file that is\n"
    "alone, then one for each that is refused, and the counts. What is compared is\n"
    "the pressed bytes, all of them: it is proved of the press that they are the\n"
    "same exactly when the content is. How a file is stored makes no other song of\n"
    "it: header sizes, patterns packed or plain, silent rows stored or left out,\n"
    "bytes behind the end. The module's name is content, so a module under another\n"
    "name (in it, not the file's) is another song; so are tempo, tracker name and\n"
    "all else that press keeps. A normal module and a stripped one are two songs:\n"
    "convert both --to stripped first, where no tracker name is left to differ.\n"
    "\n"
    "samples prints the sheet for setting a board up, a line a sample: instrument and\n"
    "sample, counted from 1; its name; where its data begin in the file and how many\n"
    "bytes they are; width in bits; kind, delta or ADPCM; how many values it has; its\n"
    "loop, none, forward or both ways, with start and length counted in samples and\n"
    "not bytes; finetune and relative note. With --tsv the columns have a tab between\n"
    "two, for a spreadsheet, and nothing else is told; a name is escaped as below, so\n"
    "is a first = + - or @ of it, and an empty one is -. Refusals go to standard\n"
    "error.\n"
    "\n"
    "period says the Amiga period of a real note, 0 to 118, with its finetune, -128\n"
    "to 127, as two whole numbers and their quotient: 29024 / 2 = 14512.\n"
    "\n"
    "  -q, --quiet      tell only what needs a person: refused files, and trouble;\n"
    "                   with same also the songs that come more than once\n"
    "  -t, --tsv        one record a file, for scripts; with samples one a sample\n"
    "  -i, --into DIR   press or convert every FILE into DIR, which must be there\n"
    "  -T, --to KIND    with convert: the kind wanted, normal or stripped\n"
    "  -h, --help       this text\n"
    "  -V, --version    the version of the program and its library\n"
    "\n"
    "A FILE or IN of - is standard input. A FILE that is a directory stands for the\n"
    "files in it, and in directories in it, whose names end in .xm or .XM; links to\n"
    "directories are not followed. same reads files twice if others look like them,\n"
    "so it takes regular files alone, and no standard input. samples takes one file,\n"
    "and no directory.\n"
    "\n"
    "OUT, and each file in DIR, is written whole or not at all: on any refusal or\n"
    "trouble it stays as it was, and there is no half file. IN and OUT may be the\n"
    "same file; with --into no FILE is written over. A file that is replaced keeps\n"
    "its permissions, and its owner and group where that is possible.\n"
    "\n"
    "A refusal is told by its number, its place (a byte of the file, counted from 0)\n"
    "and in words for whoever sent the file.\n"
    "\n"
    "A record of --tsv is a line of ten fields with a tab between two: accepted,\n"
    "refused or trouble; the refusal's number, name and place; the value found and\n"
    "the limit that it breaks (only a cut file's limit is told so far, its length);\n"
    "the module's end; how many bytes were read; the file's name; the module's kind,\n"
    "normal or stripped. A field that has nothing to tell is -. In a name the\n"
    "backslash, and every byte that is not printable ASCII, is written as \\0 and\n"
    "three octal digits, so that printf %b gives the name back. A record of same has\n"
    "one field more, in front: the number of the song, counted from 1, the same for\n"
    "all its files and - for a file that is not accepted.\n"
    "\n"
    "A normal module is written with the ID text \"Extended module: \", as the rules\n"
    "of the boards have it. Players that insist on a capital M there, as FastTracker\n"
    "II writes it, do not open it (xmp and openmpt123 open none of 70); what the\n"
    "boards read is the mark and the version.\n"
    "\n"
    "exit status: 0 accepted, 1 refused, 2 wrong usage or trouble with a file; of\n"
    "several files the largest counts\n";

/* What the command line asks for. */
struct request {
    struct manner manner;
    const char *into;
    const char *to;
    bool help;
    bool version;
};

enum { QUIET = 256, TSV, INTO, TO, HELP, VERSION }; /* long options: no letter's number */

static const struct option long_options[] = {
    {"quiet", no_argument, NULL, QUIET},   {"tsv", no_argument, NULL, TSV},   {"into", required_argument, NULL, INTO},
    {"to", required_argument, NULL, TO},   {"help", no_argument, NULL, HELP}, {"version", no_argument, NULL, VERSION},
    {NULL, 0, NULL, 0},
};

static enum status no_such_option(char **arguments)
{
    char letter[] = {'-', (char)optopt, 0};
    bool is_letter = optopt > 0 && optopt < QUIET;
    return wrong_usage("no such option (a file of that name goes behind --): ", is_letter ? letter : arguments[optind - 1]);
}

static enum status wants_more(void)
{
    bool is_to = optopt == TO || optopt == 'T';
    return wrong_usage(is_to ? "--to wants a kind of module, normal or stripped" : "--into wants a directory", NULL);
}

/* The arguments that are no options are behind optind then. */
static enum status read_options(int count, char **arguments, struct request *request)
{
    int option;
    /* the colon in front: getopt tells nothing itself, since it would show an option's bytes as they are */
    while ((option = getopt_long(count, arguments, ":qti:T:hV", long_options, NULL)) != -1)
        switch (option) {
        case QUIET: case 'q': request->manner.quiet = true; break;
        case TSV: case 't': request->manner.tsv = true; break;
        case INTO: case 'i': request->into = optarg; break;
        case TO: case 'T': request->to = optarg; break;
        case HELP: case 'h': request->help = true; break;
        case VERSION: case 'V': request->version = true; break;
        case ':': return wants_more();
        default: return no_such_option(arguments);
        }
    return ACCEPTED;
}

static bool names_standard_input(int count, char **named)
{
    for (int i = 0; i < count; i++)
        if (is_standard_input(named[i]))
            return true;
    return false;
}

/* A command that writes no module. */
static enum status writes_nothing(const struct request *request)
{
    if (request->into != NULL)
        return wrong_usage("--into is for press and convert", NULL);
    if (request->to != NULL)
        return wrong_usage("--to is for convert", NULL);
    return ACCEPTED;
}

static enum status run_check(const struct request *request, int count, char **named)
{
    if (writes_nothing(request) != ACCEPTED)
        return TROUBLE;
    if (count == 0)
        return wrong_usage("check wants at least one FILE", NULL);
    return check_files(request->manner, count, named);
}

/* One module or many, pressed or converted. */
static enum status run_writing(const struct request *request, enum target to, int count, char **named)
{
    if (request->manner.tsv)
        return wrong_usage("--tsv is for check, same and samples", NULL);
    if (request->into == NULL && count != 2)
        return wrong_usage("IN and OUT are wanted, or --into DIR and FILEs", NULL);
    if (request->into == NULL && is_standard_input(named[1]))
        return wrong_usage("OUT must be a file; one that is called - is ./-", NULL);
    if (request->into == NULL)
        return press_file(request->manner, to, named[0], named[1]);
    if (count == 0)
        return wrong_usage("at least one FILE is wanted", NULL);
    if (names_standard_input(count, named))
        return wrong_usage("standard input has no name to be written under: name OUT, and no --into", NULL);
    return press_into(request->manner, to, request->into, count, named);
}

static enum status run_press(const struct request *request, int count, char **named)
{
    if (request->to != NULL)
        return wrong_usage("press leaves a module its kind: --to is for convert", NULL);
    return run_writing(request, OWN_KIND, count, named);
}

static enum status run_convert(const struct request *request, int count, char **named)
{
    if (request->to == NULL)
        return wrong_usage("convert wants --to normal or --to stripped", NULL);
    if (strcmp(request->to, "normal") == 0)
        return run_writing(request, NORMAL_KIND, count, named);
    if (strcmp(request->to, "stripped") == 0)
        return run_writing(request, STRIPPED_KIND, count, named);
    return wrong_usage("--to wants normal or stripped, not ", request->to);
}

static enum status run_same(const struct request *request, int count, char **named)
{
    if (writes_nothing(request) != ACCEPTED)
        return TROUBLE;
    if (count == 0)
        return wrong_usage("same wants at least one FILE", NULL);
    if (names_standard_input(count, named))
        return wrong_usage("same may have to read a file twice, and standard input comes once: name a file", NULL);
    return same_files(request->manner, count, named);
}

static enum status run_samples(const struct request *request, int count, char **named)
{
    if (request->into != NULL || request->to != NULL || request->manner.quiet)
        return wrong_usage("samples has no such option", NULL);
    if (count != 1)
        return wrong_usage("samples wants one FILE", NULL);
    return say_samples(request->manner, named[0]);
}

static enum status run_period(const struct request *request, int count, char **named)
{
    if (request->into != NULL || request->to != NULL || request->manner.quiet || request->manner.tsv)
        return wrong_usage("period has no such option", NULL);
    if (count != 2)
        return wrong_usage("period wants NOTE and FINETUNE", NULL);
    return say_period(named[0], named[1]);
}

/* Where options end: behind period a minus with a digit is a number, and so are all arguments after it. */
static int options_end(int count, char **arguments)
{
    for (int i = 2; i < count && strcmp(arguments[1], "period") == 0; i++)
        if (arguments[i][0] == '-' && arguments[i][1] >= '0' && arguments[i][1] <= '9')
            return i;
    return count;
}

static enum status run(int count, char **arguments)
{
    struct request request = {.into = NULL};
    enum status status = read_options(options_end(count, arguments), arguments, &request);
    if (status != ACCEPTED)
        return status;
    if (request.help)
        return fputs(help, stdout), ACCEPTED;
    if (request.version)
        return puts("fiddlemarsh " FIDDLEMARSH_VERSION), ACCEPTED;
    if (optind >= count)
        return wrong_usage("a command is wanted: check, press, convert, same, samples or period", NULL);
    const char *command = arguments[optind++];
    if (strcmp(command, "check") == 0)
        return run_check(&request, count - optind, arguments + optind);
    if (strcmp(command, "press") == 0)
        return run_press(&request, count - optind, arguments + optind);
    if (strcmp(command, "convert") == 0)
        return run_convert(&request, count - optind, arguments + optind);
    if (strcmp(command, "same") == 0)
        return run_same(&request, count - optind, arguments + optind);
    if (strcmp(command, "samples") == 0)
        return run_samples(&request, count - optind, arguments + optind);
    if (strcmp(command, "period") == 0)
        return run_period(&request, count - optind, arguments + optind);
    return wrong_usage("no such command: ", command);
}

/* Whatever could not be told is trouble; if nothing was to be told, standard output may be closed. */
static enum status finish(enum status status)
{
    bool told = !ferror(stdout);
    errno = 0;
    told = fflush(stdout) == 0 && (close(STDOUT_FILENO) == 0 || errno == EBADF) && told;
    return told ? status : trouble("standard output", "cannot be written: %s", errno != 0 ? strerror(errno) : "lines are missing");
}

int main(int argc, char **argv)
{
    setlocale(LC_CTYPE, ""); /* which bytes are letters */
    take_signals();
    return finish(run(argc, argv));
}
