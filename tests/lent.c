/* lent.c: see lent.h. */

#define _DEFAULT_SOURCE /* MAP_ANONYMOUS */

#include "lent.h"

#include "../include/fiddlemarsh.h"
#include "modules.h"
#include "reference.h"

#include <signal.h>
#include <stdbool.h>
#include <stdio.h>
#include <stdlib.h>
#include <string.h>
#include <sys/mman.h>
#include <unistd.h>

/* Guards are wider than any machine's page, and everything is aligned to them. */
#define GUARD ((size_t)65536)
#define ARENA ((size_t)LENT_MOST)
#define TABLE_ARENA ((size_t)LENT_TABLE_MOST * 4)
#define OUTPUTS 4
#define DUMP_PRINTED 2048
#define SECONDS_FOR_A_CALL 120
#define NUMBERS 17

/* Memory between two guards, written through one address and lent at another: input is lent where nobody can write. */
struct arena {
    uint8_t *written;
    uint8_t *lent;
    size_t size;
};

static struct arena input_arena;
static struct arena output_arenas[OUTPUTS];
static uint8_t *noise;             /* what output memory holds before a call, and at the second placement its complement */
static uint8_t *expected[OUTPUTS]; /* output memory of the reference */

static const char *dump_file;
static const char *group_name = "";
static const struct call *current_call;
static const uint8_t *current_input;
static uint8_t *current_output[OUTPUTS];
static uint64_t calls;
static uint64_t seen[CALL_NAMES][NUMBERS];

/* What a call is by its name: what its slices hold, and what its answer tells. A size of 0: no such slice. */
struct kind {
    const char *text;
    const char *told;
    size_t input_size;
    const char *outputs[OUTPUTS];
    size_t output_sizes[OUTPUTS];
};

static const struct kind kinds[CALL_NAMES] = {
    {"check", "end", 1, {NULL}, {0}},
    {"unpack", "rows", 1, {"output"}, {1}},
    {"pack", "length", 1, {"output"}, {1}},
    {"press", "length", 1, {"output"}, {1}},
    {"to_normal", "length", 1, {"output"}, {1}},
    {"to_stripped", "length", 1, {"output"}, {1}},
    {"tables", "end", 1, {"patterns", "instruments", "samples", "tunes"}, {4, 4, 4, 1}},
    {"decode", "values", 1, {"output"}, {2}},
    {"code", "bytes", 2, {"output"}, {1}},
    {"adpcm", "values", 1, {"output"}, {2}},
    {"period", "number", 1, {NULL}, {0}},
};

static size_t input_bytes(const struct call *call)
{
    return call->input_len * kinds[call->name].input_size;
}

static size_t output_bytes(const struct call *call, unsigned output)
{
    return (output == 0 ? call->room : call->rooms[output - 1]) * kinds[call->name].output_sizes[output];
}

const char *call_text(enum call_name name)
{
    return kinds[name].text;
}

void lent_group(const char *group)
{
    group_name = group;
}

uint64_t lent_calls(void)
{
    return calls;
}

uint64_t lent_seen(enum call_name name, unsigned number)
{
    return seen[name][number];
}

/* Telling what went wrong */

static void say_answer(const char *whose, enum call_name name, uint64_t answer)
{
    fprintf(stderr, "  %s: ", whose);
    if (fiddlemarsh_refused(answer))
        fprintf(stderr, "refused %u at place %u\n", (unsigned)fiddlemarsh_refusal(answer), (unsigned)fiddlemarsh_place(answer));
    else if (name == CALL_PACK)
        fprintf(stderr, "length %u, rows %u\n", (unsigned)fiddlemarsh_packed_length(answer),
                (unsigned)fiddlemarsh_packed_rows(answer));
    else if (name == CALL_PERIOD)
        fprintf(stderr, "dividend %u, divisor %u\n", (unsigned)fiddlemarsh_period_dividend(answer),
                (unsigned)fiddlemarsh_period_divisor(answer));
    else
        fprintf(stderr, "%s %u\n", kinds[name].told, (unsigned)answer);
}

static void say_call(const struct call *call)
{
    fprintf(stderr, "  group: %s, call number %llu\n", group_name, (unsigned long long)calls);
    fprintf(stderr, "  fiddlemarsh_%s(", call_text(call->name));
    if (call->name == CALL_UNPACK || call->name == CALL_PACK)
        fprintf(stderr, "rows %zu, channels %zu, ", call->rows, call->channels);
    if (call->name == CALL_DECODE || call->name == CALL_CODE)
        fprintf(stderr, "width %zu, ", call->width);
    if (call->name == CALL_ADPCM)
        fprintf(stderr, "length %zu, ", call->length);
    if (call->name == CALL_PERIOD)
        fprintf(stderr, "note %llu, finetune %lld, ", (unsigned long long)call->note, (long long)call->finetune);
    fprintf(stderr, "input of %zu bytes", input_bytes(call));
    for (unsigned i = 0; i < OUTPUTS && kinds[call->name].outputs[i] != NULL; i++)
        fprintf(stderr, ", %s of %zu bytes", kinds[call->name].outputs[i], output_bytes(call, i));
    fprintf(stderr, ")\n");
}

static void dump_input(const struct call *call)
{
    const uint8_t *bytes = call->input;
    size_t count = input_bytes(call), printed = count < DUMP_PRINTED ? count : DUMP_PRINTED;
    fprintf(stderr, "  input%s:", printed < count ? ", its beginning" : "");
    for (size_t i = 0; i < printed; i++) {
        if (i % 32 == 0)
            fprintf(stderr, "\n  %6zu ", i);
        fprintf(stderr, " %02X", bytes[i]);
    }
    fprintf(stderr, "\n");
    FILE *file = fopen(dump_file, "wb");
    if (file == NULL)
        return;
    if (count > 0)
        fwrite(bytes, 1, count, file);
    fclose(file);
    fprintf(stderr, "  the whole input: %s\n", dump_file);
}

static void end_with_difference(const struct call *call)
{
    fflush(stdout);
    dump_input(call);
    _exit(1);
}

void lent_unexpected(const struct call *call, const char *what, uint64_t got)
{
    fprintf(stderr, "DIFFERENCE: %s\n", what);
    say_call(call);
    say_answer("answer", call->name, got);
    end_with_difference(call);
}

static void answers_differ(const struct call *call, uint64_t want, uint64_t got)
{
    fprintf(stderr, "DIFFERENCE: the answers\n");
    say_call(call);
    say_answer("reference", call->name, want);
    say_answer("library  ", call->name, got);
    fprintf(stderr, "  library's number: %llu\n", (unsigned long long)got);
    end_with_difference(call);
}

static void bytes_differ(const struct call *call, const char *whose, const uint8_t *want, const uint8_t *got, size_t count,
                         uint64_t answer)
{
    size_t at = 0;
    while (at < count && want[at] == got[at])
        at++;
    fprintf(stderr, "DIFFERENCE: the %s at byte %zu: %02X is wanted, %02X is there\n", whose, at, want[at], got[at]);
    say_call(call);
    say_answer("both answer", call->name, answer);
    end_with_difference(call);
}

/* Where a wild address lies, seen from a lent slice. */
static void say_distance(const char *whose, const uint8_t *slice, size_t length, const uint8_t *address)
{
    if (slice == NULL)
        return;
    if (address < slice && slice - address <= (ptrdiff_t)GUARD)
        fprintf(stderr, "  that is %td bytes before the %s\n", slice - address, whose);
    else if (address >= slice + length && address - (slice + length) <= (ptrdiff_t)GUARD)
        fprintf(stderr, "  that is %td bytes behind the end of the %s\n", address - (slice + length), whose);
    else if (address >= slice && address < slice + length)
        fprintf(stderr, "  that is byte %td of the %s (input is lent for reading only)\n", address - slice, whose);
}

static void on_signal(int signal_number, siginfo_t *info, void *context)
{
    (void)context;
    const struct call *call = current_call;
    if (call == NULL) {
        fprintf(stderr, "signal %d in the test program itself\n", signal_number);
        _exit(2);
    }
    if (signal_number == SIGALRM) {
        fprintf(stderr, "DIFFERENCE: the call does not return\n");
    } else {
        fprintf(stderr, "DIFFERENCE: signal %d: the call touches memory that it must not touch\n", signal_number);
        say_distance("input", current_input, input_bytes(call), info->si_addr);
        for (unsigned i = 0; i < OUTPUTS && kinds[call->name].outputs[i] != NULL; i++)
            say_distance(kinds[call->name].outputs[i], current_output[i], output_bytes(call, i), info->si_addr);
    }
    say_call(call);
    end_with_difference(call);
}

/* Memory */

static void give_up(const char *what)
{
    perror(what);
    exit(2);
}

static uint8_t *map_between_guards(int file, size_t size)
{
    uint8_t *all = mmap(NULL, size + 2 * GUARD, PROT_NONE, MAP_PRIVATE | MAP_ANONYMOUS, -1, 0);
    if (all == MAP_FAILED)
        give_up("mmap");
    int access = file < 0 ? PROT_READ | PROT_WRITE : PROT_READ;
    int flags = file < 0 ? MAP_PRIVATE | MAP_ANONYMOUS : MAP_SHARED;
    uint8_t *lent = mmap(all + GUARD, size, access, flags | MAP_FIXED, file, 0);
    if (lent == MAP_FAILED)
        give_up("mmap");
    return lent;
}

static struct arena map_input(void)
{
    FILE *file = tmpfile();
    if (file == NULL || ftruncate(fileno(file), (off_t)ARENA) != 0)
        give_up("temporary file");
    uint8_t *written = mmap(NULL, ARENA, PROT_READ | PROT_WRITE, MAP_SHARED, fileno(file), 0);
    if (written == MAP_FAILED)
        give_up("mmap");
    struct arena arena = {written, map_between_guards(fileno(file), ARENA), ARENA};
    fclose(file);
    return arena;
}

static struct arena map_output(size_t size)
{
    uint8_t *both = map_between_guards(-1, size);
    return (struct arena){both, both, size};
}

static void *get_memory(size_t size)
{
    void *memory = malloc(size);
    if (memory == NULL)
        give_up("malloc");
    return memory;
}

/* Made as far as it is asked for: most runs of must-see.sh end after a few small calls. */
static void make_noise(size_t count)
{
    static struct chance chance = {20240601};
    static size_t made;
    for (; made < count; made += 8) {
        uint64_t eight = chance_next(&chance), other = ~eight;
        memcpy(noise + made, &eight, 8);
        memcpy(noise + ARENA + made, &other, 8);
    }
}

static void take_signals(void)
{
    static uint8_t signal_stack[65536];
    stack_t stack = {.ss_sp = signal_stack, .ss_size = sizeof signal_stack};
    struct sigaction action = {.sa_flags = SA_SIGINFO | SA_ONSTACK};
    action.sa_sigaction = on_signal;
    sigemptyset(&action.sa_mask);
    const int signals[] = {SIGSEGV, SIGBUS, SIGILL, SIGFPE, SIGALRM, SIGABRT, SIGTRAP};
    if (sigaltstack(&stack, NULL) != 0)
        give_up("sigaltstack");
    for (size_t i = 0; i < sizeof signals / sizeof signals[0]; i++)
        if (sigaction(signals[i], &action, NULL) != 0)
            give_up("sigaction");
}

void lent_start(const char *dump_path)
{
    dump_file = dump_path;
    input_arena = map_input();
    for (unsigned i = 0; i < OUTPUTS; i++) {
        output_arenas[i] = map_output(i == 0 ? ARENA : TABLE_ARENA);
        expected[i] = get_memory(output_arenas[i].size);
    }
    noise = get_memory(2 * ARENA);
    take_signals();
}

/* Copies bytes against the lower guard or the upper one. An empty slice is NULL there, or the unreadable byte here. */
static uint8_t *lend(const struct arena *arena, const uint8_t *bytes, size_t count, bool upper)
{
    if (count > arena->size) {
        fprintf(stderr, "a test wants to lend %zu bytes\n", count);
        exit(2);
    }
    if (count == 0)
        return upper ? arena->lent + arena->size : NULL;
    size_t at = upper ? arena->size - count : 0;
    memcpy(arena->written + at, bytes, count);
    return arena->lent + at;
}

/* Numbers of a table and values, in memory that is aligned for them. */
#define NUMBERS_AT(memory) ((uint32_t *)(void *)(memory))
#define VALUES_AT(memory) ((int16_t *)(void *)(memory))

static uint64_t ask_reference(const struct call *call, uint8_t *const output[OUTPUTS])
{
    const size_t *rooms = call->rooms;
    switch (call->name) {
    case CALL_CHECK:
        return reference_loader_check(call->input, call->input_len);
    case CALL_UNPACK:
        return reference_loader_unpack(call->rows, call->channels, call->input, call->input_len, output[0], call->room);
    case CALL_PACK:
        return reference_loader_pack(call->rows, call->channels, call->input, call->input_len, output[0], call->room);
    case CALL_PRESS:
        return reference_loader_press(call->input, call->input_len, output[0], call->room);
    case CALL_TO_NORMAL:
        return reference_loader_to_normal(call->input, call->input_len, output[0], call->room);
    case CALL_TO_STRIPPED:
        return reference_loader_to_stripped(call->input, call->input_len, output[0], call->room);
    case CALL_TABLES:
        return reference_loader_tables(call->input, call->input_len, NUMBERS_AT(output[0]), call->room, NUMBERS_AT(output[1]),
                                       rooms[0], NUMBERS_AT(output[2]), rooms[1], (int8_t *)output[3], rooms[2]);
    case CALL_DECODE:
        return reference_loader_decode(call->width, call->input, call->input_len, VALUES_AT(output[0]), call->room);
    case CALL_CODE:
        return reference_loader_code(call->width, call->input, call->input_len, output[0], call->room);
    case CALL_ADPCM:
        return reference_loader_adpcm(call->length, call->input, call->input_len, VALUES_AT(output[0]), call->room);
    default:
        return reference_loader_period(call->note, call->finetune);
    }
}

static uint64_t ask_library(const struct call *call, const uint8_t *input, uint8_t *const output[OUTPUTS])
{
    const size_t *rooms = call->rooms;
    switch (call->name) {
    case CALL_CHECK:
        return fiddlemarsh_check(input, call->input_len);
    case CALL_UNPACK:
        return fiddlemarsh_unpack(call->rows, call->channels, input, call->input_len, output[0], call->room);
    case CALL_PACK:
        return fiddlemarsh_pack(call->rows, call->channels, input, call->input_len, output[0], call->room);
    case CALL_PRESS:
        return fiddlemarsh_press(input, call->input_len, output[0], call->room);
    case CALL_TO_NORMAL:
        return fiddlemarsh_to_normal(input, call->input_len, output[0], call->room);
    case CALL_TO_STRIPPED:
        return fiddlemarsh_to_stripped(input, call->input_len, output[0], call->room);
    case CALL_TABLES:
        return fiddlemarsh_tables(input, call->input_len, NUMBERS_AT(output[0]), call->room, NUMBERS_AT(output[1]), rooms[0],
                                  NUMBERS_AT(output[2]), rooms[1], (int8_t *)output[3], rooms[2]);
    case CALL_DECODE:
        return fiddlemarsh_decode(call->width, input, call->input_len, VALUES_AT(output[0]), call->room);
    case CALL_CODE:
        return fiddlemarsh_code(call->width, (const int16_t *)(const void *)input, call->input_len, output[0], call->room);
    case CALL_ADPCM:
        return fiddlemarsh_adpcm(call->length, input, call->input_len, VALUES_AT(output[0]), call->room);
    default:
        return fiddlemarsh_period(call->note, call->finetune);
    }
}

/* What is lent for the answer, and what the reference writes to. */
static void lend_outputs(const struct call *call, const uint8_t *before, bool upper)
{
    for (unsigned i = 0; i < OUTPUTS && kinds[call->name].outputs[i] != NULL; i++) {
        current_output[i] = lend(&output_arenas[i], before, output_bytes(call, i), upper);
        memcpy(expected[i], before, output_bytes(call, i));
    }
}

static void compare_outputs(const struct call *call, uint64_t answer)
{
    for (unsigned i = 0; i < OUTPUTS && kinds[call->name].outputs[i] != NULL; i++) {
        size_t count = output_bytes(call, i);
        if (count > 0 && memcmp(current_output[i], expected[i], count) != 0)
            bytes_differ(call, kinds[call->name].outputs[i], expected[i], current_output[i], count, answer);
    }
}

static uint64_t compare_at(const struct call *call, bool upper)
{
    size_t count = input_bytes(call);
    make_noise(output_bytes(call, 0) > TABLE_ARENA ? output_bytes(call, 0) : TABLE_ARENA);
    const uint8_t *input = lend(&input_arena, call->input, count, upper);
    lend_outputs(call, noise + (upper ? ARENA : 0), !upper);
    uint64_t want = ask_reference(call, expected);
    current_input = input;
    current_call = call;
    uint64_t got = ask_library(call, input, current_output);
    current_call = NULL;
    if (got != want)
        answers_differ(call, want, got);
    compare_outputs(call, got);
    if (count > 0 && memcmp(input, call->input, count) != 0)
        bytes_differ(call, "input", call->input, input, count, got);
    return got;
}

uint64_t lent_compare(const struct call *call)
{
    if (calls % 1024 == 0)
        alarm(SECONDS_FOR_A_CALL);
    calls += 2;
    uint64_t answer = compare_at(call, false);
    if (compare_at(call, true) != answer)
        lent_unexpected(call, "two answers to one question", answer);
    unsigned number = fiddlemarsh_refusal(answer);
    if (number < NUMBERS)
        seen[call->name][number] += 2;
    return answer;
}
