/* stack.c: see stack.h. */

#define _DEFAULT_SOURCE /* MAP_ANONYMOUS */
#define _XOPEN_SOURCE 700

#include "stack.h"

#include <signal.h>
#include <stdint.h>
#include <stdio.h>
#include <stdlib.h>
#include <sys/mman.h>
#include <ucontext.h>
#include <unistd.h>

#define GUARD ((size_t)65536)
#define PAINT 0x5AA5C33C0FF01E87u
#define WORDS (STACK_MOST / sizeof(uint64_t))

static volatile uint64_t *stack; /* its lowest word */
static void (*volatile called)(void *);
static void *volatile call_argument;
static volatile size_t untouched; /* words below everything that the call wrote */
static ucontext_t outside, inside;

/* Looks before it leaves: going back to the other stack writes here, too. */
static void call_and_look(void)
{
    called(call_argument);
    size_t words = 0;
    while (words < WORDS && stack[words] == PAINT)
        words++;
    untouched = words;
}

static void on_overflow(int number)
{
    static const char text[] = "a call takes more stack than was set aside for it\n";
    (void)number;
    _exit(write(STDERR_FILENO, text, sizeof text - 1) < 0 ? 2 : 1);
}

static void map_stack(void)
{
    static uint8_t signal_stack[65536];
    stack_t other = {.ss_sp = signal_stack, .ss_size = sizeof signal_stack};
    struct sigaction action = {.sa_handler = on_overflow, .sa_flags = SA_ONSTACK};
    uint8_t *all = mmap(NULL, GUARD + STACK_MOST, PROT_NONE, MAP_PRIVATE | MAP_ANONYMOUS, -1, 0);
    if (all == MAP_FAILED || mprotect(all + GUARD, STACK_MOST, PROT_READ | PROT_WRITE) != 0 || sigaltstack(&other, NULL) != 0 ||
        sigaction(SIGSEGV, &action, NULL) != 0) {
        perror("a stack for measuring");
        exit(2);
    }
    stack = (volatile uint64_t *)(all + GUARD);
}

static size_t words_left(void (*run)(void *), void *argument)
{
    for (size_t i = 0; i < WORDS; i++)
        stack[i] = PAINT;
    getcontext(&inside);
    inside.uc_stack.ss_sp = (void *)(uintptr_t)stack;
    inside.uc_stack.ss_size = STACK_MOST;
    inside.uc_link = &outside;
    called = run;
    call_argument = argument;
    makecontext(&inside, call_and_look, 0);
    swapcontext(&outside, &inside);
    return untouched;
}

static void do_nothing(void *argument)
{
    (void)argument;
}

size_t stack_use(void (*run)(void *), void *argument)
{
    if (stack == NULL)
        map_stack();
    /* doing nothing takes the return address alone */
    return (words_left(do_nothing, NULL) - words_left(run, argument) + 1) * sizeof(uint64_t);
}
