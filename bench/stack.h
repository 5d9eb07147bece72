/* stack.h: how much stack a call takes, measured on a small painted stack of its own with an unreadable page below it. */

#ifndef STACK_H
#define STACK_H

#include <stddef.h>

/* Bytes that run(argument) needs below its caller, its return address included. Ends the program if that is over
   STACK_MOST. */
size_t stack_use(void (*run)(void *), void *argument);

#define STACK_MOST 65536

#endif
