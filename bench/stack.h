/* stack.h - how deep a function reaches into the stack. */
#ifndef STACK_H
#define STACK_H
#include <stddef.h>

/* Bytes from the stack's end to the deepest one that the work changed, on a painted stack of 1 MiB. */
size_t stack_depth(void (*work)(void));

#endif
