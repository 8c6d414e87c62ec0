/* stack.c - how deep a function reaches into the stack: it is run on a painted one. */
#include "stack.h"
#include <stdint.h>
#include <stdio.h>
#include <stdlib.h>
#include <string.h>
#include <ucontext.h>

enum { STACK = 1 << 20, PAINT = 0xa5 };

size_t stack_depth(void (*work)(void))
{
    static _Alignas(64) uint8_t stack[STACK];
    static ucontext_t outside, inside;
    memset(stack, PAINT, STACK);
    if (getcontext(&inside) != 0) { perror("bench: getcontext"); exit(2); }
    inside.uc_stack.ss_sp = stack;
    inside.uc_stack.ss_size = STACK;
    inside.uc_link = &outside;
    makecontext(&inside, work, 0);
    if (swapcontext(&outside, &inside) != 0) { perror("bench: swapcontext"); exit(2); }
    size_t untouched = 0;
    while (untouched < STACK && stack[untouched] == PAINT) untouched++;
    return STACK - untouched;
}
