/* Makes a call on a stack of its own, which is painted before, and says how much of it the call has touched. */
#ifndef PAINTED_H
#define PAINTED_H

#include <stdint.h>
#include <stdio.h>
#include <stdlib.h>
#include <ucontext.h>

#define PAINT 0xa5a5a5a5a5a5a5a5u
/* The stack of a call that takes little of it, and that of the one which, in the source, goes deeper for each word of a line. */
#define SHALLOW 2048
#define PAINTED_WORDS 65536

static uint64_t painted[PAINTED_WORDS];
static ucontext_t here, there;

static void paint(size_t from)
{
    for (; from < PAINTED_WORDS; from++)
        painted[from] = PAINT;
}

/* The bytes of the painted stack that `run` has touched, with what it takes to get there. It is given the last `words` of it: what
 * lies below is not looked through. */
static size_t touched_by(void (*run)(void), size_t words)
{
    static int before;
    size_t from = PAINTED_WORDS - words, i = from;
    if (!before++)
        paint(0);
    getcontext(&there);
    there.uc_stack.ss_sp = painted + from;
    there.uc_stack.ss_size = words * sizeof *painted;
    there.uc_link = &here;
    makecontext(&there, run, 0);
    swapcontext(&here, &there);
    while (i < PAINTED_WORDS && painted[i] == PAINT)
        i++;
    if (i == from) {
        fprintf(stderr, "a call has used more than the %lu bytes of stack that it was given\n", (unsigned long)(words * sizeof *painted));
        exit(2);
    }
    paint(i);
    return sizeof painted - i * sizeof *painted;
}

#endif
