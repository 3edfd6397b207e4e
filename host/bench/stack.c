#define _XOPEN_SOURCE 700 /* ucontext.h */
#include "stack.h"

#include <string.h>
#include <ucontext.h>

#define STACK (256u * 1024u)

static unsigned char stack[STACK];
static ucontext_t outside, inside;
static void (*volatile to_call)(void);

static void enter(void)
{
    to_call();
}

static void empty(void)
{
}

/* Stacks grow down here: what is still the pattern at the low end was never reached. */
static size_t overwritten(void (*call)(void), int pattern)
{
    size_t untouched = 0;

    memset(stack, pattern, sizeof stack);
    if (getcontext(&inside) != 0)
        return 0;
    inside.uc_stack.ss_sp = stack;
    inside.uc_stack.ss_size = sizeof stack;
    inside.uc_link = &outside;
    to_call = call;
    makecontext(&inside, enter, 0);
    if (swapcontext(&outside, &inside) != 0)
        return 0;
    while (untouched < sizeof stack && stack[untouched] == (unsigned char)pattern)
        untouched++;
    return sizeof stack - untouched;
}

/* A call may write the very pattern, so two are tried. */
static size_t deepest(void (*call)(void))
{
    size_t one = overwritten(call, 0xA5), other = overwritten(call, 0x5A);

    return one > other ? one : other;
}

size_t stack_use(void (*call)(void))
{
    size_t used, none;

    call();
    none = deepest(empty);
    used = deepest(call);
    return used > none ? used - none : 0;
}
