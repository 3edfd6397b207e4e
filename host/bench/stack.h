/* stack.h: how much stack a call uses. */
#ifndef STACK_H
#define STACK_H

#include <stddef.h>

/* The bytes of stack that `call` overwrites beyond what an empty call does. It is run on a stack of its own, filled with a
   pattern, and once before that so that a dynamic linker has done its work. 0 also where no such stack can be had. */
size_t stack_use(void (*call)(void));

#endif
