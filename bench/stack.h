#ifndef STACK_H
#define STACK_H

#include "calls.h"

/* The bytes of stack that one call touches, its frame and the arguments passed on the stack included. */
size_t stack_of(call_function *call, const struct side *side, const struct inputs *in, struct outputs *out);

#endif
