/* Calls of the library, on a stack that is large enough for them. */
#ifndef STACK_H
#define STACK_H

#include <stdbool.h>

/* Runs a function on a thread with a stack of its own, and waits for its end. False, and said why, where there is no thread to be had. */
bool run_on_own_stack(void *(*run)(void *with), void *with);

#endif
