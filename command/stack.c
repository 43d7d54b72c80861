#define _POSIX_C_SOURCE 200809L
#include "stack.h"

#include "say.h"

#include <pthread.h>
#include <string.h>

/* The library takes up to 3.5 MB of stack, which `ulimit -s` may not leave to the first thread. */
enum { STACK_BYTES = 8 * 1024 * 1024 };

bool run_on_own_stack(void *(*run)(void *with), void *with)
{
    pthread_t thread;
    pthread_attr_t form;
    int fault = pthread_attr_init(&form);
    if (fault == 0) {
        fault = pthread_attr_setstacksize(&form, STACK_BYTES);
        if (fault == 0)
            fault = pthread_create(&thread, &form, run, with);
        pthread_attr_destroy(&form);
    }
    if (fault == 0)
        fault = pthread_join(thread, NULL);
    if (fault != 0)
        say("the library could not be started on a thread of its own: %s", strerror(fault));
    return fault == 0;
}
