/* Commands that are several actions: tuulveski COMMAND ACTION OPERANDS.. */
#ifndef ACTIONS_H
#define ACTIONS_H

#include <stdbool.h>
#include <stddef.h>

enum { OPERANDS_MOST = 2 };

struct request {
    const char *operands[OPERANDS_MOST];
    bool replace; /* --replace was given */
};

struct action {
    const char *name;
    int operands;
    bool may_replace;
    int (*run)(const struct request *request);
};

struct command {
    const char *name, *usage;
    const struct action *actions;
    size_t count;
};

/* Runs the action that the words ask for, and gives its status; --help and faults of usage are dealt with here. */
int run_command(const struct command *command, int count, char **words);

/* The fault, then the usage, on standard error; gives the status for it. */
int refuse_usage(const char *usage, const char *format, ...)
#if defined __GNUC__
    __attribute__((format(printf, 2, 3)))
#endif
    ;

/* Whether standard output took all that was printed: `printed` is whether the calls so far went well. False, and said why, where not. */
bool finish_output(bool printed);

#endif
