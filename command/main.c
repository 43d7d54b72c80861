#define _POSIX_C_SOURCE 200809L
#include "commands.h"
#include "say.h"
#include "tuulveski.h"
#include "usage.h"

#include <signal.h>
#include <stdio.h>
#include <string.h>

enum { OUTPUT_BUFFER = 65536 };

static int run(const char *name, int count, char **words)
{
    static const struct {
        const char *name;
        int (*run)(int count, char **words);
    } COMMANDS[] = {
        {"check", command_check},   {"submit", command_submit}, {"write", command_write},
        {"ledger", command_ledger}, {"book", command_book},
    };
    if (strcmp(name, "--help") == 0 || strcmp(name, "-h") == 0 || strcmp(name, "help") == 0)
        return give_help(USAGE);
    if (strcmp(name, "--version") == 0)
        return give_help("tuulveski " TUULVESKI_VERSION "\n");
    for (size_t i = 0; i < sizeof COMMANDS / sizeof *COMMANDS; i++)
        if (strcmp(name, COMMANDS[i].name) == 0)
            return COMMANDS[i].run(count, words);
    say("there is no command '%s'", name);
    fputs(USAGE, stderr);
    return FAILED;
}

int main(int count, char **words)
{
    static char buffer[OUTPUT_BUFFER];
    /* A closed pipe, or a file that is longer than the process may write, is an error of writing, said as such. */
    signal(SIGPIPE, SIG_IGN);
    signal(SIGXFSZ, SIG_IGN);
    setvbuf(stdout, buffer, _IOFBF, sizeof buffer);
    if (count < 2) {
        fputs(USAGE, stderr);
        return FAILED;
    }
    return run(words[1], count - 1, words + 1);
}
