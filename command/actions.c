#define _POSIX_C_SOURCE 200809L
#include "actions.h"

#include "say.h"

#include <errno.h>
#include <getopt.h>
#include <signal.h>
#include <stdarg.h>
#include <stdio.h>
#include <string.h>

enum { USAGE_FAULT_ROOM = 1000, OPERAND = 1 };

int refuse_usage(const char *usage, const char *format, ...)
{
    char fault[USAGE_FAULT_ROOM];
    va_list words;
    va_start(words, format);
    vsnprintf(fault, sizeof fault, format, words);
    va_end(words);
    say("%s", fault);
    fputs(usage, stderr);
    return FAILED;
}

bool finish_output(bool printed)
{
    if (printed && fflush(stdout) == 0)
        return true;
    say("standard output: %s", strerror(errno));
    return false;
}

static int help(const char *usage)
{
    return finish_output(fputs(usage, stdout) >= 0) ? DONE : FAILED;
}

static const struct action *find_action(const struct command *command, const char *name)
{
    for (size_t i = 0; i < command->count; i++)
        if (strcmp(command->actions[i].name, name) == 0)
            return &command->actions[i];
    return NULL;
}

static int run_action(const struct command *command, int count, char **words, bool replace)
{
    struct request request = {.replace = replace};
    if (count == 0)
        return refuse_usage(command->usage, "%s: which action?", command->name);
    const struct action *action = find_action(command, words[0]);
    if (action == NULL)
        return refuse_usage(command->usage, "%s: there is no action '%s'", command->name, words[0]);
    if (count - 1 != action->operands)
        return refuse_usage(command->usage, "%s %s: too %s words", command->name, action->name,
                            count - 1 < action->operands ? "few" : "many");
    if (replace && !action->may_replace)
        return refuse_usage(command->usage, "%s %s: never replaces a file", command->name, action->name);
    for (int i = 0; i < action->operands; i++)
        request.operands[i] = words[1 + i];
    return action->run(&request);
}

/* getopt names a short option by its letter, and a long one by the word that it has just gone past, one with a value too. */
static int refuse_option(const struct command *command, char **words)
{
    const char *word = words[optind - 1];
    if (optopt != 0 && (strncmp(word, "--", 2) != 0 || strchr(word, '=') == NULL))
        return refuse_usage(command->usage, "%s: there is no option '-%c'", command->name, optopt);
    return refuse_usage(command->usage, "%s: there is no option '%s'", command->name, word);
}

/* A reader that went away is told as any other failure of standard output, not by a signal. With `-` getopt hands over the words that are no
 * options too, in order, whatever the environment asks of it; they are moved to the front. */
int run_command(const struct command *command, int count, char **words)
{
    static const struct option OPTIONS[] = {{"help", no_argument, NULL, 'h'}, {"replace", no_argument, NULL, 'r'}, {NULL, 0, NULL, 0}};
    bool replace = false;
    int operands = 0;
    signal(SIGPIPE, SIG_IGN);
    opterr = 0;
    optind = 1;
    for (int option; (option = getopt_long(count, words, "-h", OPTIONS, NULL)) != -1;) {
        if (option == 'h')
            return help(command->usage);
        if (option == OPERAND)
            words[operands++] = optarg;
        else if (option == 'r')
            replace = true;
        else
            return refuse_option(command, words);
    }
    while (optind < count)
        words[operands++] = words[optind++];
    return run_action(command, operands, words, replace);
}
