#include "option_words.h"

#include "say.h"

#include <string.h>

enum { ONE_LETTER = 2, TWO_DASHES = 2 };

bool is_standard(const char *name)
{
    return strcmp(name, "-") == 0;
}

/* The option that a word names, with its value if that is in the same word. */
static const struct named_option *option_of(const char *word, const struct option_list *list, const char **value)
{
    *value = NULL;
    for (size_t i = 0; i < list->count; i++) {
        const struct named_option *option = &list->at[i];
        size_t len = strlen(option->name);
        if (word[1] == option->letter) {
            *value = word[ONE_LETTER] == '\0' ? NULL : word + ONE_LETTER;
            return option;
        }
        if (strncmp(word, "--", TWO_DASHES) != 0 || strncmp(word + TWO_DASHES, option->name, len) != 0)
            continue;
        const char *rest = word + TWO_DASHES + len;
        if (*rest == '\0' || *rest == '=') {
            *value = *rest == '\0' ? NULL : rest + 1;
            return option;
        }
    }
    return NULL;
}

/* Takes the option at words[*at], and moves on to its last word. */
static bool take_option(int count, char **words, int *at, const struct option_list *list, void *into, bool *given)
{
    const char *value, *word = words[*at];
    const struct named_option *option = option_of(word, list, &value);
    if (option == NULL) {
        say("%s has no option '%s'", words[0], word);
        return false;
    }
    if (given[option - list->at]) {
        say("--%s is given twice", option->name);
        return false;
    }
    given[option - list->at] = true;
    if (value == NULL && *at + 1 == count) {
        say("--%s needs a value", option->name);
        return false;
    }
    if (value == NULL)
        value = words[++*at];
    return option->take(into, value);
}

enum parsed read_words(int count, char **words, const struct option_list *list, void *into, struct operands *operands)
{
    bool given[OPTIONS_MOST] = {false}, is_after_dashes = false;
    *operands = (struct operands){words + 1, 0};
    for (int i = 1; i < count; i++) {
        if (is_after_dashes || words[i][0] != '-' || is_standard(words[i])) {
            operands->at[operands->count++] = words[i];
        } else if (strcmp(words[i], "--") == 0) {
            is_after_dashes = true;
        } else if (strcmp(words[i], "--help") == 0 || strcmp(words[i], "-h") == 0) {
            return ASKED_FOR_HELP;
        } else if (!take_option(count, words, &i, list, into, given)) {
            return NOT_UNDERSTOOD;
        }
    }
    return PARSED;
}
