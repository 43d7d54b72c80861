/* What the commands take, for a person who asks. */
#ifndef USAGE_H
#define USAGE_H

extern const char USAGE[], USAGE_OF_CHECK[], USAGE_OF_SUBMIT[], USAGE_OF_WRITE[];

/* Writes a text to standard output, and gives back the exit status. */
int give_help(const char *text);

/* The end of a usage error that was said: where help is, and the exit status. */
int hint_at_help(const char *command);

#endif
