/* What the command says of itself: messages on standard error, and its exit status. */
#ifndef SAY_H
#define SAY_H

/* 0 accepted or done, 1 refused, 2 could not be done. */
enum status { DONE = 0, REFUSED = 1, FAILED = 2 };

#if defined __GNUC__
#define SAYS_AS_PRINTF __attribute__((format(printf, 1, 2)))
#else
#define SAYS_AS_PRINTF
#endif

/* "tuulveski: ..." and a line end on standard error. */
void say(const char *format, ...) SAYS_AS_PRINTF;

#endif
