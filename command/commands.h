/* The commands, each in a file of its own: words[0] is the command's name, and the exit status comes back. */
#ifndef COMMANDS_H
#define COMMANDS_H

int command_check(int count, char **words);
int command_submit(int count, char **words);
int command_write(int count, char **words);
int command_ledger(int count, char **words);
int command_book(int count, char **words);

#endif
