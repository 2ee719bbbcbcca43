/* How the program and its commands are used. */
#ifndef VIEWER_HELP_H
#define VIEWER_HELP_H

/* Prints the help of a command to stdout, NULL standing for the program. */
void print_help(const char *command);

void print_version(void);

#endif
