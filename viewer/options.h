/* The words of the command line behind a command. */
#ifndef VIEWER_OPTIONS_H
#define VIEWER_OPTIONS_H

#include "draw.h"
#include "export.h"
#include "profile.h"

/* What is asked for: the command itself, or a text in its place. */
enum wish { WISH_COMMAND, WISH_HELP, WISH_VERSION, WISH_PROFILES, WISH_WRONG };

struct options {
    enum wish wish;
    char *const *operands; /* the files and folders; of a command, its file first */
    int operand_count;
    uint32_t tag; /* what is to be shown */
    int32_t number;
    struct draw_options draw;
    struct export_options export;
    int kinds;   /* how many kinds of export were given */
    int profile; /* what files are checked against, or 0 */
};

/* Reads what stands behind a command's name, which is the first of the words; NULL stands for the program without a
   command. What is wrong is told, with where help is to be had. */
struct options options_read(const char *command, int count, char *words[]);

#endif
