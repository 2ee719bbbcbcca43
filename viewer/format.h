/* Which of the formats a file is taken for, and what judging says of it. */
#ifndef VIEWER_FORMAT_H
#define VIEWER_FORMAT_H

#include "file.h"
#include "jintarueng.h"

#include <stdbool.h>
#include <stdio.h>

enum format { FORMAT_UNKNOWN, FORMAT_ABIF, FORMAT_SFF, FORMAT_GTC };

/* For an unknown format the verdict is empty. */
struct judgement {
    enum format format;
    jt_verdict verdict;
};

/* The exit status: the highest of all that happened. */
enum status { STATUS_WHOLE = 0, STATUS_REFUSED = 1, STATUS_UNREADABLE = 2 };

struct judgement judge(const struct file *file);

const char *format_name(enum format format);

/* Whole: of a known format, and judging refuses nothing. */
bool is_whole(const struct judgement *judgement);

enum status status_of(const struct judgement *judgement);

/* Prints the file's name and the program's line for it, and below it what that means, where there is something to say;
   to stdout, or to another output. */
void print_line(const struct file *file, const struct judgement *judgement);
void print_line_to(FILE *out, const struct file *file, const struct judgement *judgement);

#endif
