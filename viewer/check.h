/* `check`: a file's tags against the published tables, in words. */
#ifndef VIEWER_CHECK_H
#define VIEWER_CHECK_H

#include "format.h"

/* Prints every finding of one file; of more files, or of folders, a table of files. Profile 0 stands for the one that
   each file is taken for. */
enum status check_paths(char *const paths[], int count, int profile);

#endif
