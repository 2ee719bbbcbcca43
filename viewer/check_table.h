/* A table of the files in folders, with how many findings each has. */
#ifndef VIEWER_CHECK_TABLE_H
#define VIEWER_CHECK_TABLE_H

#include "walk.h"

/* Profile 0 stands for the one that each file is taken for. */
enum status check_table(char *const paths[], int count, int profile);

#endif
