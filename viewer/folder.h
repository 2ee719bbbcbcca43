/* Files and folders, each file judged, with a line for each. */
#ifndef VIEWER_FOLDER_H
#define VIEWER_FOLDER_H

#include "format.h"

/* Where a folder is among the paths, a summary follows the lines. */
enum status judge_paths(char *const paths[], int count);

#endif
