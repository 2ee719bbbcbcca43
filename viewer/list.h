/* What stands in a file: its directory, its reads, its table of contents. */
#ifndef VIEWER_LIST_H
#define VIEWER_LIST_H

#include "format.h"

/* Each prints its list and tells whether all that it asked for was answered. */
bool list_abif(const struct file *file);
bool list_sff(const struct file *file, const jt_verdict *verdict);
bool list_gtc(const struct file *file);

/* Prints the file's line and its list. */
enum status list_file(const struct file *file);

#endif
