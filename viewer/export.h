/* What other programs read of a file: its letters, its qualities, its numbers. */
#ifndef VIEWER_EXPORT_H
#define VIEWER_EXPORT_H

#include "format.h"

enum export_kind { EXPORT_FASTA, EXPORT_FASTQ, EXPORT_CSV };

struct export_options {
    enum export_kind kind;
    const char *output; /* NULL for standard output */
    bool raw;           /* ABIF: the raw channels */
    bool trimmed;       /* SFF: the inserts alone */
    bool one_read;      /* SFF: read `read` alone, from one */
    uint64_t read;
    bool refused; /* what can be read of a refused file */
};

/* Prints the file's line, and exports the file. */
enum status export_file(const struct file *file, const struct export_options *options);

#endif
