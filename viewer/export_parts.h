/* What the exports of all formats share. */
#ifndef VIEWER_EXPORT_PARTS_H
#define VIEWER_EXPORT_PARTS_H

#include "export.h"
#include "output.h"

struct export {
    const struct file *file;
    struct judgement judgement;
    const struct export_options *options;
    struct output output;
    FILE *out;          /* NULL as long as nothing is exported */
    enum status status; /* the highest of all that happened */
};

/* Each exports a file of its format. */
void export_abif(struct export *export);
void export_sff(struct export *export);
void export_gtc(struct export *export);

/* Opens the output, where it is not open yet: only when there is something to be written, so that nothing is left where
   there is not. False where it cannot be opened, which is told, or was not written so far. */
bool export_opens(struct export *export);

/* Tells why something of the file is not exported, and of a part, what it is refused with, in words and by its number;
   the status tells it too. */
void export_lacks(struct export *export, const char *reason);
void export_lacks_refused(struct export *export, const char *what, const char *words, uint64_t refusal);

/* Prints a text that is to be one word. */
void export_word(struct export *export, const uint8_t *bytes, size_t length);

/* Ends a header line, which says of a refused file that it is; and a row of a table, which says so too. */
void export_end_header(struct export *export, char separator);
void export_end_row(struct export *export);

/* Whether FASTA and FASTQ can hold the letter; and FASTQ the quality. */
bool is_exported_letter(int64_t letter);
bool is_exported_quality(int64_t quality);

/* How a letter and a quality are written. */
enum { LETTERS_A_LINE = 60, FIRST_QUALITY = 33 };

/* A job that takes some time, with progress where its lines and those of the output cannot meet. */
void export_begin_progress(const struct export *export);

#endif
