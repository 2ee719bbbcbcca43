#include "export_parts.h"
#include "numbers.h"
#include "progress.h"
#include "reads.h"
#include "words.h"

#include <inttypes.h>

enum { WHAT_LENGTH = 80 };

/* The bases of a read that are exported: from number `first`, from one, on. */
struct bases {
    uint64_t first;
    uint64_t count;
    const uint8_t *letters;
    const uint8_t *qualities;
};

static struct bases bases_of(const struct export *export, const struct jt_sff_read *read) {
    const struct file *file = export->file;
    bool trimmed = export->options->trimmed;
    struct bases bases = {.first = 1, .count = trimmed ? read->insert_length : read->bases};
    uint64_t before = trimmed && bases.count > 0 ? read->first - 1 : 0;
    bases.first += before;
    bases.letters = part_of(file, read->letters_start + before, bases.count);
    bases.qualities = part_of(file, read->qualities_start + before, bases.count);
    return bases;
}

/* Whether all these bytes of the read can be written; the first that cannot is told. */
static bool are_writable(struct export *export, uint64_t k, const char *what, const struct bases *bases,
                         const uint8_t *bytes, bool (*is_writable)(int64_t)) {
    uint64_t i = 0;
    while (i < bases->count && is_writable(bytes[i])) {
        i++;
    }
    if (i < bases->count) {
        char reason[WHAT_LENGTH];
        snprintf(reason, sizeof reason, "read %" PRIu64 ": %s %" PRIu64 " cannot be written", k, what,
                 bases->first + i);
        export_lacks(export, reason);
    }
    return i == bases->count;
}

static bool can_export(struct export *export, uint64_t k, const struct bases *bases) {
    return are_writable(export, k, "letter", bases, bases->letters, is_exported_letter) &&
           (export->options->kind == EXPORT_FASTA ||
            are_writable(export, k, "quality", bases, bases->qualities, is_exported_quality));
}

static void print_header(struct export *export, uint64_t k, const struct jt_sff_read *read) {
    FILE *out = export->out;
    fputc(export->options->kind == EXPORT_FASTQ ? '@' : '>', out);
    if (read->name_length > 0) {
        export_word(export, part_of(export->file, read->name_start, read->name_length), read->name_length);
    } else {
        fprintf(out, "read-%" PRIu64, k);
    }
    fprintf(out, " read %" PRIu64 ", ", k);
    if (!export->options->trimmed) {
        fprintf(out, "%" PRIu64 " %s", read->bases, read->bases == 1 ? "base" : "bases");
    } else if (read->insert_length == 0) {
        fprintf(out, "no bases of %" PRIu64, read->bases);
    } else {
        fprintf(out, "bases %" PRIu64 " to %" PRIu64 " of %" PRIu64, read->first, read->last, read->bases);
    }
    export_end_header(export, ' ');
}

static void print_in_lines(FILE *out, const uint8_t *letters, uint64_t count) {
    for (uint64_t i = 0; i < count; i += LETTERS_A_LINE) {
        uint64_t left = count - i;
        fwrite(letters + i, 1, left < LETTERS_A_LINE ? left : LETTERS_A_LINE, out);
        fputc('\n', out);
    }
}

static void print_with_qualities(FILE *out, const struct bases *bases) {
    fwrite(bases->letters, 1, bases->count, out);
    fputs("\n+\n", out);
    for (uint64_t i = 0; i < bases->count; i++) {
        fputc(bases->qualities[i] + FIRST_QUALITY, out);
    }
    fputc('\n', out);
}

/* False where the output fails; a read that is left out is told. */
static bool export_read(struct export *export, uint64_t k, const struct jt_sff_read *read) {
    if (read->refusal != 0) {
        char what[WHAT_LENGTH];
        snprintf(what, sizeof what, "read %" PRIu64, k);
        export_lacks_refused(export, what, refusal_words(read->refusal), read->refusal);
        return true;
    }
    struct bases bases = bases_of(export, read);
    if (!can_export(export, k, &bases)) {
        return true;
    }
    if (!export_opens(export)) {
        return false;
    }
    print_header(export, k, read);
    if (export->options->kind == EXPORT_FASTA) {
        print_in_lines(export->out, bases.letters, bases.count);
    } else {
        print_with_qualities(export->out, &bases);
    }
    return true;
}

static void export_reads(struct export *export, uint64_t in_header) {
    struct reads reads;
    struct jt_sff_read read;
    uint64_t k;
    bool goes_on = true;
    reads_begin(&reads, export->file, &export->judgement.verdict, in_header);
    while (goes_on && reads_next(&reads, &k, &read)) {
        goes_on = export_read(export, k, &read);
        progress_show(k, reads.last);
    }
    reads_end(&reads);
}

void export_sff(struct export *export) {
    const struct file *file = export->file;
    uint64_t k = export->options->read;
    struct jt_sff_header header = jt_sff_header(file->bytes, file->length);
    if (header.refusal != 0) {
        export_lacks_refused(export, "header", refusal_words(header.refusal), header.refusal);
        return;
    }
    if (export->options->one_read) {
        struct jt_sff_read read = jt_sff_read(file->bytes, file->length, k);
        export_read(export, k, &read);
    } else {
        export_reads(export, header.reads);
    }
    if (export->status == STATUS_WHOLE) {
        export_opens(export);
    }
}
