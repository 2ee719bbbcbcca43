#include "export_parts.h"
#include "progress.h"
#include "text.h"
#include "words.h"

#include <errno.h>
#include <inttypes.h>
#include <string.h>
#include <unistd.h>

static void raise_status(struct export *export, enum status status) {
    if (status > export->status) {
        export->status = status;
    }
}

static void fail(struct export *export, const char *path, const char *reason) {
    tell_failure(path, reason);
    raise_status(export, STATUS_UNREADABLE);
}

/* The output has a descriptor of its own, since the stream closes the one that it is given. */
static FILE *open_output(struct export *export) {
    const char *path = export->options->output;
    const char *reason = output_open(&export->output, path, NULL);
    if (reason != NULL) {
        fail(export, path, reason);
        return NULL;
    }
    int descriptor = dup(export->output.descriptor);
    FILE *out = descriptor >= 0 ? fdopen(descriptor, "w") : NULL;
    if (out == NULL) {
        fail(export, path, output_close(&export->output, strerror(errno)));
    }
    return out;
}

bool export_opens(struct export *export) {
    if (export->out == NULL) {
        export->out = export->options->output == NULL ? stdout : open_output(export);
    }
    return export->out != NULL && !ferror(export->out);
}

/* Standard output is looked at when the program ends. */
static void close_output(struct export *export) {
    if (export->out == NULL || export->out == stdout) {
        return;
    }
    const char *failure = ferror(export->out) ? "cannot be written to its end" : NULL;
    if (fclose(export->out) != 0 && failure == NULL) {
        failure = strerror(errno);
    }
    failure = output_close(&export->output, failure);
    if (failure != NULL) {
        fail(export, export->options->output, failure);
    }
}

void export_begin_progress(const struct export *export) {
    if (export->options->output != NULL || !isatty(STDOUT_FILENO)) {
        progress_begin("exporting");
    }
}

void export_lacks(struct export *export, const char *reason) {
    progress_end();
    tell_failure(export->file->path, reason);
    raise_status(export, STATUS_REFUSED);
    export_begin_progress(export);
}

void export_lacks_refused(struct export *export, const char *what, const char *words, uint64_t refusal) {
    char reason[128];
    snprintf(reason, sizeof reason, "%s: %s (refused %" PRIu64 ")", what, words, refusal);
    export_lacks(export, reason);
}

/* What parts words, in any script. */
static bool is_blank(uint32_t code) {
    return code == ' ' || code == 0xA0 || code == 0x1680 || (code >= 0x2000 && code <= 0x200A) || code == 0x202F ||
           code == 0x205F || code == 0x3000;
}

void export_word(struct export *export, const uint8_t *bytes, size_t length) {
    while (length > 0) {
        struct character character = text_character(bytes, length);
        fputs(is_blank(character.code) ? "_" : character.shown, export->out);
        bytes += character.length;
        length -= character.length;
    }
}

void export_end_header(struct export *export, char separator) {
    if (!is_whole(&export->judgement)) {
        fprintf(export->out, "%cFILE REFUSED %" PRIu64, separator, export->judgement.verdict.refusal);
    }
    fputc('\n', export->out);
}

void export_end_row(struct export *export) {
    fputs(is_whole(&export->judgement) ? "\n" : ",refused\n", export->out);
}

bool is_exported_letter(int64_t letter) {
    return (letter >= 'A' && letter <= 'Z') || (letter >= 'a' && letter <= 'z') || letter == '-' || letter == '*';
}

bool is_exported_quality(int64_t quality) {
    return quality >= 0 && quality <= 93;
}

/* NULL, or why files of this format are not exported so. */
static const char *wrong_kind(enum format format, enum export_kind kind) {
    if (format == FORMAT_SFF && kind == EXPORT_CSV) {
        return "an SFF file is exported with --fasta or --fastq, not with --csv";
    }
    if (format == FORMAT_GTC && kind != EXPORT_CSV) {
        return "a GTC file is exported with --csv, not with --fasta or --fastq";
    }
    return NULL;
}

static void export_format(struct export *export) {
    switch (export->judgement.format) {
    case FORMAT_ABIF:
        export_abif(export);
        break;
    case FORMAT_SFF:
        export_sff(export);
        break;
    default:
        export_gtc(export);
        break;
    }
}

enum status export_file(const struct file *file, const struct export_options *options) {
    struct export export = {.file = file, .judgement = judge(file), .options = options};
    export.status = status_of(&export.judgement);
    print_line_to(options->output != NULL ? stdout : stderr, file, &export.judgement);
    const char *wrong = wrong_kind(export.judgement.format, options->kind);
    if (wrong != NULL) {
        fail(&export, file->path, wrong);
    } else if (export.judgement.format == FORMAT_UNKNOWN) {
        tell_failure(file->path, "is no sequencing file, and nothing is exported");
    } else if (!is_whole(&export.judgement) && !options->refused) {
        tell_failure(file->path, "is refused, and nothing is exported; --refused exports what can be read");
    } else {
        export_begin_progress(&export);
        export_format(&export);
        progress_end();
        close_output(&export);
    }
    return export.status;
}
