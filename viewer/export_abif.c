#include "export_parts.h"
#include "memory.h"
#include "numbers.h"
#include "progress.h"
#include "run.h"
#include "text.h"
#include "words.h"

#include <inttypes.h>
#include <stdlib.h>
#include <string.h>

enum { LUMP = 4096, WHAT_LENGTH = 80 };

/* The number, from one, of the first value that cannot be written; 0 where all can. */
static uint64_t first_unwritable(const struct file *file, const struct series *series, bool (*is_writable)(int64_t)) {
    int64_t values[LUMP];
    uint64_t number = 0;
    uint64_t at_hand = 0;
    while (number < series->count) {
        if (number % LUMP == 0) {
            at_hand = series_values(file, series, number, values, LUMP);
        }
        if (number % LUMP >= at_hand || !is_writable(values[number % LUMP])) {
            return number + 1;
        }
        number++;
    }
    return 0;
}

static bool is_there(struct export *export, const struct series *series) {
    if (series->refusal != 0) {
        export_lacks_refused(export, series->tag, refusal_words(series->refusal), series->refusal);
    }
    return series->refusal == 0;
}

static bool is_writable(struct export *export, const struct series *series, const char *what,
                        bool (*can_be_written)(int64_t)) {
    uint64_t number = first_unwritable(export->file, series, can_be_written);
    if (number != 0) {
        char reason[WHAT_LENGTH];
        snprintf(reason, sizeof reason, "%s %" PRIu64 " cannot be written", what, number);
        export_lacks(export, reason);
    }
    return number == 0;
}

/* Whether there is a quality for each letter; else that is told. */
static bool is_qualified(struct export *export, const struct run *run) {
    if (!run->qualified) {
        char reason[WHAT_LENGTH];
        snprintf(reason, sizeof reason, "%s has %" PRIu64 " letters, but %s has %" PRIu64 " qualities",
                 run->letters.tag, run->letters.count, run->qualities.tag, run->qualities.count);
        export_lacks(export, reason);
    }
    return run->qualified;
}

/* Whether the letters, and what else is asked for, can be exported. */
static bool can_export(struct export *export, const struct run *run) {
    bool fastq = export->options->kind == EXPORT_FASTQ;
    if (!is_there(export, &run->letters)) {
        return false;
    }
    if (fastq && (!is_there(export, &run->qualities) || !is_qualified(export, run))) {
        return false;
    }
    return is_writable(export, &run->letters, "letter", is_exported_letter) &&
           (!fastq || is_writable(export, &run->qualities, "quality", is_exported_quality));
}

static void print_header(struct export *export, const struct series *letters) {
    const struct file *file = export->file;
    const char *slash = strrchr(file->path, '/');
    const char *name = slash != NULL ? slash + 1 : file->path;
    jt_part sample = run_sample_name(file);
    fputc(export->options->kind == EXPORT_FASTQ ? '@' : '>', export->out);
    export_word(export, (const uint8_t *)name, strlen(name));
    fprintf(export->out, " %s, %" PRIu64 " %s", letters->tag, letters->count,
            letters->count == 1 ? "letter" : "letters");
    if (sample.length > 0) {
        fputs(", sample ", export->out);
        print_text(export->out, part_of(file, sample.start, sample.length), sample.length);
    }
    export_end_header(export, ' ');
}

/* The values, each with `added` to it, in lines of so many. */
static void print_values(struct export *export, const struct series *series, int added, uint64_t a_line) {
    int64_t values[LUMP];
    for (uint64_t i = 0; i < series->count; i++) {
        if (i % LUMP == 0) {
            series_values(export->file, series, i, values, LUMP);
            progress_show(i, series->count);
        }
        if (i > 0 && i % a_line == 0) {
            fputc('\n', export->out);
        }
        fputc((int)values[i % LUMP] + added, export->out);
    }
    fputc('\n', export->out);
}

static void export_letters(struct export *export) {
    struct run run;
    run_read(&run, export->file, false);
    if (!can_export(export, &run) || !export_opens(export)) {
        return;
    }
    print_header(export, &run.letters);
    if (export->options->kind == EXPORT_FASTA) {
        print_values(export, &run.letters, 0, LETTERS_A_LINE);
        return;
    }
    print_values(export, &run.letters, 0, run.letters.count);
    fputs("+\n", export->out);
    print_values(export, &run.qualities, FIRST_QUALITY, run.qualities.count);
}

static void print_columns(struct export *export, const struct run *run) {
    fputs("point", export->out);
    for (int i = 0; i < run->channel_count; i++) {
        const struct series *channel = &run->channels[i];
        fprintf(export->out, ",%s", channel->tag);
        if (run->bases[i] != 0) {
            fprintf(export->out, " %c", run->bases[i]);
        }
        if (channel->refusal != 0) {
            fprintf(export->out, " refused %" PRIu64, channel->refusal);
        }
    }
    export_end_header(export, ',');
}

/* One point's values, an empty one where a channel is not there or has ended. */
static void print_point(struct export *export, const struct run *run, uint64_t point, const int64_t *lump) {
    fprintf(export->out, "%" PRIu64, point);
    for (int i = 0; i < run->channel_count; i++) {
        fputc(',', export->out);
        if (point < run->channels[i].count) {
            fprintf(export->out, "%" PRId64, lump[i * LUMP + (int)(point % LUMP)]);
        }
    }
    export_end_row(export);
}

static void read_lump(const struct run *run, uint64_t point, int64_t *lump) {
    for (int i = 0; i < run->channel_count; i++) {
        series_values(run->file, &run->channels[i], point, lump + i * LUMP, LUMP);
    }
}

static void export_channels(struct export *export) {
    struct run run;
    run_read(&run, export->file, export->options->raw);
    int refused = refused_channels(&run);
    if (refused == run.channel_count) {
        export_lacks_refused(export, run.channels[0].tag, refusal_words(run.channels[0].refusal),
                             run.channels[0].refusal);
        return;
    }
    if (!export_opens(export)) {
        return;
    }
    export->status = refused > 0 ? STATUS_REFUSED : export->status;
    print_columns(export, &run);
    int64_t *lump = take(MOST_CHANNELS * LUMP, sizeof *lump);
    for (uint64_t point = 0; point < run_length(&run) && export_opens(export); point++) {
        if (point % LUMP == 0) {
            read_lump(&run, point, lump);
            progress_show(point, run_length(&run));
        }
        print_point(export, &run, point, lump);
    }
    free(lump);
}

void export_abif(struct export *export) {
    if (export->options->kind == EXPORT_CSV) {
        export_channels(export);
    } else {
        export_letters(export);
    }
}
