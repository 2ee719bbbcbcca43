#include "format.h"

#include "explain.h"
#include "text.h"

#include <inttypes.h>
#include <string.h>

static bool begins_with(const struct file *file, const char *mark) {
    size_t length = strlen(mark);
    return file->length >= length && memcmp(file->bytes, mark, length) == 0;
}

struct judgement judge(const struct file *file) {
    struct judgement judgement = {.format = FORMAT_UNKNOWN};
    if (begins_with(file, "ABIF")) {
        judgement.format = FORMAT_ABIF;
        judgement.verdict = jt_abif_judge(file->bytes, file->length);
    } else if (begins_with(file, ".sff")) {
        judgement.format = FORMAT_SFF;
        judgement.verdict = jt_sff_judge(file->bytes, file->length);
    } else if (begins_with(file, "gtc")) {
        judgement.format = FORMAT_GTC;
        judgement.verdict = jt_gtc_judge(file->bytes, file->length);
    }
    return judgement;
}

const char *format_name(enum format format) {
    static const char *const names[] = {"unknown", "ABIF", "SFF", "GTC"};
    return names[format];
}

bool is_whole(const struct judgement *judgement) {
    return judgement->format != FORMAT_UNKNOWN && judgement->verdict.refusal == 0;
}

enum status status_of(const struct judgement *judgement) {
    return is_whole(judgement) ? STATUS_WHOLE : STATUS_REFUSED;
}

static void print_whole(FILE *out, const struct file *file, const struct judgement *judgement) {
    const jt_verdict *verdict = &judgement->verdict;
    fprintf(out, " whole %" PRIu64 " of %zu", verdict->extent, file->length);
    if (judgement->format == FORMAT_GTC) {
        fprintf(out, " unjudged %" PRIu64, verdict->unjudged);
    }
    fprintf(out, " tail %" PRIu64, verdict->tail);
}

void print_line_to(FILE *out, const struct file *file, const struct judgement *judgement) {
    const jt_verdict *verdict = &judgement->verdict;
    print_string(out, file->path);
    fprintf(out, ": %s", format_name(judgement->format));
    if (is_whole(judgement)) {
        print_whole(out, file, judgement);
    } else if (judgement->format != FORMAT_UNKNOWN) {
        fprintf(out, " refused %" PRIu64 " at %" PRIu64, verdict->refusal, verdict->entry);
    }
    fputc('\n', out);
    struct explanation explanation = explain(file, judgement);
    if (explanation.sentences[0] != '\0') {
        const char *between = explanation.headline[0] != '\0' ? ": " : "";
        fprintf(out, "  %s%s%s\n", explanation.headline, between, explanation.sentences);
    }
}

void print_line(const struct file *file, const struct judgement *judgement) {
    print_line_to(stdout, file, judgement);
}
