#include "check_table.h"

#include "guess.h"
#include "report.h"
#include "text.h"
#include "words.h"

#include <inttypes.h>

/* How the files that were checked came out. */
struct tally {
    int profile; /* 0 for the one that each file is taken for */
    uint64_t clean;
    uint64_t with_findings;
    uint64_t refused;
    uint64_t others; /* of another format, or of none */
};

/* A row without numbers, which begins as those with numbers do; what is the matter stands behind the file's name. */
static void begin_without_numbers(const struct file *file) {
    printf("%7s  %-8s %7s  %12s  %14s  %11s  ", "-", "-", "-", "-", "-", "-");
    print_string(stdout, file->path);
    printf(": ");
}

static void print_refused_row(const struct file *file, uint64_t refusal) {
    begin_without_numbers(file);
    print_refusal(refusal);
    putchar('\n');
}

static void print_other_row(const struct file *file, const struct judgement *judgement) {
    begin_without_numbers(file);
    printf("%s, no ABIF file\n", format_name(judgement->format));
}

static void print_row(const struct file *file, int profile, const char *since, const struct report *report) {
    printf("%7d  %-8s %7" PRIu64 "  %12" PRIu64 "  %14" PRIu64 "  %11" PRIu64 "  ", profile, since, report->missing,
           report->other_type, report->not_in_profile, report->added_later);
    print_string(stdout, file->path);
    putchar('\n');
}

static bool check_whole(struct walk *walk, const struct file *file) {
    struct tally *tally = walk->context;
    int profile = tally->profile;
    struct guess_words since = {.text = "given"};
    struct report report;
    if (profile == 0) {
        struct guess guess = guess_profile(file);
        profile = guess.profile;
        since = guess_words(&guess);
    }
    report_read(&report, file, profile);
    walk_erase_progress(walk);
    if (report.refusal != 0) {
        tally->refused++;
        print_refused_row(file, report.refusal);
        return false;
    }
    tally->clean += report.count == 0;
    tally->with_findings += report.count > 0;
    print_row(file, profile, since.text, &report);
    return report.count == 0;
}

static bool check_file(struct walk *walk, const struct file *file) {
    struct tally *tally = walk->context;
    struct judgement judgement = judge(file);
    if (judgement.format == FORMAT_ABIF && is_whole(&judgement)) {
        return check_whole(walk, file);
    }
    walk_erase_progress(walk);
    if (judgement.format == FORMAT_ABIF) {
        tally->refused++;
        print_refused_row(file, judgement.verdict.refusal);
    } else {
        tally->others++;
        print_other_row(file, &judgement);
    }
    return false;
}

enum status check_table(char *const paths[], int count, int profile) {
    struct tally tally = {.profile = profile};
    struct walk walk = {.visit = check_file, .context = &tally, .counted = "not as their tables say"};
    printf("profile  since    missing  another type  not in profile  of analysis  file\n");
    walk_paths(&walk, paths, count);
    printf("%" PRIu64 " files: %" PRIu64 " without findings, %" PRIu64 " with findings, %" PRIu64 " refused, %" PRIu64
           " no ABIF files, %" PRIu64 " not readable\n",
           walk.files, tally.clean, tally.with_findings, tally.refused, tally.others, walk.unreadable);
    return walk_status(&walk);
}
