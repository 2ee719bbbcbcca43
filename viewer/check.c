#include "check.h"

#include "check_table.h"
#include "guess.h"
#include "memory.h"
#include "report.h"
#include "words.h"

#include <ctype.h>
#include <inttypes.h>
#include <stdlib.h>
#include <string.h>

/* A file's report, and the directory that it is of. */
struct checked {
    struct report report;
    jt_entry entries[MOST_ENTRIES];
    uint64_t entry_count;
};

static const jt_entry *entry_of(const struct checked *checked, const struct finding *finding) {
    for (uint64_t i = 0; i < checked->entry_count; i++) {
        if (checked->entries[i].name == finding->name && checked->entries[i].number == finding->number) {
            return &checked->entries[i];
        }
    }
    return NULL;
}

/* Whether the printed type is this one, or an array of it. */
static bool has_type(const struct tag_row *row, const char *type) {
    size_t length = strlen(type);
    return strncmp(row->type, type, length) == 0 && !isalpha((unsigned char)row->type[length]);
}

/* What the file has, and what the table says. */
static void print_other_type(const struct checked *checked, const struct finding *finding) {
    const jt_entry *entry = entry_of(checked, finding);
    printf("another type");
    if (entry == NULL || finding->row == NULL) {
        return;
    }
    const char *type = abif_type_name(entry->type);
    if (has_type(finding->row, type)) {
        const char *needed = strcmp(finding->row->type, "char[4]") == 0 ? "4" : "1";
        printf(", %" PRId32 " of them where the table has %s", entry->count, needed);
    } else {
        printf(", %s where the table has %s", type, finding->row->type);
    }
}

static void print_not_in_profile(const struct finding *finding) {
    printf("not in the profile");
    if (finding->row == NULL) {
        printf(", and in no other table");
        return;
    }
    const char *profiles = finding->row->profiles;
    for (size_t i = 0; profiles[i] != '\0'; i++) {
        const char *between = i == 0 ? ", but in " : profiles[i + 1] == '\0' ? " and " : ", ";
        printf("%s%c", between, profiles[i]);
    }
}

static void print_finding(const struct checked *checked, const struct finding *finding) {
    printf("  %s %" PRId32, tag_text(finding->name).text, finding->number);
    if (finding->row != NULL) {
        printf(", %s", finding->row->description);
    }
    printf(": ");
    switch (finding->what) {
    case JT_FINDING_MISSING:
        printf("missing");
        break;
    case JT_FINDING_OTHER_TYPE:
        print_other_type(checked, finding);
        break;
    default:
        print_not_in_profile(finding);
        break;
    }
    putchar('\n');
}

static void print_findings(const struct checked *checked, bool of_analysis) {
    for (uint64_t i = 0; i < checked->report.count; i++) {
        if (is_of_analysis(&checked->report.findings[i]) == of_analysis) {
            print_finding(checked, &checked->report.findings[i]);
        }
    }
}

/* The tables print this name in two ways, which look alike. */
static void print_remark(const struct report *report) {
    for (uint64_t i = 0; i < report->count; i++) {
        if (report->findings[i].name == tag_name("OvrI")) {
            puts("  OvrI: the tables' Name columns print Ovrl, with a small L, and two of their descriptions OvrI, "
                 "with a "
                 "capital I, which instruments are likely to write");
            return;
        }
    }
}

static void print_summary(const struct report *report) {
    if (report->count == 0) {
        puts("no findings: every tag that the profile requires is there, and each tag is of its type");
        return;
    }
    printf("%" PRIu64 " %s: %" PRIu64 " missing, %" PRIu64 " of another type, %" PRIu64 " not in the profile",
           report->count, report->count == 1 ? "finding" : "findings", report->missing, report->other_type,
           report->not_in_profile);
    if (report->added_later > 0) {
        printf(", %" PRIu64 " of these of the analysis programs", report->added_later);
    }
    putchar('\n');
}

static void print_report(const struct checked *checked) {
    uint64_t added = checked->report.added_later;
    print_findings(checked, false);
    print_remark(&checked->report);
    if (added > 0) {
        printf("%" PRIu64
               " %s of the analysis programs, which add %s after the run: not in the profile, as expected of "
               "an analysed run\n",
               added, added == 1 ? "tag" : "tags", added == 1 ? "it" : "them");
        print_findings(checked, true);
    }
    print_summary(&checked->report);
}

/* The profile that is given, or the one that the file is taken for. */
static int print_chosen(const struct file *file, int profile) {
    if (profile == 0) {
        struct guess guess = guess_profile(file);
        print_guess(file, &guess);
        return guess.profile;
    }
    printf("checked against ");
    print_profile(profile);
    putchar('\n');
    return profile;
}

static bool check_whole(const struct file *file, int profile) {
    struct checked *checked = take(1, sizeof *checked);
    profile = print_chosen(file, profile);
    print_other_software(file, profile);
    report_read(&checked->report, file, profile);
    checked->entry_count = jt_abif_list(file->bytes, file->length, checked->entries, MOST_ENTRIES).count;
    bool clean = checked->report.refusal == 0 && checked->report.count == 0;
    if (checked->report.refusal != 0) {
        print_refused("not checked", checked->report.refusal);
    } else {
        print_report(checked);
    }
    free(checked);
    return clean;
}

static bool check_file(struct walk *walk, const struct file *file) {
    const int *profile = walk->context;
    struct judgement judgement = judge(file);
    print_line(file, &judgement);
    if (judgement.format != FORMAT_ABIF) {
        fputs("jtview: only ABIF files have tags\n", stderr);
        return false;
    }
    if (!is_whole(&judgement)) {
        print_refused("not checked", judgement.verdict.refusal);
        return false;
    }
    return check_whole(file, *profile);
}

enum status check_paths(char *const paths[], int count, int profile) {
    if (count > 1 || is_folder(paths[0])) {
        return check_table(paths, count, profile);
    }
    struct walk walk = {.visit = check_file, .context = &profile};
    walk_paths(&walk, paths, count);
    return walk_status(&walk);
}
