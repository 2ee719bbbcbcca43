#include "report.h"

bool is_of_analysis(const struct finding *finding) {
    return finding->what == JT_FINDING_NOT_IN_PROFILE && finding->row != NULL && is_added_later(finding->row);
}

static void add(struct report *report, const int64_t numbers[JT_FINDING_NUMBERS]) {
    struct finding finding = {.name = (uint32_t)numbers[0], .number = (int32_t)numbers[1], .what = numbers[2]};
    finding.row = tag_row_of(finding.name, finding.number);
    report->findings[report->count++] = finding;
    report->missing += finding.what == JT_FINDING_MISSING;
    report->other_type += finding.what == JT_FINDING_OTHER_TYPE;
    report->not_in_profile += finding.what == JT_FINDING_NOT_IN_PROFILE;
    report->added_later += is_of_analysis(&finding);
}

void report_read(struct report *report, const struct file *file, int profile) {
    int64_t numbers[MOST_FINDINGS * JT_FINDING_NUMBERS];
    jt_listed listed =
        jt_abif_check_tags(file->bytes, file->length, (uint64_t)profile, numbers, sizeof numbers / sizeof numbers[0]);
    *report = (struct report){.refusal = listed.refusal};
    for (uint64_t i = 0; i < listed.count; i++) {
        add(report, numbers + i * JT_FINDING_NUMBERS);
    }
}
