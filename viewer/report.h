/* What the library finds where it checks a file's tags against a profile. */
#ifndef VIEWER_REPORT_H
#define VIEWER_REPORT_H

#include "file.h"
#include "jintarueng.h"
#include "tags.h"

/* Room for more findings than there can be: each entry's, and each tag's that a profile requires. */
enum { MOST_FINDINGS = 1200 };

struct finding {
    uint32_t name;
    int32_t number;
    int64_t what;              /* JT_FINDING_MISSING and so on */
    const struct tag_row *row; /* NULL for a tag that stands in no table */
};

struct report {
    uint64_t refusal;
    struct finding findings[MOST_FINDINGS];
    uint64_t count;
    uint64_t missing;
    uint64_t other_type;
    uint64_t not_in_profile;
    uint64_t added_later; /* of those that are not in the profile */
};

void report_read(struct report *report, const struct file *file, int profile);

/* A tag that is not in the profile because an analysis program added it after the run. */
bool is_of_analysis(const struct finding *finding);

#endif
