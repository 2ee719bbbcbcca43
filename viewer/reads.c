#include "reads.h"

#include "memory.h"

#include <stdlib.h>
#include <string.h>

enum { MOST_AT_ONCE = 1 << 16 };

/* Judging names the read that is not there; the others before it are. Where it refuses the index it names none. */
void reads_begin(struct reads *reads, const struct file *file, const jt_verdict *verdict, uint64_t in_header) {
    *reads = (struct reads){.file = file, .next = 1, .last = in_header};
    if (verdict->entry != 0) {
        reads->last = verdict->entry - 1;
        reads->missing = verdict->refusal;
    }
    reads->asked = reads->last < MOST_AT_ONCE ? reads->last : MOST_AT_ONCE;
    reads->numbers = take_unset(JT_READ_NUMBERS * reads->asked, sizeof *reads->numbers);
}

/* A call that is refused, because the index stands before one of its reads and is cut, is made again for half as many;
   made for one read, its refusal is that read's, and none behind it is there. */
static bool ask(struct reads *reads) {
    const struct file *file = reads->file;
    while (reads->next <= reads->last) {
        jt_listed listed =
            jt_sff_reads(file->bytes, file->length, reads->next, reads->numbers, JT_READ_NUMBERS * reads->asked);
        reads->first = reads->next;
        reads->count = listed.count;
        if (listed.refusal == 0) {
            return true;
        }
        if (reads->asked == 1) {
            reads->last = reads->next - 1;
            reads->missing = listed.refusal;
        }
        reads->asked = reads->asked > 1 ? reads->asked / 2 : 1;
    }
    return false;
}

bool reads_next(struct reads *reads, uint64_t *k, struct jt_sff_read *read) {
    if (reads->next >= reads->first + reads->count && !ask(reads)) {
        return false;
    }
    *k = reads->next++;
    memcpy(read, reads->numbers + JT_READ_NUMBERS * (*k - reads->first), sizeof *read);
    return true;
}

void reads_end(struct reads *reads) {
    free(reads->numbers);
}
