#include "list.h"
#include "numbers.h"
#include "progress.h"
#include "reads.h"
#include "text.h"
#include "words.h"

#include <inttypes.h>
#include <unistd.h>

static void print_header(const struct file *file, const struct jt_sff_header *header) {
    printf("reads %" PRIu64 ", flows %" PRIu64 ", key ", header->reads, header->flows);
    print_letters(part_of(file, header->key_start, header->key_length), header->key_length);
    printf(", header of %" PRIu64 " bytes, ", header->header_length);
    if (header->index_length == 0) {
        printf("no index\n");
    } else {
        printf("index of %" PRIu64 " bytes at %" PRIu64 "\n", header->index_length, header->index_offset);
    }
    printf("flow letters ");
    print_letters(part_of(file, header->flow_letters_start, header->flows), header->flows);
    putchar('\n');
}

static void print_clips(uint64_t left, uint64_t right) {
    printf("  %5" PRIu64 " %5" PRIu64, left, right);
}

static void print_refused_read(uint64_t k, uint64_t refusal) {
    printf("%8" PRIu64 "  ", k);
    print_refusal(refusal);
    putchar('\n');
}

static void print_read(const struct file *file, uint64_t k, const struct jt_sff_read *read) {
    if (read->refusal != 0) {
        print_refused_read(k, read->refusal);
        return;
    }
    printf("%8" PRIu64 "  %7" PRIu64, k, read->bases);
    print_clips(read->quality_left, read->quality_right);
    print_clips(read->adapter_left, read->adapter_right);
    print_clips(read->first, read->last);
    printf("  ");
    print_text(stdout, part_of(file, read->name_start, read->name_length), read->name_length);
    putchar('\n');
}

/* The reads that are there, and the first that is not. */
static bool list_reads(struct reads *reads) {
    uint64_t k;
    struct jt_sff_read read;
    bool answered = true;
    while (reads_next(reads, &k, &read)) {
        print_read(reads->file, k, &read);
        progress_show(k, reads->last);
        answered = answered && read.refusal == 0;
    }
    if (reads->missing != 0) {
        print_refused_read(reads->next, reads->missing);
    }
    return answered && reads->missing == 0;
}

bool list_sff(const struct file *file, const jt_verdict *verdict) {
    struct jt_sff_header header = jt_sff_header(file->bytes, file->length);
    struct reads reads;
    if (header.refusal != 0) {
        print_refused("header", header.refusal);
        return false;
    }
    print_header(file, &header);
    printf("%8s  %7s  %11s  %11s  %11s  %s\n", "read", "bases", "quality", "adapter", "insert", "name");
    reads_begin(&reads, file, verdict, header.reads);
    if (!isatty(STDOUT_FILENO)) {
        progress_begin("listing");
    }
    bool answered = list_reads(&reads);
    progress_end();
    reads_end(&reads);
    return answered;
}
