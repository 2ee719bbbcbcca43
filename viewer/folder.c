#include "folder.h"

#include "walk.h"
#include "words.h"

#include <inttypes.h>

enum { REFUSALS = 15 };

/* How the files that were judged came out. */
struct tally {
    uint64_t whole;
    uint64_t with_tail; /* of these, with bytes behind the end */
    uint64_t unknown;
    uint64_t refused;
    uint64_t by_number[REFUSALS];
};

static void count(struct tally *tally, const struct judgement *judgement) {
    if (is_whole(judgement)) {
        tally->whole++;
        tally->with_tail += judgement->verdict.tail > 0;
    } else if (judgement->format == FORMAT_UNKNOWN) {
        tally->unknown++;
    } else {
        tally->refused++;
        tally->by_number[judgement->verdict.refusal]++;
    }
}

static bool judge_file(struct walk *walk, const struct file *file) {
    struct judgement judgement = judge(file);
    count(walk->context, &judgement);
    walk_erase_progress(walk);
    print_line(file, &judgement);
    return is_whole(&judgement);
}

static void print_summary(const struct walk *walk, const struct tally *tally) {
    printf("%" PRIu64 " files: %" PRIu64 " whole, %" PRIu64 " refused, %" PRIu64 " unknown, %" PRIu64 " not readable\n",
           walk->files, tally->whole, tally->refused, tally->unknown, walk->unreadable);
    if (tally->with_tail > 0) {
        printf("  %" PRIu64 " whole %s with bytes behind the end\n", tally->with_tail,
               tally->with_tail == 1 ? "file" : "files");
    }
    for (uint64_t refusal = 1; refusal < REFUSALS; refusal++) {
        if (tally->by_number[refusal] > 0) {
            uint64_t counted = tally->by_number[refusal];
            printf("  %" PRIu64 " %s refused %" PRIu64 ": %s\n", counted, counted == 1 ? "file" : "files", refusal,
                   refusal_words(refusal));
        }
    }
}

enum status judge_paths(char *const paths[], int count) {
    struct tally tally = {0};
    struct walk walk = {.visit = judge_file, .context = &tally, .counted = "not whole"};
    walk_paths(&walk, paths, count);
    if (walk.folders) {
        print_summary(&walk, &tally);
    }
    return walk_status(&walk);
}
