#include "export_parts.h"
#include "memory.h"
#include "numbers.h"
#include "progress.h"
#include "table.h"
#include "words.h"

#include <inttypes.h>
#include <stdlib.h>
#include <string.h>

enum { GENOTYPES = 1002 };

static void print_snp(struct export *export, uint64_t number, const jt_snp *snp) {
    fprintf(export->out, "%" PRIu64 ",", number);
    if (snp->refusal != 0) {
        fprintf(export->out, "refused %" PRIu64 ",,,,", snp->refusal);
        export->status = STATUS_REFUSED;
    } else {
        char genotype[GENOTYPE_LENGTH];
        genotype_name((int)snp->code, (int)snp->ploidy, (int)snp->b_alleles, genotype);
        fprintf(export->out, "%s,%c%c,%.9g,%" PRIu64 ",%" PRIu64, genotype, (char)snp->call_1, (char)snp->call_2,
                (double)float_of((uint32_t)snp->score_bits), snp->x, snp->y);
    }
    export_end_row(export);
}

/* SNPs from number `first` on, as the bulk call wrote them. */
static void print_snps(struct export *export, uint64_t first, const uint64_t *numbers, uint64_t count) {
    for (uint64_t i = 0; i < count; i++) {
        jt_snp snp;
        memcpy(&snp, numbers + JT_SNP_NUMBERS * i, sizeof snp);
        print_snp(export, first + i, &snp);
    }
}

static void export_snps(struct export *export, uint64_t *numbers, uint64_t at_once) {
    const struct file *file = export->file;
    uint64_t first = 1;
    uint64_t count = jt_gtc_lookup(file->bytes, file->length, GENOTYPES).count;
    jt_listed listed = jt_gtc_snps(file->bytes, file->length, first, numbers, JT_SNP_NUMBERS * at_once);
    if (listed.refusal != 0) {
        export_lacks_refused(export, "SNPs", gtc_snps_words(file, listed.refusal), listed.refusal);
        return;
    }
    if (export_opens(export)) {
        fputs("snp,genotype,base call,score,x,y", export->out);
        export_end_header(export, ',');
    }
    while (listed.count > 0 && export_opens(export)) {
        print_snps(export, first, numbers, listed.count);
        first += listed.count;
        progress_show(first, count);
        listed = jt_gtc_snps(file->bytes, file->length, first, numbers, JT_SNP_NUMBERS * at_once);
    }
}

void export_gtc(struct export *export) {
    enum { AT_ONCE = 4096 };
    uint64_t *numbers = take_unset(JT_SNP_NUMBERS * AT_ONCE, sizeof *numbers);
    export_snps(export, numbers, AT_ONCE);
    free(numbers);
}
