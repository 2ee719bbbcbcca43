#include "table.h"

#include "jintarueng.h"
#include "numbers.h"
#include "words.h"

enum { COUNT_PLACE = 4, TABLE_PLACE = 8, ENTRY_LENGTH = 6, NUMBER_OF_SNPS = 1 };

/* Looking up an id whose value stands in the table itself makes these checks and finds the entry, no more. */
uint64_t gtc_table_refusal(const struct file *file) {
    uint64_t refusal = jt_gtc_lookup(file->bytes, file->length, NUMBER_OF_SNPS).refusal;
    return refusal == NOT_THERE || refusal == TWICE ? 0 : refusal;
}

uint32_t gtc_entries(const struct file *file) {
    return little_endian_32(file, COUNT_PLACE);
}

uint16_t gtc_entry_id(const struct file *file, uint32_t entry) {
    return little_endian_16(file, TABLE_PLACE + (uint64_t)ENTRY_LENGTH * (entry - 1));
}

uint32_t gtc_times(const struct file *file, uint16_t id) {
    uint32_t times = 0;
    for (uint32_t entry = 1; entry <= gtc_entries(file); entry++) {
        times += gtc_entry_id(file, entry) == id;
    }
    return times;
}

const uint16_t SNP_ARRAY_IDS[SNP_ARRAYS] = {1002, 1003, 1004, 1000, 1001};

const char *gtc_refusal_words(const struct file *file, uint16_t id, uint64_t refusal) {
    uint32_t times = gtc_table_refusal(file) == 0 ? gtc_times(file, id) : 0;
    if (refusal == NOT_THERE && times == 1) {
        return "needs the number of SNPs, which is not in this file";
    }
    if (refusal == TWICE && times == 1) {
        return "needs the number of SNPs, which stands in the file twice";
    }
    return refusal_words(refusal);
}

const char *gtc_snps_words(const struct file *file, uint64_t refusal) {
    int i = 0;
    while (i < SNP_ARRAYS - 1 && jt_gtc_lookup(file->bytes, file->length, SNP_ARRAY_IDS[i]).refusal == 0) {
        i++;
    }
    return gtc_refusal_words(file, SNP_ARRAY_IDS[i], refusal);
}
