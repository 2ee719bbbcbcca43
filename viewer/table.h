/* The table of contents of a GTC file. */
#ifndef VIEWER_TABLE_H
#define VIEWER_TABLE_H

#include "file.h"

/* What the checks of the header and the table are refused with, 0 for nothing: then its entries can be read. */
uint64_t gtc_table_refusal(const struct file *file);

uint32_t gtc_entries(const struct file *file);

/* The id of entry `entry`, from one. */
uint16_t gtc_entry_id(const struct file *file, uint32_t entry);

/* How many entries have the id. */
uint32_t gtc_times(const struct file *file, uint16_t id);

/* The arrays of the SNPs, in the order in which a SNP's record is looked up. */
enum { SNP_ARRAYS = 5 };

extern const uint16_t SNP_ARRAY_IDS[SNP_ARRAYS];

/* What is said of an item that is refused: an array of the SNPs is refused also for want of their number. */
const char *gtc_refusal_words(const struct file *file, uint16_t id, uint64_t refusal);

/* What is said of the SNPs where all their records are refused: the words of the first array that is. */
const char *gtc_snps_words(const struct file *file, uint64_t refusal);

#endif
