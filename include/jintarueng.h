/* Sequencing data files in memory: calls for C over the proved library. Link with libcapi.a.

   A call that reads is given one file as its bytes: `bytes`, `len`. The caller sees to it that `len` bytes can be read
   at `bytes`, that `room` elements can be written at `out`, and so for every pointer and the number of elements behind
   it; NULL is fine where the number is 0. A call keeps nothing and changes only what it is lent as output, which must
   not overlap anything else that it is lent. Places are offsets into `bytes`.

   An answer has refusal 0. Else `refusal` is one of these numbers, and every other field is 0, but for a verdict's
   entry and for what jt_sff_add hands back:

      1  cut short: a byte that the rule needs lies at or past the end
      2  opening mark of another kind
      3  version not handled
      4  header fields contradict the format
      5  more than 999 entries
      6  negative offset, or offset below the lowest allowed
      7  no such tag, id or read
      8  tag or id stands twice
      9  sizes or counts contradict each other
     10  type, id or profile not handled by this call
     11  a value that the format forbids
     12  no such element
     13  lent output too small
     14  items not strictly ascending

   A tag's name is its four bytes as a big-endian number: "DATA" is 0x44415441.

   Bulk calls (jt_abif_whole_numbers, jt_sff_reads, jt_gtc_snps) go by one rule. They write the items from number
   `first` on to the front of `out`, as many as are left and as it has room for, and answer how many; the next call goes
   on at `first` + `count`. `room` counts numbers, and 13 is given only where not one item fits. An item is what the
   single call answers for its number, its own refusal of what stands in the read or SNP included (11, then zeros), so
   that one bad read or SNP does not hide the others. Behind the items `out` is as it was; refused, all of it is. */
#ifndef JINTARUENG_H
#define JINTARUENG_H

#include <stddef.h>
#include <stdint.h>

#ifdef __cplusplus
extern "C" {
#endif

/* A whole file's extent, and how many bytes lie after it; refused, the entry or read at fault, from one, or 0 for the
   header, the place of the directory or table, and the index. Of a file that is whole with extent E every beginning of
   E bytes or more answers every call as the full file does, but for `tail`, which is the beginning's length less E. */
typedef struct jt_verdict {
    uint64_t refusal;
    uint64_t entry;
    uint64_t extent;
    uint64_t unjudged; /* GTC: the entries whose id the format does not list; 0 for ABIF and SFF */
    uint64_t tail;     /* `len` less the extent: the bytes after it, which are no part of the file */
} jt_verdict;

/* A directory's place and its number of entries. */
typedef struct jt_opened {
    uint64_t refusal;
    uint64_t place;
    uint64_t count;
} jt_opened;

/* An item: its element type, its number of elements, and where its data stand. */
typedef struct jt_item {
    uint64_t refusal;
    uint64_t type; /* GTC: the id */
    uint64_t count;
    uint64_t start;
    uint64_t length;
} jt_item;

/* The kinds of elements, with the fields that hold one; the others are 0. */
enum jt_kind {
    JT_WHOLE = 1,  /* whole */
    JT_SINGLE = 2, /* single, and its bits */
    JT_DOUBLE = 3, /* real, and its bits */
    JT_DATE = 4,   /* a year, b month, c day */
    JT_TIME = 5,   /* a hour, b minute, c second, d hundredth */
    JT_BOOL = 6,   /* whole: 0 or 1 */
    JT_THUMB = 7   /* a, b, c, d */
};

/* An element of an item. A float that is a NaN is some NaN; its bits are the file's. */
typedef struct jt_element {
    uint64_t refusal;
    uint64_t kind;
    int64_t whole;
    float single;
    uint32_t single_bits;
    double real;
    uint64_t real_bits;
    int32_t a, b, c, d;
} jt_element;

/* Where a part of the bytes stands. */
typedef struct jt_part {
    uint64_t refusal;
    uint64_t start;
    uint64_t length;
} jt_part;

/* A directory entry as it stands in the file. Its fields need not agree with each other or with the file; where the
   item's data are 4 bytes or fewer, they are the bytes of `data_offset` in the file. */
typedef struct jt_entry {
    uint32_t name;
    int32_t number;
    int16_t type;
    int16_t element_size;
    int32_t count;
    int32_t data_size;
    int32_t data_offset;
    int32_t data_handle;
} jt_entry;

/* How many entries, elements, findings, reads or SNPs were written to the lent output. */
typedef struct jt_listed {
    uint64_t refusal;
    uint64_t count;
} jt_listed;

/* How many numbers jt_abif_check_tags writes for a finding: the tag's name, its signed number, and what is found of it,
   one of the three below. */
enum { JT_FINDING_NUMBERS = 3 };

enum {
    JT_FINDING_MISSING = 1,       /* the profile requires the tag, and the file does not have it */
    JT_FINDING_OTHER_TYPE = 2,    /* the file has it with another type, or with a count that its type does not have */
    JT_FINDING_NOT_IN_PROFILE = 3 /* the file has it, and the profile does not */
};

/* jt_sff_header and jt_sff_read name a struct and a function each. So these two structs have no typedef: write
   `struct jt_sff_header` and `struct jt_sff_read` for the type, in C++ too. */

/* The common header of an SFF file. With no index, its offset and length are 0. */
struct jt_sff_header {
    uint64_t refusal;
    uint64_t index_offset;
    uint64_t index_length;
    uint64_t reads;
    uint64_t header_length;
    uint64_t key_length;
    uint64_t flows;
    uint64_t flow_letters_start;
    uint64_t key_start;
};

/* A read of an SFF file. The name has `name_length` bytes, the flow values are `flows` big-endian 16-bit numbers, and
   steps, letters and qualities are `bases` bytes each. Base positions count from one: the clips as they stand in the
   file, 0 for none, and the first and last base of the insert. Where first is past last, the insert is the empty part
   at the letters' start. */
struct jt_sff_read {
    uint64_t refusal;
    uint64_t start;
    uint64_t name_start;
    uint64_t name_length;
    uint64_t bases;
    uint64_t quality_left;
    uint64_t quality_right;
    uint64_t adapter_left;
    uint64_t adapter_right;
    uint64_t flows_start;
    uint64_t steps_start;
    uint64_t letters_start;
    uint64_t qualities_start;
    uint64_t first;
    uint64_t last;
    uint64_t insert_start;
    uint64_t insert_length;
};

/* How many numbers jt_sff_reads writes for a read: the fields of struct jt_sff_read in their order. */
enum { JT_READ_NUMBERS = 17 };

/* A flow's position, from one. */
typedef struct jt_flow {
    uint64_t refusal;
    uint64_t flow;
} jt_flow;

/* A SNP of a GTC file: its genotype code, how many letters the genotype has (0 for NC and NULL) and how many of them
   are B, the two letters of its base call, the bits of its score as a 32-bit float, and its raw intensities. */
typedef struct jt_snp {
    uint64_t refusal;
    uint64_t code;
    uint64_t ploidy;
    uint64_t b_alleles;
    uint64_t call_1;
    uint64_t call_2;
    uint64_t score_bits;
    uint64_t x;
    uint64_t y;
} jt_snp;

/* How many numbers jt_gtc_snps writes for a SNP: the fields of jt_snp in their order. */
enum { JT_SNP_NUMBERS = 9 };

/* A normalization transformation of a GTC file. A float that is a NaN is some NaN. */
typedef struct jt_transformation {
    int32_t version;
    float offset_x;
    float offset_y;
    float scale_x;
    float scale_y;
    float shear;
    float theta;
    float reserved_1;
    float reserved_2;
    float reserved_3;
    float reserved_4;
    float reserved_5;
    float reserved_6;
} jt_transformation;

/* A transformation, and where its 52 bytes stand: a NaN's bits are had there. */
typedef struct jt_transformation_answer {
    uint64_t refusal;
    uint64_t start;
    jt_transformation value;
} jt_transformation_answer;

/* Normalised intensities. */
typedef struct jt_point {
    float x;
    float y;
} jt_point;

/* The length of a file that was written. */
typedef struct jt_written {
    uint64_t refusal;
    uint64_t length;
} jt_written;

/* How far the writing of an SFF file has come: the reads that its header states, those that are written, the flows of
   each, and where the next one starts in the output. */
typedef struct jt_sff_writer {
    uint64_t refusal;
    uint64_t reads;
    uint64_t written;
    uint64_t flows;
    uint64_t at;
} jt_sff_writer;

/* Whether the bytes are a whole ABIF file, its extent and its tail. */
jt_verdict jt_abif_judge(const uint8_t *bytes, size_t len);

/* Where the directory stands: the checks of the header and of the directory's place. */
jt_opened jt_abif_open(const uint8_t *bytes, size_t len);

/* The item with this tag. */
jt_item jt_abif_lookup(const uint8_t *bytes, size_t len, uint32_t name, int32_t number);

/* Element `index`, from one, of the item with this tag. */
jt_element jt_abif_element(const uint8_t *bytes, size_t len, uint32_t name, int32_t number, uint64_t index);

/* Where the text of the pString or cString with this tag stands, without its length byte or closing zero. */
jt_part jt_abif_text(const uint8_t *bytes, size_t len, uint32_t name, int32_t number);

/* All entries of the directory, in file order, at the front of `entries`; they are not judged. Refusals: those of
   jt_abif_open, 13. Refused, `entries` is unchanged; else it is unchanged behind the last entry. */
jt_listed jt_abif_list(const uint8_t *bytes, size_t len, jt_entry *entries, size_t room);

/* A bulk call: the elements of the item with this tag, a number each. The tag is looked up once, however many elements
   there are. Refusals: the lookup's, 10 for a type whose elements are not whole numbers, 12, 13. Refused, `out` is
   unchanged; else it is unchanged behind the last element. */
jt_listed jt_abif_whole_numbers(const uint8_t *bytes, size_t len, uint32_t name, int32_t number, uint64_t first,
                                int64_t *out, size_t room);

/* The tags of a whole file against those that an instrument and its software write: each tag that the profile requires
   and the file lacks, each of another type, and each that the profile does not have, once, in ascending order of tags
   (name by unsigned bytes, then signed number). The profiles are Tables 1 to 8 of the published ABIF document: ab1 and
   fsa files of the 3100 (1, 2), the 3130 (3, 4), the 3730 with software v2.0 (5, 6) and with v3.0 (7, 8). `room` counts
   numbers, JT_FINDING_NUMBERS for each finding. Refusals: those of jt_abif_judge, 10 for an unknown profile, 13 where
   the report does not fit. Refused, `out` is unchanged; else it is unchanged behind the last finding. */
jt_listed jt_abif_check_tags(const uint8_t *bytes, size_t len, uint64_t profile, int64_t *out, size_t room);

/* Lookup, element, text and list of an opened file: its bytes with the place and count that jt_abif_open gave for them.
   Refusals: those of jt_abif_open, 4 for another place or count; then all is as in the call without `_opened`. */
jt_item jt_abif_lookup_opened(const uint8_t *bytes, size_t len, uint64_t place, uint64_t count, uint32_t name,
                              int32_t number);
jt_element jt_abif_element_opened(const uint8_t *bytes, size_t len, uint64_t place, uint64_t count, uint32_t name,
                                  int32_t number, uint64_t index);
jt_part jt_abif_text_opened(const uint8_t *bytes, size_t len, uint64_t place, uint64_t count, uint32_t name,
                            int32_t number);
jt_listed jt_abif_list_opened(const uint8_t *bytes, size_t len, uint64_t place, uint64_t count, jt_entry *entries,
                              size_t room);

/* Writes an ABIF file of these items, in this order, to the front of `out`. The lists have one element for each item:
   the name and number of its tag, its type, its number of elements, and the start and length of its data in `data`,
   bytes as they stand in a file. Refusals: 9 for lists of different lengths; then for each item in turn 9 for a part
   outside `data`, 10 for a type that is not written (the legacy types, 1023 and unknown ones), 9 where count and length
   disagree or pass 2147483647 (an element of a user type is one byte), 11 for a text, date or time that the format
   forbids, 14 for a tag that is not above the one before it, by name, then by signed number; then 5, 9 for a file of
   more than 2147483647 bytes, 13. Refused, `out` is unchanged; else it is unchanged behind the file. */
jt_written jt_abif_write(const uint32_t *names, size_t name_count, const int32_t *numbers, size_t number_count,
                         const int16_t *types, size_t type_count, const uint32_t *counts, size_t count_count,
                         const uint64_t *starts, size_t start_count, const uint64_t *lengths, size_t length_count,
                         const uint8_t *data, size_t data_len, uint8_t *out, size_t room);

/* Whether the bytes are a whole SFF file, its extent and its tail. What stands in the reads is not judged. */
jt_verdict jt_sff_judge(const uint8_t *bytes, size_t len);

/* The common header. */
struct jt_sff_header jt_sff_header(const uint8_t *bytes, size_t len);

/* Read `k`, from one: the checks of the header and of all reads up to this one, then of what stands in it. */
struct jt_sff_read jt_sff_read(const uint8_t *bytes, size_t len, uint64_t k);

/* A bulk call: the reads, JT_READ_NUMBERS numbers each. Every call walks the reads from the front, so that it is best
   asked for many. Refusals: the header's, 7, 13, then those of the walk as far as the last read that there is room for.
   Refused, `out` is unchanged; else it is unchanged behind the last read. */
jt_listed jt_sff_reads(const uint8_t *bytes, size_t len, uint64_t first, uint64_t *out, size_t room);

/* The flow that base `base`, from one, of read `k` was called from. Refusals: those of jt_sff_read, 12. */
jt_flow jt_sff_flow_of_base(const uint8_t *bytes, size_t len, uint64_t k, uint64_t base);

/* Begins an SFF file of so many reads, with no index, by writing its header to the front of `out`. Each read is then
   added to the same `out`, which nothing else may change meanwhile. Refusals: 9 for more letters than the header's
   fields count, 13. Refused, `out` is unchanged. */
jt_sff_writer jt_sff_begin(uint32_t reads, const uint8_t *flow_letters, size_t flow_count, const uint8_t *key_letters,
                           size_t key_len, uint8_t *out, size_t room);

/* Adds the next read to what `w` tells of, and tells of both; what refusal `w` has does not matter. There is a step, a
   letter and a quality for each base, and a clip of 0 is none. Refusals: 9 for a read past the stated number, and for
   lengths and clips that disagree or do not fit their fields; 11 for a clip above the number of bases, a first step of
   0, and steps that pass the flows; 13. Refused, `out` is unchanged and the answer is `w` with this refusal, so that
   the next call may go on from it. */
jt_sff_writer jt_sff_add(jt_sff_writer w, const uint8_t *name, size_t name_len, const uint16_t *flows,
                         size_t flow_count, const uint8_t *steps, size_t step_count, const uint8_t *letters,
                         size_t letter_count, const uint8_t *qualities, size_t quality_count, uint64_t quality_left,
                         uint64_t quality_right, uint64_t adapter_left, uint64_t adapter_right, uint8_t *out,
                         size_t room);

/* The length of the file, once the stated number of reads is written; before that, 9. */
jt_written jt_sff_finish(jt_sff_writer w);

/* Whether the bytes are a whole GTC file, its extent, how many of its entries were not judged, and its tail. Genotypes
   and base calls are not judged. */
jt_verdict jt_gtc_judge(const uint8_t *bytes, size_t len);

/* The item with this id. Its data are the offset field for 1, 2, 3 and 1010, a string's characters, an array's
   elements, else all of the item; its count is that of an array's elements, else of its bytes. */
jt_item jt_gtc_lookup(const uint8_t *bytes, size_t len, uint16_t id);

/* The record of SNP `index`, from one. Refusals: those of looking up genotypes, base calls, scores, X and Y, in this
   order, then 12, then 11. */
jt_snp jt_gtc_snp(const uint8_t *bytes, size_t len, uint64_t index);

/* A bulk call: the SNPs, JT_SNP_NUMBERS numbers each. The arrays are looked up once, however many SNPs there are.
   Refusals: the lookups' as above, 12, 13. Refused, `out` is unchanged; else it is unchanged behind the last SNP. */
jt_listed jt_gtc_snps(const uint8_t *bytes, size_t len, uint64_t first, uint64_t *out, size_t room);

/* Transformation `k`, from one. Refusals: those of looking up id 400, 12. */
jt_transformation_answer jt_gtc_transformation(const uint8_t *bytes, size_t len, uint64_t k);

/* Raw intensities normalised by a transformation, with the cosine and the sine of its theta. Every operation rounds to
   32 bits. A result that is a NaN is some NaN. */
jt_point jt_gtc_normalise(jt_transformation t, uint16_t x, uint16_t y, float cos_theta, float sin_theta);

#ifdef __cplusplus
}
#endif

#endif
