/* The header fits the archive: sizes of the structs, and each call on the files W2 and W7 to W11 of document 01, of
   which W2, W7 and W8 are also written; listing on W2 with a second entry, and the bulk call on W8 with a second
   read; the check of tags, with little stack. */
#include "jintarueng.h"

#include <pthread.h>
#include <stddef.h>
#include <stdio.h>
#include <string.h>

#define ABCD 0x41424344u

static int passed, failed;

static void check(int holds, const char *what) {
    if (holds) {
        passed++;
    } else {
        failed++;
        printf("failed: %s\n", what);
    }
}

/* A field of 64 bits stands at this place among the others of its struct. */
#define FIELD(type, name, place)                                                                                       \
    _Static_assert(offsetof(type, name) == 8 * (place) && sizeof(((type *)0)->name) == 8, #name)

FIELD(jt_verdict, refusal, 0);
FIELD(jt_verdict, entry, 1);
FIELD(jt_verdict, extent, 2);
FIELD(jt_verdict, unjudged, 3);
FIELD(jt_verdict, tail, 4);
FIELD(struct jt_sff_header, refusal, 0);
FIELD(struct jt_sff_header, index_offset, 1);
FIELD(struct jt_sff_header, index_length, 2);
FIELD(struct jt_sff_header, reads, 3);
FIELD(struct jt_sff_header, header_length, 4);
FIELD(struct jt_sff_header, key_length, 5);
FIELD(struct jt_sff_header, flows, 6);
FIELD(struct jt_sff_header, flow_letters_start, 7);
FIELD(struct jt_sff_header, key_start, 8);
FIELD(struct jt_sff_read, refusal, 0);
FIELD(struct jt_sff_read, start, 1);
FIELD(struct jt_sff_read, name_start, 2);
FIELD(struct jt_sff_read, name_length, 3);
FIELD(struct jt_sff_read, bases, 4);
FIELD(struct jt_sff_read, quality_left, 5);
FIELD(struct jt_sff_read, quality_right, 6);
FIELD(struct jt_sff_read, adapter_left, 7);
FIELD(struct jt_sff_read, adapter_right, 8);
FIELD(struct jt_sff_read, flows_start, 9);
FIELD(struct jt_sff_read, steps_start, 10);
FIELD(struct jt_sff_read, letters_start, 11);
FIELD(struct jt_sff_read, qualities_start, 12);
FIELD(struct jt_sff_read, first, 13);
FIELD(struct jt_sff_read, last, 14);
FIELD(struct jt_sff_read, insert_start, 15);
FIELD(struct jt_sff_read, insert_length, 16);
FIELD(jt_flow, refusal, 0);
FIELD(jt_flow, flow, 1);
FIELD(jt_snp, refusal, 0);
FIELD(jt_snp, code, 1);
FIELD(jt_snp, ploidy, 2);
FIELD(jt_snp, b_alleles, 3);
FIELD(jt_snp, call_1, 4);
FIELD(jt_snp, call_2, 5);
FIELD(jt_snp, score_bits, 6);
FIELD(jt_snp, x, 7);
FIELD(jt_snp, y, 8);
FIELD(jt_written, refusal, 0);
FIELD(jt_written, length, 1);
FIELD(jt_sff_writer, refusal, 0);
FIELD(jt_sff_writer, reads, 1);
FIELD(jt_sff_writer, written, 2);
FIELD(jt_sff_writer, flows, 3);
FIELD(jt_sff_writer, at, 4);

/* A field of so many bytes stands at this place of an entry, as it does in the file. */
#define ENTRY_FIELD(name, place, size)                                                                                 \
    _Static_assert(offsetof(jt_entry, name) == (place) && sizeof(((jt_entry *)0)->name) == (size), #name)

ENTRY_FIELD(name, 0, 4);
ENTRY_FIELD(number, 4, 4);
ENTRY_FIELD(type, 8, 2);
ENTRY_FIELD(element_size, 10, 2);
ENTRY_FIELD(count, 12, 4);
ENTRY_FIELD(data_size, 16, 4);
ENTRY_FIELD(data_offset, 20, 4);
ENTRY_FIELD(data_handle, 24, 4);
FIELD(jt_listed, refusal, 0);
FIELD(jt_listed, count, 1);

/* A field of 32 bits stands at this place of a transformation. */
#define TRANSFORMATION_FIELD(name, place)                                                                              \
    _Static_assert(offsetof(jt_transformation, name) == 4 * (place) && sizeof(((jt_transformation *)0)->name) == 4,    \
                   #name)

TRANSFORMATION_FIELD(version, 0);
TRANSFORMATION_FIELD(offset_x, 1);
TRANSFORMATION_FIELD(offset_y, 2);
TRANSFORMATION_FIELD(scale_x, 3);
TRANSFORMATION_FIELD(scale_y, 4);
TRANSFORMATION_FIELD(shear, 5);
TRANSFORMATION_FIELD(theta, 6);
TRANSFORMATION_FIELD(reserved_1, 7);
TRANSFORMATION_FIELD(reserved_6, 12);
FIELD(jt_transformation_answer, refusal, 0);
FIELD(jt_transformation_answer, start, 1);
_Static_assert(offsetof(jt_transformation_answer, value) == 16, "value");

/* A bulk call writes all fields of the single call's answer. */
_Static_assert(JT_READ_NUMBERS * 8 == sizeof(struct jt_sff_read), "numbers of a read");
_Static_assert(JT_SNP_NUMBERS * 8 == sizeof(jt_snp), "numbers of a SNP");

static size_t make_file(uint8_t *file) {
    static const uint8_t header[] = {0x41, 0x42, 0x49, 0x46, 0x00, 0x65, 0x74, 0x64, 0x69, 0x72, 0x00, 0x00, 0x00, 0x01, 0x03, 0xFF, 0x00,
                                     0x1C, 0x00, 0x00, 0x00, 0x01, 0x00, 0x00, 0x00, 0x1C, 0x00, 0x00, 0x00, 0x80, 0x00, 0x00, 0x00, 0x00};
    static const uint8_t entry[] = {0x41, 0x42, 0x43, 0x44, 0x00, 0x00, 0x00, 0x01, 0x00, 0x04, 0x00, 0x02, 0x00, 0x00,
                                    0x00, 0x02, 0x00, 0x00, 0x00, 0x04, 0x00, 0x01, 0xFF, 0xFE, 0x00, 0x00, 0x00, 0x00};
    memset(file, 0, 128);
    memcpy(file, header, sizeof header);
    memcpy(file + 128, entry, sizeof entry);
    return 128 + sizeof entry;
}

/* W7 with so many reads in its header, which has 4 flows and 4 key letters, and no index. */
static size_t make_sff_header(uint8_t *file, uint8_t reads) {
    static const uint8_t header[40] = {0x2E, 0x73, 0x66, 0x66, 0x00, 0x00, 0x00, 0x01, 0x00, 0x00, 0x00, 0x00, 0x00, 0x00,
                                       0x00, 0x00, 0x00, 0x00, 0x00, 0x00, 0x00, 0x00, 0x00, 0x00, 0x00, 0x28, 0x00, 0x04,
                                       0x00, 0x04, 0x01, 'T',  'A',  'C',  'G',  'T',  'C',  'A',  'G'};
    memcpy(file, header, sizeof header);
    file[23] = reads;
    return sizeof header;
}

/* W8: a read of 3 bases with the left quality clip 2; its adapter clips and flow steps are given. */
static size_t make_sff_file(uint8_t *file, const uint8_t adapter[2], const uint8_t steps[3]) {
    static const uint8_t read[48] = {0x00, 0x18, 0x00, 0x05, 0x00, 0x00, 0x00, 0x03, 0x00, 0x02, 0x00, 0x00,
                                     0x00, 0x00, 0x00, 0x00, 'f',  'i',  'r',  's',  't',  0x00, 0x00, 0x00,
                                     0x00, 0x64, 0x00, 0xC8, 0x00, 0x00, 0x00, 0x64, 0x01, 0x01, 0x01, 'T',
                                     'A',  'C',  0x1E, 0x1F, 0x20};
    size_t start = make_sff_header(file, 1);
    memcpy(file + start, read, sizeof read);
    file[start + 13] = adapter[0];
    file[start + 15] = adapter[1];
    memcpy(file + start + 32, steps, 3);
    return start + sizeof read;
}

static size_t put_number(uint8_t *file, size_t at, uint64_t number, int width) {
    for (int i = 0; i < width; i++) {
        file[at++] = (uint8_t)(number >> 8 * i);
    }
    return at;
}

/* The array of this id stands where `end` is: its entry's offset, then its count. */
static size_t put_array(uint8_t *file, int entry, uint16_t id, size_t end, uint32_t count) {
    put_number(file, 8 + 6 * entry, id, 2);
    put_number(file, 10 + 6 * entry, end, 4);
    return put_number(file, end, count, 4);
}

/* The transformation whose floats are 1, 2, 0.5, 4, 0.25, and 6 to 12. */
static size_t put_transformation(uint8_t *file, size_t at) {
    static const uint32_t bits[12] = {0x3F800000, 0x40000000, 0x3F000000, 0x40800000, 0x3E800000, 0x40C00000,
                                      0x40E00000, 0x41000000, 0x41100000, 0x41200000, 0x41300000, 0x41400000};
    at = put_number(file, at, (uint32_t)-3, 4);
    for (int i = 0; i < 12; i++) {
        at = put_number(file, at, bits[i], 4);
    }
    return at;
}

/* W11: three SNPs with these genotype codes, one transformation, and an entry whose id is not listed. */
static size_t make_gtc_file(uint8_t *file, const uint8_t codes[3]) {
    static const uint8_t head[] = {0x67, 0x74, 0x63, 0x05, 0x08, 0x00, 0x00, 0x00, 0x01, 0x00, 0x03, 0x00, 0x00, 0x00};
    static const uint8_t calls[] = {'A', 'C', 'G', 'T', '-', '-'};
    size_t end = 8 + 6 * 8;
    memcpy(file, head, sizeof head);
    end = put_array(file, 1, 1002, end, 3);
    memcpy(file + end, codes, 3);
    end = put_array(file, 2, 1003, end + 3, 3);
    memcpy(file + end, calls, 6);
    end = put_array(file, 3, 1004, end + 6, 3);
    for (uint32_t i = 0; i < 3; i++) {
        end = put_number(file, end, 0xFFC00001 + i, 4);
    }
    end = put_array(file, 4, 1000, end, 3);
    for (uint32_t i = 0; i < 3; i++) {
        end = put_number(file, end, 0xFFFF - i, 2);
    }
    end = put_array(file, 5, 1001, end, 3);
    for (uint32_t i = 0; i < 3; i++) {
        end = put_number(file, end, i, 2);
    }
    end = put_transformation(file, put_array(file, 6, 400, end, 1));
    put_number(file, 8 + 6 * 7, 2000, 2);
    put_number(file, 10 + 6 * 7, 0, 4);
    return end;
}

static void check_sizes(void) {
    check(sizeof(jt_verdict) == 40, "size of jt_verdict");
    check(sizeof(jt_opened) == 24, "size of jt_opened");
    check(sizeof(jt_item) == 40, "size of jt_item");
    check(sizeof(jt_part) == 24, "size of jt_part");
    check(sizeof(jt_listed) == 16, "size of jt_listed");
    check(sizeof(jt_entry) == 28, "size of jt_entry");
    check(sizeof(jt_element) == 64, "size of jt_element");
    check(sizeof(struct jt_sff_header) == 72, "size of struct jt_sff_header");
    check(sizeof(struct jt_sff_read) == 136, "size of struct jt_sff_read");
    check(sizeof(jt_flow) == 16, "size of jt_flow");
    check(sizeof(jt_snp) == 72, "size of jt_snp");
    check(sizeof(jt_transformation) == 52, "size of jt_transformation");
    check(sizeof(jt_transformation_answer) == 72, "size of jt_transformation_answer");
    check(sizeof(jt_point) == 8, "size of jt_point");
    check(sizeof(jt_written) == 16, "size of jt_written");
    check(sizeof(jt_sff_writer) == 40, "size of jt_sff_writer");
}

/* No byte of the output from this place on was written. */
static int untouched(const uint8_t *out, size_t from, size_t room) {
    for (size_t i = from; i < room; i++) {
        if (out[i] != 0xA5) {
            return 0;
        }
    }
    return 1;
}

/* The items of a call that writes ABIF: all fields of `count` items, but for the lists' lengths. */
typedef struct items {
    uint32_t names[2];
    int32_t numbers[2];
    int16_t types[2];
    uint32_t counts[2];
    uint64_t starts[2];
    uint64_t lengths[2];
} items;

static const uint8_t abif_data[] = {0x00, 0x01, 0xFF, 0xFE, 0x07, 0xD6, 13, 1};

/* The item of W2, and a second one, the last three bytes before the month. */
static const items two_items = {{ABCD, ABCD}, {1, 2}, {4, 1}, {2, 3}, {0, 3}, {4, 3}};

static jt_written write_items(const items *lent, size_t count, uint8_t *out, size_t room) {
    return jt_abif_write(lent->names, count, lent->numbers, count, lent->types, count, lent->counts, count, lent->starts,
                         count, lent->lengths, count, abif_data, sizeof abif_data, out, room);
}

static void check_abif_writing(const uint8_t *file, size_t len) {
    uint8_t out[200];
    memset(out, 0xA5, sizeof out);
    jt_written written = write_items(&two_items, 1, out, sizeof out);
    check(written.refusal == 0 && written.length == len && memcmp(out, file, len) == 0, "writing W2");
    check(untouched(out, len, sizeof out), "the output behind W2");
    memset(out, 0xA5, sizeof out);
    written = write_items(&two_items, 2, out, 184);
    check(written.refusal == 0 && written.length == 184 && untouched(out, 184, sizeof out), "writing two items");
    jt_item item = jt_abif_lookup(out, 184, ABCD, 2);
    check(item.refusal == 0 && item.type == 1 && item.count == 3 && item.start == 176 && item.length == 3, "second item");
    check(memcmp(out + 176, abif_data + 3, 3) == 0 && out[179] == 0, "the second item's bytes");
    written = jt_abif_write(NULL, 0, NULL, 0, NULL, 0, NULL, 0, NULL, 0, NULL, 0, NULL, 0, out, 128);
    check(written.refusal == 0 && written.length == 128 && jt_abif_judge(out, 128).extent == 128, "writing no items");
    items longer = two_items;
    longer.counts[1] = 5;
    longer.lengths[1] = 5;
    written = write_items(&longer, 2, out, sizeof out);
    item = jt_abif_lookup(out, (size_t)written.length, ABCD, 2);
    check(written.length == 189 && item.start == 128 && item.length == 5, "writing an item behind the header");
}

/* These two items are refused so, and nothing is written. */
static void check_refused(const items *lent, uint64_t refusal, const char *what) {
    uint8_t out[200];
    memset(out, 0xA5, sizeof out);
    jt_written written = write_items(lent, 2, out, sizeof out);
    check(written.refusal == refusal && written.length == 0 && untouched(out, 0, sizeof out), what);
}

static void check_abif_writing_refusals(void) {
    items lent = two_items;
    lent.starts[1] = UINT64_MAX;
    check_refused(&lent, 9, "a part outside the data");
    lent = two_items;
    lent.types[1] = 1023;
    check_refused(&lent, 10, "a type that is not written");
    lent = two_items;
    lent.counts[1] = 4;
    check_refused(&lent, 9, "a count that is not the length's");
    lent = (items){{ABCD, ABCD}, {1, 2}, {4, 10}, {2, 1}, {0, 4}, {4, 4}};
    check_refused(&lent, 11, "a month 13");
    lent = two_items;
    lent.numbers[1] = -1;
    check_refused(&lent, 14, "a number below the one before");
}

static void check_abif_lists(void) {
    static uint32_t names[1000], counts[1000];
    static int32_t numbers[1000];
    static int16_t types[1000];
    static uint64_t starts[1000], lengths[1000];
    uint8_t out[200];
    memset(out, 0xA5, sizeof out);
    for (int i = 0; i < 1000; i++) {
        numbers[i] = i;
        types[i] = 1;
    }
    jt_written written = jt_abif_write(names, 1000, numbers, 1000, types, 1000, counts, 1000, starts, 1000, lengths,
                                       1000, NULL, 0, out, sizeof out);
    check(written.refusal == 5 && written.length == 0, "writing 1000 items");
    written = jt_abif_write(names, 999, numbers, 999, types, 999, counts, 999, starts, 999, lengths, 999, NULL, 0, out,
                            sizeof out);
    check(written.refusal == 13 && written.length == 0, "writing 999 items with too little room");
    written = jt_abif_write(names, 2, numbers, 2, types, 2, counts, 2, starts, 2, lengths, 1, NULL, 0, out, sizeof out);
    check(written.refusal == 9 && written.length == 0, "lists of different lengths");
    check(write_items(&two_items, 2, out, 183).refusal == 13, "writing two items with too little room");
    check(write_items(&two_items, 2, NULL, 0).refusal == 13, "writing two items with no room");
    check(untouched(out, 0, sizeof out), "the output of refused calls");
}

static int is_whole(jt_verdict v, uint64_t extent, uint64_t unjudged, uint64_t tail) {
    return v.refusal == 0 && v.entry == 0 && v.extent == extent && v.unjudged == unjudged && v.tail == tail;
}

static int is_refused(jt_verdict v, uint64_t refusal, uint64_t entry) {
    return v.refusal == refusal && v.entry == entry && v.extent == 0 && v.unjudged == 0 && v.tail == 0;
}

static void check_answers(const uint8_t *file, size_t len) {
    int64_t out[4] = {7, 7, 7, 7};
    check(is_whole(jt_abif_judge(file, len), 156, 0, 0), "judging");
    jt_opened opened = jt_abif_open(file, len);
    check(opened.refusal == 0 && opened.place == 128 && opened.count == 1, "opening");
    jt_item item = jt_abif_lookup(file, len, ABCD, 1);
    check(item.refusal == 0 && item.type == 4 && item.count == 2 && item.start == 148 && item.length == 4, "lookup");
    jt_element element = jt_abif_element(file, len, ABCD, 1, 2);
    check(element.refusal == 0 && element.kind == JT_WHOLE && element.whole == -2, "element");
    check(jt_abif_text(file, len, ABCD, 1).refusal == 10, "text of another type");
    jt_listed listed = jt_abif_whole_numbers(file, len, ABCD, 1, 1, out, 4);
    check(listed.refusal == 0 && listed.count == 2, "whole numbers");
    check(out[0] == 1 && out[1] == -2 && out[2] == 7 && out[3] == 7, "the lent output");
    out[1] = 7;
    listed = jt_abif_whole_numbers(file, len, ABCD, 1, 1, out, 1);
    check(listed.refusal == 0 && listed.count == 1 && out[0] == 1 && out[1] == 7, "room for one whole number");
    listed = jt_abif_whole_numbers(file, len, ABCD, 1, 2, out, 4);
    check(listed.refusal == 0 && listed.count == 1 && out[0] == -2 && out[1] == 7, "the last whole number");
}

static void check_refusals(const uint8_t *file, size_t len) {
    check(is_refused(jt_abif_judge(file, len - 1), 1, 0), "judging a cut file");
    check(jt_abif_judge(NULL, 0).refusal == 1, "judging no bytes");
    check(jt_abif_lookup(file, len, ABCD, -1).refusal == 7, "a tag that is not there");
    int64_t out[1] = {7};
    check(jt_abif_whole_numbers(file, len, ABCD, 1, 1, NULL, 0).refusal == 13, "an output with no room");
    check(jt_abif_whole_numbers(file, len, ABCD, 1, 3, NULL, 0).refusal == 12, "no whole numbers left, and no room");
    check(jt_abif_whole_numbers(file, len, ABCD, 1, 0, out, 1).refusal == 12 && out[0] == 7, "whole number 0");
}

/* Two entries behind one another, the second of which is sound in no field. */
static size_t make_two_entries(uint8_t *file) {
    static const uint8_t entry[] = {0xFF, 0x00, 0x20, 0x7F, 0xFF, 0xFF, 0xFF, 0xFE, 0x80, 0x01, 0xFF, 0xFD, 0x80, 0x00,
                                    0x00, 0x02, 0xFF, 0xFF, 0xFF, 0xFC, 0xFE, 0xDC, 0xBA, 0x98, 0x89, 0xAB, 0xCD, 0xEF};
    size_t len = make_file(file);
    file[21] = 2;
    file[25] = 56;
    memcpy(file + len, entry, sizeof entry);
    return len + sizeof entry;
}

static int is_first_entry(const jt_entry *e) {
    return e->name == ABCD && e->number == 1 && e->type == 4 && e->element_size == 2 && e->count == 2 &&
           e->data_size == 4 && e->data_offset == 0x1FFFE && e->data_handle == 0;
}

static int is_second_entry(const jt_entry *e) {
    return e->name == 0xFF00207F && e->number == -2 && e->type == -32767 && e->element_size == -3 &&
           e->count == -2147483646 && e->data_size == -4 && e->data_offset == -0x1234568 &&
           e->data_handle == -0x76543211;
}

/* Both entries stand in the list, and nothing behind them was written. */
static void check_listed(jt_listed listed, const jt_entry entries[4], const char *what) {
    check(listed.refusal == 0 && listed.count == 2, what);
    check(is_first_entry(&entries[0]) && is_second_entry(&entries[1]), what);
    check(untouched((const uint8_t *)entries, 56, 4 * sizeof *entries), what);
}

static void check_listing(void) {
    uint8_t file[256];
    jt_entry entries[4];
    size_t len = make_two_entries(file);
    check(jt_abif_judge(file, len).refusal == 10, "judging the second entry");
    for (size_t room = 2; room <= 4; room++) {
        memset(entries, 0xA5, sizeof entries);
        check_listed(jt_abif_list(file, len, entries, room), entries, "listing");
        memset(entries, 0xA5, sizeof entries);
        check_listed(jt_abif_list_opened(file, len, 128, 2, entries, room), entries, "listing an opened file");
    }
    file[21] = 0;
    jt_listed listed = jt_abif_list(file, 128, NULL, 0);
    check(listed.refusal == 0 && listed.count == 0, "listing no entries");
    listed = jt_abif_list_opened(file, 128, 128, 0, NULL, 0);
    check(listed.refusal == 0 && listed.count == 0, "listing no entries of an opened file");
}

/* The call is refused so, and nothing was written. */
static void check_not_listed(jt_listed listed, const jt_entry entries[4], uint64_t refusal, const char *what) {
    check(listed.refusal == refusal && listed.count == 0, what);
    check(untouched((const uint8_t *)entries, 0, 4 * sizeof *entries), what);
}

static void check_listing_refusals(void) {
    uint8_t file[256];
    jt_entry list[4];
    size_t len = make_two_entries(file);
    uint64_t far = UINT64_C(1) << 32;
    memset(list, 0xA5, sizeof list);
    check_not_listed(jt_abif_list(file, len, list, 1), list, 13, "listing into too few records");
    check_not_listed(jt_abif_list(file, len, NULL, 0), list, 13, "listing into no records");
    check_not_listed(jt_abif_list(file, len - 1, list, 4), list, 1, "listing a cut directory");
    check_not_listed(jt_abif_list(NULL, 0, NULL, 0), list, 1, "listing no bytes");
    check_not_listed(jt_abif_list_opened(file, len, 128, 2, list, 1), list, 13, "too few records for an opened file");
    check_not_listed(jt_abif_list_opened(file, len, 128, 2, NULL, 0), list, 13, "no records for an opened file");
    check_not_listed(jt_abif_list_opened(file, len - 1, 129, 2, list, 1), list, 1, "listing a cut opened file");
    check_not_listed(jt_abif_list_opened(NULL, 0, 128, 2, NULL, 0), list, 1, "listing an opened file of no bytes");
    check_not_listed(jt_abif_list_opened(file, len, 129, 2, list, 1), list, 4, "listing at another place");
    check_not_listed(jt_abif_list_opened(file, len, 156, 1, list, 4), list, 4, "listing the last entry alone");
    check_not_listed(jt_abif_list_opened(file, len, 128, 3, list, 4), list, 4, "listing another count");
    check_not_listed(jt_abif_list_opened(file, len, 128 + far, 2, list, 4), list, 4, "listing at a place past 32 bits");
    check_not_listed(jt_abif_list_opened(file, len, 128, 2 + far, list, 4), list, 4, "listing a count past 32 bits");
}

static void check_opened(const uint8_t *file, size_t len) {
    jt_opened o = jt_abif_open(file, len);
    jt_item item = jt_abif_lookup_opened(file, len, o.place, o.count, ABCD, 1);
    check(item.refusal == 0 && item.type == 4 && item.count == 2, "lookup in an opened file");
    check(item.start == 148 && item.length == 4, "the item of an opened file");
    jt_element element = jt_abif_element_opened(file, len, o.place, o.count, ABCD, 1, 2);
    check(element.refusal == 0 && element.kind == JT_WHOLE && element.whole == -2, "element of an opened file");
    uint8_t text[256];
    memcpy(text, file, len);
    memcpy(text + 136, (const uint8_t[]){0, 19, 0, 1, 0, 0, 0, 3, 0, 0, 0, 3, 'h', 'i', 0}, 15);
    jt_part part = jt_abif_text_opened(text, len, o.place, o.count, ABCD, 1);
    check(part.refusal == 0 && part.start == 148 && part.length == 2, "text of an opened file");
}

/* Every call on the opened file, for a tag that is not there, is refused so, and every other field is 0. */
static void check_opened_refused(const uint8_t *file, size_t len, uint64_t place, uint64_t count, uint64_t refusal,
                                 const char *what) {
    jt_item item = jt_abif_lookup_opened(file, len, place, count, ABCD, -1);
    check(item.refusal == refusal && item.type == 0 && item.count == 0 && item.start == 0 && item.length == 0, what);
    jt_element element = jt_abif_element_opened(file, len, place, count, ABCD, -1, 0);
    check(element.refusal == refusal && element.kind == 0 && element.whole == 0 && element.a == 0, what);
    jt_part part = jt_abif_text_opened(file, len, place, count, ABCD, -1);
    check(part.refusal == refusal && part.start == 0 && part.length == 0, what);
}

static void check_opened_refusals(const uint8_t *file, size_t len) {
    check_opened_refused(file, len, 128, 1, 7, "a tag that is not in an opened file");
    check_opened_refused(file, len - 1, 127, 1, 1, "an opened file that is cut");
    check_opened_refused(NULL, 0, 128, 1, 1, "an opened file of no bytes");
    check_opened_refused(file, len, 127, 1, 4, "another place");
    check_opened_refused(file, len, 128, 0, 4, "another count");
    check_opened_refused(file, len, 1, 128, 4, "place and count changed about");
    check_opened_refused(file, len, 128 + (UINT64_C(1) << 32), 1, 4, "a place past 32 bits");
    check_opened_refused(file, len, 128, 1 + (UINT64_C(1) << 32), 4, "a count past 32 bits");
    check_opened_refused(file, len, UINT64_MAX, UINT64_MAX, 4, "the largest place and count");
    check(jt_abif_element_opened(file, len, 128, 1, ABCD, 1, 3).refusal == 12, "no such element of an opened file");
    check(jt_abif_text_opened(file, len, 128, 1, ABCD, 1).refusal == 10, "text of another type in an opened file");
}

static void check_sff_header(void) {
    uint8_t file[40];
    size_t len = make_sff_header(file, 0);
    check(is_whole(jt_sff_judge(file, len), 40, 0, 0), "judging no reads");
    struct jt_sff_header header = jt_sff_header(file, len);
    check(header.refusal == 0 && header.index_offset == 0 && header.index_length == 0 && header.reads == 0, "header");
    check(header.header_length == 40 && header.key_length == 4 && header.flows == 4, "lengths in the header");
    check(header.flow_letters_start == 31 && header.key_start == 35, "letters of the header");
    struct jt_sff_header cut = jt_sff_header(file, len - 1);
    check(cut.refusal == 1 && cut.header_length == 0 && cut.flow_letters_start == 0, "a cut header");
    check(jt_sff_header(NULL, 0).refusal == 1 && jt_sff_judge(NULL, 0).refusal == 1, "an SFF file of no bytes");
}

static void check_sff_parts(const struct jt_sff_read *read, const char *what) {
    check(read->refusal == 0 && read->start == 40 && read->name_start == 56 && read->name_length == 5, what);
    check(read->bases == 3 && read->flows_start == 64 && read->steps_start == 72, what);
    check(read->letters_start == 75 && read->qualities_start == 78, what);
}

static void check_sff_read(void) {
    uint8_t file[88];
    size_t len = make_sff_file(file, (const uint8_t[]){0, 0}, (const uint8_t[]){1, 1, 1});
    check(is_whole(jt_sff_judge(file, len), 88, 0, 0), "judging one read");
    struct jt_sff_read read = jt_sff_read(file, len, 1);
    check_sff_parts(&read, "read");
    check(read.quality_left == 2 && read.quality_right == 0, "quality clips");
    check(read.first == 2 && read.last == 3 && read.insert_start == 76 && read.insert_length == 2, "insert");
    jt_flow flow = jt_sff_flow_of_base(file, len, 1, 3);
    check(flow.refusal == 0 && flow.flow == 3, "flow of a base");
    make_sff_file(file, (const uint8_t[]){3, 1}, (const uint8_t[]){2, 0, 2});
    read = jt_sff_read(file, len, 1);
    check_sff_parts(&read, "read with clips");
    check(read.adapter_left == 3 && read.adapter_right == 1 && read.first == 3 && read.last == 1, "adapter clips");
    check(read.insert_start == 75 && read.insert_length == 0, "empty insert");
    check(jt_sff_flow_of_base(file, len, 1, 3).flow == 4, "flow of a base behind a step of 0");
}

/* W8 with a second read like the first, but for a clip above its bases. */
static size_t make_two_reads(uint8_t *file) {
    size_t len = make_sff_file(file, (const uint8_t[]){0, 0}, (const uint8_t[]){1, 1, 1});
    memcpy(file + len, file + 40, 48);
    file[len + 15] = 4;
    file[23] = 2;
    return len + 48;
}

/* The reads from this number on, of those that stand in the file: these were written, and nothing behind them. */
static void check_reads(const uint8_t *file, size_t len, uint64_t first, size_t room, uint64_t count) {
    uint64_t out[2 * JT_READ_NUMBERS + 3];
    memset(out, 0xA5, sizeof out);
    jt_listed listed = jt_sff_reads(file, len, first, out, room);
    check(listed.refusal == 0 && listed.count == count, "reads");
    for (uint64_t i = 0; i < count; i++) {
        struct jt_sff_read read = jt_sff_read(file, len, first + i);
        check(memcmp(out + JT_READ_NUMBERS * i, &read, sizeof read) == 0, "a read among others");
    }
    check(untouched((const uint8_t *)out, count * sizeof(struct jt_sff_read), sizeof out), "the output behind the reads");
}

static void check_sff_reads(void) {
    uint8_t file[136];
    size_t len = make_two_reads(file);
    check(jt_sff_read(file, len, 1).refusal == 0 && jt_sff_read(file, len, 2).refusal == 11, "a good read and a bad one");
    check_reads(file, len, 1, JT_READ_NUMBERS, 1);
    check_reads(file, len, 1, 2 * JT_READ_NUMBERS - 1, 1);
    check_reads(file, len, 1, 2 * JT_READ_NUMBERS, 2);
    check_reads(file, len, 1, 2 * JT_READ_NUMBERS + 3, 2);
    check_reads(file, len, 2, 2 * JT_READ_NUMBERS, 1);
    check_reads(file, len - 1, 1, JT_READ_NUMBERS, 1);
}

/* The call is refused so, and nothing was written. */
static void check_no_reads(const uint8_t *file, size_t len, uint64_t first, size_t room, uint64_t refusal) {
    uint64_t out[2 * JT_READ_NUMBERS];
    memset(out, 0xA5, sizeof out);
    jt_listed listed = jt_sff_reads(file, len, first, out, room);
    check(listed.refusal == refusal && listed.count == 0, "refused reads");
    check(untouched((const uint8_t *)out, 0, sizeof out), "the output of refused reads");
}

static void check_sff_reads_refusals(void) {
    uint8_t file[136];
    size_t len = make_two_reads(file);
    check_no_reads(file, len, 0, 0, 7);
    check_no_reads(file, len, 3, 2 * JT_READ_NUMBERS, 7);
    check_no_reads(file, len - 1, 1, JT_READ_NUMBERS - 1, 13);
    check_no_reads(file, len - 1, 1, 2 * JT_READ_NUMBERS, 1);
    check_no_reads(file, len - 1, 2, JT_READ_NUMBERS, 1);
    check_no_reads(file, 39, 0, 0, 1);
    check(jt_sff_reads(file, len, 1, NULL, 0).refusal == 13, "reads with no room");
    check(jt_sff_reads(NULL, 0, 1, NULL, 0).refusal == 1, "reads of no bytes");
}

static void check_sff_refusals(void) {
    uint8_t file[88];
    size_t len = make_sff_file(file, (const uint8_t[]){0, 4}, (const uint8_t[]){1, 1, 1});
    check(is_refused(jt_sff_judge(file, len - 1), 1, 1), "judging a cut read");
    check(jt_sff_judge(file, len).refusal == 0, "judging a read with a clip above its bases");
    struct jt_sff_read read = jt_sff_read(file, len, 1);
    check(read.refusal == 11 && read.start == 0 && read.letters_start == 0, "a clip above the bases");
    check(jt_sff_read(file, len, 0).refusal == 7 && jt_sff_read(file, len, 2).refusal == 7, "a read that is not there");
    make_sff_file(file, (const uint8_t[]){0, 0}, (const uint8_t[]){1, 1, 1});
    check(jt_sff_flow_of_base(file, len, 1, 4).refusal == 12, "a base that is not there");
    make_sff_file(file, (const uint8_t[]){0, 0}, (const uint8_t[]){0, 1, 1});
    jt_flow flow = jt_sff_flow_of_base(file, len, 1, 2);
    check(flow.refusal == 11 && flow.flow == 0, "a first step of 0");
}

/* W8's read, with this left quality clip. */
static jt_sff_writer add_read(jt_sff_writer w, uint64_t quality_left, uint8_t *out, size_t room) {
    static const uint16_t flows[4] = {100, 200, 0, 100};
    static const uint8_t steps[3] = {1, 1, 1}, qualities[3] = {0x1E, 0x1F, 0x20};
    return jt_sff_add(w, (const uint8_t *)"first", 5, flows, 4, steps, 3, (const uint8_t *)"TAC", 3, qualities, 3,
                      quality_left, 0, 0, 0, out, room);
}

static jt_sff_writer begin_file(uint32_t reads, uint8_t *out, size_t room) {
    return jt_sff_begin(reads, (const uint8_t *)"TACG", 4, (const uint8_t *)"TCAG", 4, out, room);
}

static int same_writer(jt_sff_writer w, uint64_t refusal, uint64_t reads, uint64_t written, uint64_t flows, uint64_t at) {
    return w.refusal == refusal && w.reads == reads && w.written == written && w.flows == flows && w.at == at;
}

static void check_sff_writing(void) {
    uint8_t file[88], out[100];
    make_sff_header(file, 0);
    memset(out, 0xA5, sizeof out);
    jt_sff_writer w = begin_file(0, out, 40);
    check(same_writer(w, 0, 0, 0, 4, 40) && memcmp(out, file, 40) == 0, "writing W7");
    jt_written written = jt_sff_finish(w);
    check(written.refusal == 0 && written.length == 40 && untouched(out, 40, sizeof out), "finishing W7");
    make_sff_file(file, (const uint8_t[]){0, 0}, (const uint8_t[]){1, 1, 1});
    w = begin_file(1, out, sizeof out);
    check(same_writer(w, 0, 1, 0, 4, 40), "beginning W8");
    w = add_read(w, 2, out, sizeof out);
    check(same_writer(w, 0, 1, 1, 4, 88) && memcmp(out, file, 88) == 0, "writing W8");
    written = jt_sff_finish(w);
    check(written.refusal == 0 && written.length == 88 && untouched(out, 88, sizeof out), "finishing W8");
    w = jt_sff_begin(1, NULL, 0, NULL, 0, out, 48);
    w = jt_sff_add(w, NULL, 0, NULL, 0, NULL, 0, NULL, 0, NULL, 0, 0, 0, 0, 0, out, 48);
    check(same_writer(w, 0, 1, 1, 0, 48) && jt_sff_judge(out, 48).extent == 48, "writing a read of nothing");
    static const uint8_t steps[2] = {1, 0}, clips[8] = {0, 1, 0, 2, 0, 1, 0, 2};
    w = (jt_sff_writer){7, 9, 2, 1, 3};
    w = jt_sff_add(w, NULL, 0, (const uint16_t[]){258}, 1, steps, 2, steps, 2, steps, 2, 1, 2, 1, 2, out, sizeof out);
    check(same_writer(w, 0, 9, 3, 1, 27) && memcmp(out + 11, clips, 8) == 0, "writing from another state");
    check(out[19] == 1 && out[20] == 2, "a flow value's bytes");
}

static void check_sff_writing_refusals(void) {
    static uint8_t letters[65536];
    uint8_t out[100];
    memset(out, 0xA5, sizeof out);
    jt_sff_writer w = jt_sff_begin(1, letters, sizeof letters, NULL, 0, out, sizeof out);
    check(same_writer(w, 9, 0, 0, 0, 0), "more flow letters than their field counts");
    check(same_writer(begin_file(1, out, 39), 13, 0, 0, 0, 0), "a header with too little room");
    check(same_writer(begin_file(1, NULL, 0), 13, 0, 0, 0, 0), "a header with no room");
    check(untouched(out, 0, sizeof out), "the output of a file that is not begun");
    w = begin_file(1, out, sizeof out);
    w = add_read(w, 65536, out, sizeof out);
    check(same_writer(w, 9, 1, 0, 4, 40), "a clip that does not fit its field");
    w = add_read(w, 4, out, sizeof out);
    check(same_writer(w, 11, 1, 0, 4, 40), "writing a clip above the bases");
    w = add_read(w, 2, out, 87);
    check(same_writer(w, 13, 1, 0, 4, 40), "a read with too little room");
    check(same_writer(add_read(w, 2, NULL, 0), 13, 1, 0, 4, 40), "a read with no room");
    check(untouched(out, 40, sizeof out), "the output behind the header");
    jt_written early = jt_sff_finish(w);
    check(early.refusal == 9 && early.length == 0, "finishing too early");
    w = add_read(w, 2, out, 88);
    check(same_writer(w, 0, 1, 1, 4, 88) && jt_sff_finish(w).length == 88, "going on after refusals");
    w = add_read(w, 2, out, sizeof out);
    check(same_writer(w, 9, 1, 1, 4, 88) && untouched(out, 88, sizeof out), "a read past the stated number");
    check(jt_sff_finish(w).refusal == 0, "finishing after a refusal");
}

static void check_gtc_table(void) {
    static const uint8_t none[] = {0x67, 0x74, 0x63, 0x05, 0x00, 0x00, 0x00, 0x00};
    static const uint8_t value[] = {0x67, 0x74, 0x63, 0x05, 0x01, 0x00, 0x00, 0x00, 0x01, 0x00, 0x03, 0x00, 0x00, 0x00};
    check(is_whole(jt_gtc_judge(none, sizeof none), 8, 0, 0), "judging no entries");
    check(is_whole(jt_gtc_judge(value, sizeof value), 14, 0, 0), "judging one value");
    jt_item item = jt_gtc_lookup(value, sizeof value, 1);
    check(item.refusal == 0 && item.type == 1 && item.count == 4 && item.start == 10 && item.length == 4, "a value");
    check(is_refused(jt_gtc_judge(value, sizeof value - 1), 1, 0), "judging a cut table");
    item = jt_gtc_lookup(value, sizeof value, 2);
    check(item.refusal == 7 && item.type == 0 && item.count == 0 && item.start == 0, "an id that is not there");
    check(jt_gtc_lookup(value, sizeof value, 2000).refusal == 10, "an id that is not listed");
    check(jt_gtc_judge(NULL, 0).refusal == 1 && jt_gtc_lookup(NULL, 0, 1).refusal == 1, "a GTC file of no bytes");
}

static void check_gtc_snp(const jt_snp *snp, uint64_t code, uint64_t ploidy, uint64_t b_alleles) {
    check(snp->refusal == 0 && snp->code == code && snp->ploidy == ploidy && snp->b_alleles == b_alleles, "genotype");
}

static void check_gtc_records(void) {
    uint8_t file[256];
    size_t len = make_gtc_file(file, (const uint8_t[]){13, 45, 4});
    check(is_whole(jt_gtc_judge(file, len), len, 1, 0), "judging three SNPs");
    jt_snp snps[3];
    for (int i = 0; i < 3; i++) {
        snps[i] = jt_gtc_snp(file, len, (uint64_t)i + 1);
    }
    check_gtc_snp(&snps[0], 13, 4, 2);
    check_gtc_snp(&snps[1], 45, 8, 8);
    check_gtc_snp(&snps[2], 4, 0, 0);
    check(snps[0].call_1 == 'A' && snps[0].call_2 == 'C' && snps[2].call_1 == '-', "base calls");
    check(snps[1].score_bits == 0xFFC00002 && snps[1].x == 0xFFFE && snps[1].y == 1, "score and intensities");
}

/* The SNPs from this number on, of those that stand in the file: these were written, and nothing behind them. */
static void check_snps(const uint8_t *file, size_t len, uint64_t first, size_t room, uint64_t count) {
    uint64_t out[3 * JT_SNP_NUMBERS + 3];
    memset(out, 0xA5, sizeof out);
    jt_listed listed = jt_gtc_snps(file, len, first, out, room);
    check(listed.refusal == 0 && listed.count == count, "SNPs");
    for (uint64_t i = 0; i < count; i++) {
        jt_snp snp = jt_gtc_snp(file, len, first + i);
        check(memcmp(out + JT_SNP_NUMBERS * i, &snp, sizeof snp) == 0, "a SNP among others");
    }
    check(untouched((const uint8_t *)out, count * sizeof(jt_snp), sizeof out), "the output behind the SNPs");
}

static void check_gtc_snps(void) {
    uint8_t file[256];
    size_t len = make_gtc_file(file, (const uint8_t[]){13, 46, 4});
    check(jt_gtc_snp(file, len, 1).refusal == 0 && jt_gtc_snp(file, len, 2).refusal == 11, "a good SNP and a bad one");
    check_snps(file, len, 1, JT_SNP_NUMBERS, 1);
    check_snps(file, len, 1, 3 * JT_SNP_NUMBERS - 1, 2);
    check_snps(file, len, 1, 3 * JT_SNP_NUMBERS, 3);
    check_snps(file, len, 1, 3 * JT_SNP_NUMBERS + 3, 3);
    check_snps(file, len, 2, JT_SNP_NUMBERS, 1);
    check_snps(file, len, 3, 3 * JT_SNP_NUMBERS, 1);
}

static void check_gtc_refusals(void) {
    uint8_t file[256];
    uint64_t out[3 * JT_SNP_NUMBERS] = {7};
    size_t len = make_gtc_file(file, (const uint8_t[]){13, 45, 46});
    check(jt_gtc_judge(file, len).refusal == 0, "judging a code that stands for no genotype");
    jt_snp snp = jt_gtc_snp(file, len, 3);
    check(snp.refusal == 11 && snp.code == 0 && snp.call_1 == 0 && snp.x == 0, "a code that stands for no genotype");
    check(jt_gtc_snp(file, len, 0).refusal == 12 && jt_gtc_snp(file, len, 4).refusal == 12, "a SNP that is not there");
    check(jt_gtc_snps(file, len, 4, out, 3 * JT_SNP_NUMBERS).refusal == 12 && out[0] == 7, "no SNPs left");
    check(jt_gtc_snps(file, len, 0, NULL, 0).refusal == 12, "SNP 0, and no room");
    check(jt_gtc_snps(file, len, 1, out, JT_SNP_NUMBERS - 1).refusal == 13 && out[0] == 7, "too little room for a SNP");
    check(jt_gtc_snps(file, len, 1, NULL, 0).refusal == 13, "no room for SNPs");
    check(jt_gtc_snps(file, 60, 1, out, 3 * JT_SNP_NUMBERS).refusal == 1 && out[0] == 7, "the SNPs of a cut file");
    check(jt_gtc_snp(file, 60, 1).refusal == 1 && jt_gtc_snp(NULL, 0, 1).refusal == 1, "a SNP of a cut file");
    check(is_refused(jt_gtc_judge(file, len - 1), 1, 7), "judging a cut array");
}

static void check_gtc_normalising(void) {
    uint8_t file[256];
    size_t len = make_gtc_file(file, (const uint8_t[]){0, 0, 0});
    jt_transformation_answer answer = jt_gtc_transformation(file, len, 1);
    jt_transformation t = answer.value;
    check(answer.refusal == 0 && t.version == -3 && t.offset_x == 1 && t.offset_y == 2, "transformation");
    check(t.scale_x == 0.5f && t.scale_y == 4 && t.shear == 0.25f && t.theta == 6, "scales, shear and theta");
    check(t.reserved_1 == 7 && t.reserved_2 == 8 && t.reserved_3 == 9, "first reserved floats");
    check(t.reserved_4 == 10 && t.reserved_5 == 11 && t.reserved_6 == 12, "last reserved floats");
    check(answer.start == len - 52 && file[answer.start] == 0xFD && file[len - 1] == 0x41, "a transformation's bytes");
    jt_point point = jt_gtc_normalise(t, 101, 42, 0.5f, 2);
    check(point.x == 350 && point.y == -45, "normalising");
    point = jt_gtc_normalise(t, 65535, 0, 1, 0);
    check(point.x == 131069 && point.y == -0.5f, "normalising the largest intensity");
    t.scale_x = 0;
    t.scale_y = 0;
    point = jt_gtc_normalise(t, 1, 2, 1, 0);
    check(point.x != point.x && point.y != point.y, "normalising to NaNs");
    static const jt_transformation zeros;
    answer = jt_gtc_transformation(file, len, 2);
    check(answer.refusal == 12 && answer.start == 0, "a transformation that is not there");
    check(memcmp(&answer.value, &zeros, sizeof zeros) == 0, "the fields of a transformation that is not there");
    check(jt_gtc_transformation(file, len, 0).refusal == 12, "transformation 0");
    check(jt_gtc_transformation(NULL, 0, 1).refusal == 1, "a transformation of no bytes");
}

static void check_tails(void) {
    enum { MOST = 300 };
    static const size_t tails[] = {0, 1, 7, 8, MOST};
    uint8_t abif[256 + MOST] = {0};
    uint8_t sff[88 + MOST] = {0};
    uint8_t gtc[256 + MOST] = {0};
    size_t abif_len = make_file(abif);
    size_t sff_len = make_sff_file(sff, (const uint8_t[]){0, 0}, (const uint8_t[]){1, 1, 1});
    size_t gtc_len = make_gtc_file(gtc, (const uint8_t[]){13, 45, 4});
    for (size_t i = 0; i < sizeof tails / sizeof *tails; i++) {
        check(is_whole(jt_abif_judge(abif, abif_len + tails[i]), abif_len, 0, tails[i]), "the tail of an ABIF file");
        check(is_whole(jt_sff_judge(sff, sff_len + tails[i]), sff_len, 0, tails[i]), "the tail of an SFF file");
        check(is_whole(jt_gtc_judge(gtc, gtc_len + tails[i]), gtc_len, 1, tails[i]), "the tail of a GTC file");
    }
}

/* The check of W2, whose one tag is in no profile. */
typedef struct tags {
    const uint8_t *file;
    size_t len;
    jt_listed findings;
    int64_t found[JT_FINDING_NUMBERS * 999];
} tags;

static void *check_tags(void *given) {
    tags *t = given;
    t->findings = jt_abif_check_tags(t->file, t->len, 1, t->found, sizeof t->found / sizeof *t->found);
    return NULL;
}

static int is_found(const tags *t, int64_t name, int64_t number, int64_t what) {
    for (size_t i = 0; i < t->findings.count; i++) {
        const int64_t *finding = t->found + JT_FINDING_NUMBERS * i;
        if (finding[0] == name && finding[1] == number && finding[2] == what)
            return 1;
    }
    return 0;
}

/* The call that needs the most stack, on a thread that has 40 KiB. */
static void check_small_stack(const uint8_t *file, size_t len) {
    static tags t;
    t.file = file;
    t.len = len;
    pthread_attr_t small;
    pthread_t thread;
    check(pthread_attr_init(&small) == 0 && pthread_attr_setstacksize(&small, 40960) == 0, "a small stack");
    check(pthread_create(&thread, &small, check_tags, &t) == 0 && pthread_join(thread, NULL) == 0, "a thread");
    check(t.findings.refusal == 0, "checking tags with a small stack");
    check(is_found(&t, ABCD, 1, JT_FINDING_NOT_IN_PROFILE), "a tag in no profile");
}

int main(void) {
    uint8_t file[256];
    size_t len = make_file(file);
    check_sizes();
    check_answers(file, len);
    check_refusals(file, len);
    check_listing();
    check_listing_refusals();
    check_opened(file, len);
    check_opened_refusals(file, len);
    check_abif_writing(file, len);
    check_abif_writing_refusals();
    check_abif_lists();
    check_sff_header();
    check_sff_read();
    check_sff_refusals();
    check_sff_reads();
    check_sff_reads_refusals();
    check_sff_writing();
    check_sff_writing_refusals();
    check_gtc_table();
    check_gtc_records();
    check_gtc_snps();
    check_gtc_refusals();
    check_gtc_normalising();
    check_tails();
    check_small_stack(file, len);
    printf("%d passed, %d failed\n", passed, failed);
    return failed != 0;
}
