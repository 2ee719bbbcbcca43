#include "list.h"
#include "numbers.h"
#include "table.h"
#include "text.h"
#include "words.h"

#include <inttypes.h>

static void print_value(const struct file *file, const struct gtc_row *row, const jt_item *item) {
    switch (row->shape) {
    case GTC_VALUE:
        printf("  %" PRIu32, little_endian_32(file, item->start));
        break;
    case GTC_FLOAT:
        printf("  %.9g", (double)little_endian_float(file, item->start));
        break;
    case GTC_TEXT:
        printf("  ");
        print_text(stdout, part_of(file, item->start, item->length), item->length);
        break;
    case GTC_ARRAY:
        printf("  count %" PRIu64 ", %" PRIu64 " bytes at %" PRIu64, item->count, item->length, item->start);
        break;
    case GTC_BLOCK:
        printf("  %" PRIu64 " bytes at %" PRIu64, item->length, item->start);
        break;
    }
}

/* An entry of the table: its id, the id's name and type in Table 3, and the item or its refusal. */
static bool print_entry(const struct file *file, uint16_t id) {
    const struct gtc_row *row = gtc_row_of(id);
    if (row == NULL) {
        printf("%5u  not in Table 3, not judged\n", id);
        return true;
    }
    jt_item item = jt_gtc_lookup(file->bytes, file->length, id);
    printf("%5u  %-29s  %-10s", id, row->name, row->type);
    if (item.refusal == 0) {
        print_value(file, row, &item);
    } else {
        printf("  ");
        print_refusal_as(gtc_refusal_words(file, id, item.refusal), item.refusal);
    }
    putchar('\n');
    return item.refusal == 0;
}

bool list_gtc(const struct file *file) {
    uint64_t refusal = gtc_table_refusal(file);
    if (refusal != 0) {
        print_refused("table of contents", refusal);
        return false;
    }
    printf("%5s  %-29s  %-10s  %s\n", "id", "name", "type", "value, or count and place");
    bool answered = true;
    for (uint32_t entry = 1; entry <= gtc_entries(file); entry++) {
        answered = print_entry(file, gtc_entry_id(file, entry)) && answered;
    }
    return answered;
}
