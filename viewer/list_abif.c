#include "list.h"
#include "words.h"

#include <inttypes.h>

/* The entry as it stands, and what looking it up is refused with. */
static bool print_entry(const struct file *file, const jt_entry *entry) {
    jt_item item = jt_abif_lookup(file->bytes, file->length, entry->name, entry->number);
    printf("%s %11" PRId32 "  %5d %-9s %11" PRId32 " %11" PRId32 "  ", tag_text(entry->name).text, entry->number,
           entry->type, abif_type_name(entry->type), entry->count, entry->data_size);
    if (entry->data_size <= MOST_INLINE_BYTES) {
        printf("inline");
    } else {
        printf("at %" PRId32, entry->data_offset);
    }
    if (item.refusal != 0) {
        printf("  ");
        print_refusal(item.refusal);
    }
    putchar('\n');
    return item.refusal == 0;
}

bool list_abif(const struct file *file) {
    jt_entry entries[MOST_ENTRIES];
    jt_listed listed = jt_abif_list(file->bytes, file->length, entries, MOST_ENTRIES);
    if (listed.refusal != 0) {
        print_refused("directory", listed.refusal);
        return false;
    }
    printf("%-4s %11s  %-15s %11s %11s  %s\n", "tag", "number", " type", "count", "size", "place");
    bool answered = true;
    for (uint64_t i = 0; i < listed.count; i++) {
        answered = print_entry(file, &entries[i]) && answered;
    }
    return answered;
}
