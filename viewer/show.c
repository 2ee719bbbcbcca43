#include "show.h"

#include "numbers.h"
#include "progress.h"
#include "text.h"
#include "words.h"

#include <inttypes.h>
#include <unistd.h>

enum {
    TYPE_CHAR = 2,
    TYPE_FLOAT = 7,
    TYPE_DOUBLE = 8,
    TYPE_DATE = 10,
    TYPE_TIME = 11,
    TYPE_THUMB = 12,
    TYPE_BOOL = 13
};
enum { TYPE_P_STRING = 18, TYPE_C_STRING = 19 };
enum { NUMBERS_A_LINE = 10, BYTES_A_LINE = 16, LETTERS_A_LINE = 60, LUMP = 4096 };

/* The item that is shown, and the tag that it was asked for by. */
struct shown {
    const struct file *file;
    uint32_t name;
    int32_t number;
    jt_item item;
};

static void print_item(const struct shown *shown) {
    const jt_item *item = &shown->item;
    printf("%s %" PRId32 " type %" PRIu64 " %s count %" PRIu64 " size %" PRIu64, tag_text(shown->name).text,
           shown->number, item->type, abif_type_name((int64_t)item->type), item->count, item->length);
    if (item->length <= MOST_INLINE_BYTES) {
        printf(" inline\n");
    } else {
        printf(" at %" PRIu64 "\n", item->start);
    }
}

/* Begins a line with the number of its first element, and ends the one before it. */
static void begin_line(uint64_t index, uint64_t elements_a_line) {
    if (index % elements_a_line == 0) {
        printf("%s%8" PRIu64 ":", index == 0 ? "" : "\n", index + 1);
    }
}

static bool show_text(const struct shown *shown) {
    const struct file *file = shown->file;
    jt_part text = jt_abif_text(file->bytes, file->length, shown->name, shown->number);
    if (text.refusal != 0) {
        print_refused("text", text.refusal);
        return false;
    }
    print_text(stdout, part_of(file, text.start, text.length), text.length);
    putchar('\n');
    return true;
}

static bool show_bytes(const struct shown *shown) {
    for (uint64_t i = 0; i < shown->item.length; i++) {
        begin_line(i, BYTES_A_LINE);
        printf(" %02x", byte_at(shown->file, shown->item.start + i));
    }
    puts(shown->item.length > 0 ? "" : "no bytes");
    return true;
}

static bool all_printable(const uint8_t *letters, uint64_t count) {
    for (uint64_t i = 0; i < count; i++) {
        if (letters[i] < ' ' || letters[i] > '~') {
            return false;
        }
    }
    return true;
}

/* Chars that are all letters or signs, as such. */
static void show_letters(const struct shown *shown) {
    uint64_t count = shown->item.count;
    const uint8_t *letters = part_of(shown->file, shown->item.start, count);
    if (!all_printable(letters, count)) {
        return;
    }
    for (uint64_t i = 0; i < count; i += LETTERS_A_LINE) {
        uint64_t left = count - i;
        begin_line(i, LETTERS_A_LINE);
        printf(" %.*s", (int)(left < LETTERS_A_LINE ? left : LETTERS_A_LINE), (const char *)letters + i);
    }
    putchar('\n');
}

static void print_numbers(uint64_t first, const int64_t *numbers, uint64_t count) {
    for (uint64_t i = 0; i < count; i++) {
        begin_line(first + i, NUMBERS_A_LINE);
        printf(" %" PRId64, numbers[i]);
    }
}

static bool show_whole_numbers(const struct shown *shown) {
    int64_t numbers[LUMP];
    uint64_t first = 0;
    jt_listed listed = {.refusal = 0};
    if (shown->item.type == TYPE_CHAR) {
        show_letters(shown);
    }
    while (first < shown->item.count && listed.refusal == 0) {
        listed = jt_abif_whole_numbers(shown->file->bytes, shown->file->length, shown->name, shown->number, first + 1,
                                       numbers, LUMP);
        print_numbers(first, numbers, listed.count);
        first += listed.count;
    }
    putchar('\n');
    return listed.refusal == 0;
}

/* A date or a time, which the format has rules for. */
static uint64_t show_moment(const struct shown *shown, uint64_t index) {
    const struct file *file = shown->file;
    jt_element element = jt_abif_element(file->bytes, file->length, shown->name, shown->number, index);
    if (element.refusal != 0) {
        print_refusal(element.refusal);
    } else if (element.kind == JT_DATE) {
        printf("%04" PRId32 "-%02" PRId32 "-%02" PRId32, element.a, element.b, element.c);
    } else {
        printf("%02" PRId32 ":%02" PRId32 ":%02" PRId32 ".%02" PRId32, element.a, element.b, element.c, element.d);
    }
    return element.refusal;
}

/* An element of a type that may hold any bytes: it is read where the lookup says that its item stands. */
static void show_element(const struct shown *shown, uint64_t index) {
    const struct file *file = shown->file;
    uint64_t place = shown->item.start + (index - 1) * (shown->item.length / shown->item.count);
    switch (shown->item.type) {
    case TYPE_FLOAT:
        printf("%.9g", (double)big_endian_float(file, place));
        break;
    case TYPE_DOUBLE:
        printf("%.17g", big_endian_double(file, place));
        break;
    case TYPE_THUMB:
        printf("%" PRId32 " %" PRId32 " %u %u", (int32_t)big_endian_32(file, place),
               (int32_t)big_endian_32(file, place + 4), byte_at(file, place + 8), byte_at(file, place + 9));
        break;
    default:
        fputs(byte_at(file, place) != 0 ? "true" : "false", stdout);
        break;
    }
}

/* A line for each element; one that is refused is told as such. */
static bool show_elements(const struct shown *shown) {
    bool is_moment = shown->item.type == TYPE_DATE || shown->item.type == TYPE_TIME;
    bool answered = true;
    if (!isatty(STDOUT_FILENO)) {
        progress_begin("showing");
    }
    for (uint64_t index = 1; index <= shown->item.count; index++) {
        printf("%8" PRIu64 ": ", index);
        if (is_moment) {
            answered = show_moment(shown, index) == 0 && answered;
        } else {
            show_element(shown, index);
        }
        putchar('\n');
        progress_show(index, shown->item.count);
    }
    progress_end();
    return answered;
}

/* The items that have elements are those whose first one is not refused with 10. */
static bool has_elements(const struct shown *shown) {
    const struct file *file = shown->file;
    return jt_abif_element(file->bytes, file->length, shown->name, shown->number, 1).refusal != TYPE_NOT_HANDLED;
}

static bool has_lines_of_their_own(uint64_t type) {
    return type == TYPE_FLOAT || type == TYPE_DOUBLE || type == TYPE_DATE || type == TYPE_TIME || type == TYPE_THUMB ||
           type == TYPE_BOOL;
}

static bool show_data(const struct shown *shown) {
    if (shown->item.type == TYPE_P_STRING || shown->item.type == TYPE_C_STRING) {
        return show_text(shown);
    }
    if (!has_elements(shown)) {
        return show_bytes(shown);
    }
    if (shown->item.count == 0) {
        printf("no elements\n");
        return true;
    }
    return has_lines_of_their_own(shown->item.type) ? show_elements(shown) : show_whole_numbers(shown);
}

enum status show_item(const struct file *file, uint32_t name, int32_t number) {
    struct judgement judgement = judge(file);
    print_line(file, &judgement);
    if (judgement.format != FORMAT_ABIF) {
        fputs("jtview: only ABIF files have tags\n", stderr);
        return STATUS_REFUSED;
    }
    struct shown shown = {.file = file, .name = name, .number = number};
    shown.item = jt_abif_lookup(file->bytes, file->length, name, number);
    if (shown.item.refusal != 0) {
        print_refused("item", shown.item.refusal);
        return STATUS_REFUSED;
    }
    print_item(&shown);
    return show_data(&shown) ? status_of(&judgement) : STATUS_REFUSED;
}
