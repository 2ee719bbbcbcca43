#include "guess.h"

#include "numbers.h"
#include "report.h"
#include "text.h"
#include "words.h"

#include <ctype.h>
#include <inttypes.h>
#include <string.h>
#include <strings.h>

enum { TYPE_CHAR = 2, MODEL_LENGTH = 4, MOST_SAID = 255 };

/* The item's text, or its letters where it is of type char, without the blanks behind it; of a long one as much as a
   pString can hold. */
static struct saying saying_of(const struct file *file, const char *name, int32_t number) {
    struct saying saying = {.name = name, .number = number};
    jt_part text = jt_abif_text(file->bytes, file->length, tag_name(name), number);
    jt_item item = jt_abif_lookup(file->bytes, file->length, tag_name(name), number);
    if (text.refusal == 0) {
        saying.bytes = part_of(file, text.start, text.length);
        saying.length = text.length;
    } else if (item.refusal == 0 && item.type == TYPE_CHAR) {
        saying.bytes = part_of(file, item.start, item.length);
        saying.length = item.length;
    }
    saying.length = saying.length < MOST_SAID ? saying.length : MOST_SAID;
    while (saying.length > 0 && (saying.bytes[saying.length - 1] == ' ' || saying.bytes[saying.length - 1] == 0)) {
        saying.length--;
    }
    return saying;
}

static void print_saying(const struct saying *saying) {
    printf("%s %" PRId32 " says ", saying->name, saying->number);
    print_text(stdout, saying->bytes, saying->length);
}

static bool is_digit_at(const struct saying *saying, size_t place) {
    return place < saying->length && isdigit(saying->bytes[place]);
}

/* Whether the text has the model's number in it, and not as a part of a longer one. */
static bool names_model(const struct saying *saying, const char *model) {
    for (size_t i = 0; i + MODEL_LENGTH <= saying->length; i++) {
        bool alone = (i == 0 || !is_digit_at(saying, i - 1)) && !is_digit_at(saying, i + MODEL_LENGTH);
        if (alone && memcmp(saying->bytes + i, model, MODEL_LENGTH) == 0) {
            return true;
        }
    }
    return false;
}

static bool names_any_model(const struct saying *saying) {
    for (int number = 1; number <= PROFILES; number++) {
        if (names_model(saying, profile_of(number)->model)) {
            return true;
        }
    }
    return false;
}

/* The official name comes first, since a 3130 has the model number 3100; the names that users give come last, and
   those that name no instrument with a table are not told. */
static void find_instrument(struct guess *guess, const struct file *file) {
    static const struct {
        const char *name;
        int32_t number;
        bool of_users;
    } naming[] = {{"HCFG", 3, false}, {"MODL", 1, false}, {"RunN", 1, true}, {"MCHN", 1, true}};
    for (size_t i = 0; i < sizeof naming / sizeof naming[0] && !guess->has_table; i++) {
        struct saying saying = saying_of(file, naming[i].name, naming[i].number);
        guess->has_table = names_any_model(&saying);
        if (guess->has_table || (guess->instrument.length == 0 && !naming[i].of_users)) {
            guess->instrument = saying;
        }
    }
}

/* Of the 3730 there are tables of two versions, which the first digit tells apart. */
static void find_software(struct guess *guess, const struct file *file) {
    struct saying saying = saying_of(file, "SVER", 1);
    if (guess->has_table && names_model(&guess->instrument, "3730") && is_digit_at(&saying, 0)) {
        guess->software = saying.bytes[0] < '3' ? "2.0" : "3.0";
    }
}

static void find_kind_by_name(struct guess *guess, const char *path) {
    const char *dot = strrchr(path, '.');
    if (dot != NULL && strcasecmp(dot, ".ab1") == 0) {
        guess->kind = KIND_AB1;
    } else if (dot != NULL && strcasecmp(dot, ".fsa") == 0) {
        guess->kind = KIND_FSA;
    }
}

/* The tags that stand in tables of one kind alone: how many there are, and the first. */
struct telling {
    uint64_t count;
    jt_entry first;
};

static struct telling tags_in_only(enum kind kind, const jt_entry *entries, uint64_t count) {
    struct telling telling = {.count = 0};
    for (uint64_t i = 0; i < count; i++) {
        const struct tag_row *row = tag_row_of(entries[i].name, entries[i].number);
        if (row != NULL && stands_in_only(row, kind)) {
            telling.first = telling.count == 0 ? entries[i] : telling.first;
            telling.count++;
        }
    }
    return telling;
}

/* The kind that more of these tags tell; the file's name, where they are as many. */
static void find_kind(struct guess *guess, const struct file *file) {
    jt_entry entries[MOST_ENTRIES];
    uint64_t count = jt_abif_list(file->bytes, file->length, entries, MOST_ENTRIES).count;
    struct telling ab1 = tags_in_only(KIND_AB1, entries, count);
    struct telling fsa = tags_in_only(KIND_FSA, entries, count);
    if (ab1.count == fsa.count) {
        find_kind_by_name(guess, file->path);
        return;
    }
    struct telling more = ab1.count > fsa.count ? ab1 : fsa;
    guess->kind = ab1.count > fsa.count ? KIND_AB1 : KIND_FSA;
    guess->telling = more.count;
    guess->first = more.first;
}

static bool fits(const struct guess *guess, const struct profile *profile) {
    return (!guess->has_table || names_model(&guess->instrument, profile->model)) &&
           (guess->software == NULL || strcmp(guess->software, profile->software) == 0) &&
           (guess->kind == KIND_UNKNOWN || guess->kind == profile->kind);
}

/* The profile with the fewest findings of those that fit, the first of them where there are more. */
static void find_closest(struct guess *guess, const struct file *file) {
    struct report report;
    for (int number = 1; number <= PROFILES; number++) {
        if (!fits(guess, profile_of(number))) {
            continue;
        }
        report_read(&report, file, number);
        if (guess->left == 0 || report.count < guess->findings) {
            guess->profile = number;
            guess->findings = report.count;
        }
        guess->left++;
    }
}

struct guess guess_profile(const struct file *file) {
    struct guess guess = {.kind = KIND_UNKNOWN};
    find_instrument(&guess, file);
    find_software(&guess, file);
    find_kind(&guess, file);
    find_closest(&guess, file);
    return guess;
}

static void print_instrument(const struct guess *guess) {
    if (guess->instrument.length == 0) {
        printf("no tag names the instrument");
        return;
    }
    print_saying(&guess->instrument);
    printf("%s", guess->has_table ? "" : ", for which there is no table");
}

static void print_kind(const struct guess *guess) {
    const char *kind = kind_name(guess->kind);
    struct tag_text first = tag_text(guess->first.name);
    if (guess->telling == 0) {
        printf("; the file's name ends in .%s", kind);
    } else if (guess->telling == 1) {
        printf("; %s %" PRId32 " stands in %s tables alone", first.text, guess->first.number, kind);
    } else {
        printf("; %" PRIu64 " tags, %s %" PRId32 " the first, stand in %s tables alone", guess->telling, first.text,
               guess->first.number, kind);
    }
}

void print_guess(const struct file *file, const struct guess *guess) {
    printf("taken for ");
    print_profile(guess->profile);
    printf(", since ");
    print_instrument(guess);
    if (guess->software != NULL) {
        struct saying software = saying_of(file, "SVER", 1);
        printf("; ");
        print_saying(&software);
    }
    if (guess->kind != KIND_UNKNOWN) {
        print_kind(guess);
    }
    if (guess->left > 1) {
        printf("; of the %d profiles that are left this is the closest, with %" PRIu64
               " findings; --profile takes another",
               guess->left, guess->findings);
    }
    putchar('\n');
}

struct guess_words guess_words(const struct guess *guess) {
    struct guess_words words = {.text = "closest"};
    if (guess->left == 1) {
        snprintf(words.text, sizeof words.text, "%s %" PRId32, guess->instrument.name, guess->instrument.number);
    }
    return words;
}

void print_other_software(const struct file *file, int profile) {
    const char *software = profile_of(profile)->software;
    struct saying saying = saying_of(file, "SVER", 1);
    size_t length = strlen(software);
    if (saying.length > 0 && (saying.length < length || memcmp(saying.bytes, software, length) != 0)) {
        printf("  ");
        print_saying(&saying);
        printf(", and the table is of v%s: another version may write other tags\n", software);
    }
}
