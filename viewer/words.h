/* The published names of what stands in the files, and the refusals in words. */
#ifndef VIEWER_WORDS_H
#define VIEWER_WORDS_H

#include <stddef.h>
#include <stdint.h>
#include <stdio.h>

/* The refusals that the viewer tells apart. */
enum {
    CUT_SHORT = 1,
    ANOTHER_VERSION = 3,
    NOT_THERE = 7,
    TWICE = 8,
    TYPE_NOT_HANDLED = 10,
    FORBIDDEN_VALUE = 11,
    NO_SUCH_ELEMENT = 12
};

/* What a refusal's number says of a part of a file, in plain words. */
const char *refusal_words(uint64_t refusal);

/* Prints a refusal in its words, or in those given, and its number; and as a line of its own with what is refused. */
void print_refusal(uint64_t refusal);
void print_refusal_as(const char *words, uint64_t refusal);
void print_refused(const char *what, uint64_t refusal);

/* Prints to stderr why a file cannot be read or written. */
void tell_failure(const char *path, const char *reason);

/* The published name of an ABIF element type; "unknown" for a code that the format does not list. */
const char *abif_type_name(int64_t code);

/* The shapes of GTC's items. */
enum gtc_shape { GTC_VALUE, GTC_TEXT, GTC_ARRAY, GTC_FLOAT, GTC_BLOCK };

/* A row of GTC's Table 3. */
struct gtc_row {
    uint16_t id;
    enum gtc_shape shape;
    const char *name;
    const char *type;
};

/* The row of an id, or NULL. */
const struct gtc_row *gtc_row_of(uint16_t id);

/* The genotype of code 4, which has no letters, as NC has none; and the room for a genotype's name. */
enum { NULL_GENOTYPE = 4, GENOTYPE_LENGTH = 16 };

/* A genotype's name: as many letters as its ploidy, A first and then B; NC or NULL where there are none. */
void genotype_name(int code, int ploidy, int b_alleles, char name[GENOTYPE_LENGTH]);

/* An ABIF directory's most entries, and the most bytes of data that stand in the entry itself. */
enum { MOST_ENTRIES = 999, MOST_INLINE_BYTES = 4 };

/* A tag's name as a number, from its four letters. */
uint32_t tag_name(const char *letters);

/* A tag's name as it is shown: bytes outside 32 to 126 as a full stop. */
struct tag_text {
    char text[5];
};

struct tag_text tag_text(uint32_t name);

/* Prints flow letters or key letters: those that cannot be seen as a full stop. */
void print_letters(const uint8_t *letters, size_t length);

#endif
