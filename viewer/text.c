#include "text.h"

#include <inttypes.h>
#include <stdbool.h>
#include <string.h>

/* The code of the UTF-8 character at the front, and how many bytes it takes; 0 bytes where there is none. */
static size_t decode(const uint8_t *bytes, size_t length, uint32_t *code) {
    static const struct {
        uint8_t mask, lead;
        uint32_t lowest;
    } shapes[] = {{0x80, 0x00, 0x0}, {0xE0, 0xC0, 0x80}, {0xF0, 0xE0, 0x800}, {0xF8, 0xF0, 0x10000}};
    size_t more = 0;
    while (more < 4 && (bytes[0] & shapes[more].mask) != shapes[more].lead) {
        more++;
    }
    if (more == 4 || more >= length) {
        return 0;
    }
    *code = bytes[0] & (uint8_t)~shapes[more].mask;
    for (size_t i = 1; i <= more; i++) {
        if ((bytes[i] & 0xC0) != 0x80) {
            return 0;
        }
        *code = *code << 6 | (bytes[i] & 0x3F);
    }
    bool sound = *code >= shapes[more].lowest && *code <= 0x10FFFF && (*code < 0xD800 || *code > 0xDFFF);
    return sound ? more + 1 : 0;
}

struct range {
    uint32_t first, last;
};

static bool lies_in(const struct range *ranges, size_t count, uint32_t code) {
    for (size_t i = 0; i < count; i++) {
        if (code >= ranges[i].first && code <= ranges[i].last) {
            return true;
        }
    }
    return false;
}

/* Controls, marks of the direction of writing, what has no width, and what is no character. */
static bool is_hidden(uint32_t code) {
    static const struct range hidden[] = {
        {0x0, 0x1F},      {0x7F, 0x9F},     {0x61C, 0x61C},   {0x200B, 0x200F}, {0x2028, 0x202E},
        {0x2060, 0x2069}, {0xFEFF, 0xFEFF}, {0xFFF9, 0xFFFB}, {0xFDD0, 0xFDEF},
    };
    return lies_in(hidden, sizeof hidden / sizeof hidden[0], code) || (code & 0xFFFE) == 0xFFFE;
}

struct character text_character(const uint8_t *bytes, size_t length) {
    struct character character = {.shown = TEXT_UNSHOWN, .code = 0xFFFD, .length = 1};
    uint32_t code = 0;
    size_t taken = decode(bytes, length, &code);
    if (taken != 0) {
        character.length = taken;
    }
    if (taken != 0 && !is_hidden(code)) {
        memset(character.shown, 0, sizeof character.shown);
        memcpy(character.shown, bytes, taken);
        character.code = code;
    }
    return character;
}

void print_text(FILE *out, const uint8_t *bytes, size_t length) {
    while (length > 0) {
        struct character character = text_character(bytes, length);
        fputs(character.shown, out);
        bytes += character.length;
        length -= character.length;
    }
}

void print_string(FILE *out, const char *string) {
    print_text(out, (const uint8_t *)string, strlen(string));
}

struct grouped with_commas(uint64_t number) {
    struct grouped grouped;
    char digits[32];
    int count = snprintf(digits, sizeof digits, "%" PRIu64, number);
    int length = 0;
    for (int i = 0; i < count; i++) {
        if (i > 0 && (count - i) % 3 == 0) {
            grouped.text[length++] = ',';
        }
        grouped.text[length++] = digits[i];
    }
    grouped.text[length] = '\0';
    return grouped;
}

/* The widths are those of a bold and wide font, in tenths, so that others stay below them. */
unsigned character_width(uint32_t code) {
    enum { USUAL = 900, WIDE = 1050 };
    static const char tenths[] = "45697B94556945447777777777449996A888977994487A998"
                                 "988798C888545955786875884474B878856587A7768489";
    static const struct range wide[] = {
        {0x1100, 0x115F}, {0x2010, 0x2027}, {0x2030, 0x205F}, {0x20A0, 0x2BFF},   {0x2E80, 0xA4CF},
        {0xAC00, 0xD7A3}, {0xF900, 0xFAFF}, {0xFE30, 0xFE6F}, {0xFF00, 0x10FFFF},
    };
    if (code >= ' ' && code <= '~') {
        char digit = tenths[code - ' '];
        return 100 * (unsigned)(digit >= 'A' ? digit - 'A' + 10 : digit - '0');
    }
    return lies_in(wide, sizeof wide / sizeof wide[0], code) ? WIDE : USUAL;
}
