#include "words.h"

#include "text.h"

#include <inttypes.h>
#include <string.h>

const char *refusal_words(uint64_t refusal) {
    static const char *const words[] = {
        [1] = "missing: the file ends too soon",
        [2] = "of another kind",
        [3] = "of another version",
        [4] = "the header contradicts itself",
        [5] = "more than 999 entries",
        [6] = "cannot stand where the table of contents says",
        [7] = "not in this file",
        [8] = "stands in the file twice",
        [9] = "its sizes do not fit each other",
        [10] = "of a type that is not shown this way",
        [11] = "holds a value that the format forbids",
        [12] = "has no values",
        [13] = "the room lent is too small",
        [14] = "not in ascending order",
    };
    if (refusal < 1 || refusal >= sizeof words / sizeof words[0]) {
        return "not refused";
    }
    return words[refusal];
}

const char *abif_type_name(int64_t code) {
    static const struct {
        int16_t code;
        const char *name;
    } types[] = {
        {1, "byte"},     {2, "char"},   {3, "word"},        {4, "short"},     {5, "long"},       {6, "rational"},
        {7, "float"},    {8, "double"}, {9, "BCD"},         {10, "date"},     {11, "time"},      {12, "thumb"},
        {13, "bool"},    {14, "point"}, {15, "rect"},       {16, "vPoint"},   {17, "vRect"},     {18, "pString"},
        {19, "cString"}, {20, "tag"},   {128, "deltaComp"}, {256, "LZWComp"}, {384, "deltaLZW"},
    };
    for (size_t i = 0; i < sizeof types / sizeof types[0]; i++) {
        if (types[i].code == code) {
            return types[i].name;
        }
    }
    return code >= 1024 ? "user" : "unknown";
}

static const struct gtc_row ROWS[] = {
    {1, GTC_VALUE, "NumSNPs", "int32"},
    {2, GTC_VALUE, "Ploidy", "int32"},
    {3, GTC_VALUE, "Ploidy Type", "int32"},
    {10, GTC_TEXT, "Sample Name", "string"},
    {11, GTC_TEXT, "Sample Plate", "string"},
    {12, GTC_TEXT, "Sample Well", "string"},
    {100, GTC_TEXT, "Cluster File", "string"},
    {101, GTC_TEXT, "SNP Manifest", "string"},
    {200, GTC_TEXT, "Imaging Date", "string"},
    {201, GTC_TEXT, "AutoCall Date", "string"},
    {300, GTC_TEXT, "AutoCall Version", "string"},
    {400, GTC_ARRAY, "Normalization Transformations", "XForm[]"},
    {500, GTC_ARRAY, "Raw Control X", "ushort[]"},
    {501, GTC_ARRAY, "Raw Control Y", "ushort[]"},
    {1000, GTC_ARRAY, "Raw X intensity values", "ushort[]"},
    {1001, GTC_ARRAY, "Raw Y intensity values", "ushort[]"},
    {1002, GTC_ARRAY, "Genotypes", "byte[]"},
    {1003, GTC_ARRAY, "BaseCalls", "BaseCall[]"},
    {1004, GTC_ARRAY, "Genotype Scores", "float[]"},
    {1005, GTC_BLOCK, "Scanner Data", "block"},
    {1006, GTC_FLOAT, "Call Rate", "float"},
    {1007, GTC_TEXT, "Estimated Gender", "char"},
    {1008, GTC_FLOAT, "LogR Dev", "float"},
    {1009, GTC_FLOAT, "p10GC", "float"},
    {1010, GTC_VALUE, "DX", "int32"},
    {1011, GTC_BLOCK, "Extended sample data", "block"},
    {1012, GTC_ARRAY, "B Allele Frequencies", "float[]"},
    {1013, GTC_ARRAY, "LogR Ratios", "float[]"},
    {1014, GTC_BLOCK, "Intensity percentiles (X)", "block"},
    {1015, GTC_BLOCK, "Intensity percentiles (Y)", "block"},
    {1016, GTC_TEXT, "Sentrix ID", "string"},
};

const struct gtc_row *gtc_row_of(uint16_t id) {
    for (size_t i = 0; i < sizeof ROWS / sizeof ROWS[0]; i++) {
        if (ROWS[i].id == id) {
            return &ROWS[i];
        }
    }
    return NULL;
}

void genotype_name(int code, int ploidy, int b_alleles, char name[GENOTYPE_LENGTH]) {
    if (ploidy == 0) {
        snprintf(name, GENOTYPE_LENGTH, "%s", code == NULL_GENOTYPE ? "NULL" : "NC");
        return;
    }
    memset(name, 'B', (size_t)ploidy);
    memset(name, 'A', (size_t)(ploidy - b_alleles));
    name[ploidy] = '\0';
}

void print_refusal_as(const char *words, uint64_t refusal) {
    printf("%s (refused %" PRIu64 ")", words, refusal);
}

void print_refusal(uint64_t refusal) {
    print_refusal_as(refusal_words(refusal), refusal);
}

void print_refused(const char *what, uint64_t refusal) {
    printf("%s: ", what);
    print_refusal(refusal);
    putchar('\n');
}

uint32_t tag_name(const char *letters) {
    const unsigned char *bytes = (const unsigned char *)letters;
    return (uint32_t)bytes[0] << 24 | (uint32_t)bytes[1] << 16 | (uint32_t)bytes[2] << 8 | bytes[3];
}

struct tag_text tag_text(uint32_t name) {
    struct tag_text tag = {.text = ""};
    for (int i = 0; i < 4; i++) {
        uint8_t byte = (uint8_t)(name >> (24 - 8 * i));
        tag.text[i] = byte >= ' ' && byte <= '~' ? (char)byte : '.';
    }
    return tag;
}

void print_letters(const uint8_t *letters, size_t length) {
    for (size_t i = 0; i < length; i++) {
        putchar(letters[i] > ' ' && letters[i] <= '~' ? letters[i] : '.');
    }
}

void tell_failure(const char *path, const char *reason) {
    fputs("jtview: ", stderr);
    print_string(stderr, path);
    fprintf(stderr, ": %s\n", reason);
}
