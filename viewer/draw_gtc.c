#include "draw.h"

#include "memory.h"
#include "numbers.h"
#include "progress.h"
#include "scale.h"
#include "sheet.h"
#include "table.h"
#include "text.h"
#include "words.h"

#include <inttypes.h>
#include <stdlib.h>
#include <string.h>

enum {
    GENOTYPES = 46,     /* the classes are the genotypes by their codes */
    UNREAD = GENOTYPES, /* the class of SNPs whose genotypes cannot be read */
    CLASSES,
    PLOT_SIZE = 560,
    PIXELS = (PLOT_SIZE + 1) * (PLOT_SIZE + 1),
    PLOT_GAP = 12,
    LEGEND_LEFT = PLOT_LEFT + PLOT_SIZE + 40
};

/* The parts that are the intensities, among the arrays of the SNPs. */
enum { X_PART = 3, Y_PART = 4 };

/* A GTC file's picture: how many SNPs of each class there are, and where. */
struct scatter {
    struct picture *picture;
    jt_item parts[SNP_ARRAYS];
    uint64_t refusal;   /* of all the SNPs' records */
    uint64_t forbidden; /* the records that are refused by themselves */
    char label[80];     /* what of the SNPs is refused */
    uint64_t count;
    uint64_t in_class[CLASSES];
    uint8_t ploidy[CLASSES];
    uint8_t b_alleles[CLASSES];
    int64_t highest;
    int64_t top;     /* of both scales, once the highest intensity is known */
    uint64_t *taken; /* for each pixel, a bit for each class that has a mark there */
};

/* What is done with a SNP: it is counted, or marked in its place. */
typedef void see_snp(struct scatter *scatter, uint64_t class, uint64_t x, uint64_t y);

static void count_snp(struct scatter *scatter, uint64_t class, uint64_t x, uint64_t y) {
    int64_t larger = (int64_t)(x > y ? x : y);
    scatter->highest = larger > scatter->highest ? larger : scatter->highest;
    scatter->in_class[class]++;
    scatter->count++;
}

static void mark_snp(struct scatter *scatter, uint64_t class, uint64_t x, uint64_t y) {
    int64_t right = (int64_t)x * PLOT_SIZE / scatter->top;
    int64_t down = PLOT_SIZE - (int64_t)y * PLOT_SIZE / scatter->top;
    scatter->taken[down * (PLOT_SIZE + 1) + right] |= (uint64_t)1 << class;
}

/* A record that is refused by itself is not seen. */
static void see_record(struct scatter *scatter, const jt_snp *record, see_snp *see) {
    if (record->refusal == 0) {
        scatter->ploidy[record->code] = (uint8_t)record->ploidy;
        scatter->b_alleles[record->code] = (uint8_t)record->b_alleles;
        see(scatter, record->code, record->x, record->y);
    }
}

/* All records, some at a time until none is left; answers with how many there are, or the refusal of the first call. */
static uint64_t see_records(struct scatter *scatter, see_snp *see, uint64_t *records) {
    enum { AT_ONCE = 512 };
    const struct file *file = scatter->picture->file;
    uint64_t numbers[AT_ONCE * JT_SNP_NUMBERS];
    jt_listed listed;
    *records = 0;
    do {
        listed = jt_gtc_snps(file->bytes, file->length, *records + 1, numbers, AT_ONCE * JT_SNP_NUMBERS);
        for (uint64_t i = 0; i < listed.count; i++) {
            jt_snp record;
            memcpy(&record, numbers + JT_SNP_NUMBERS * i, sizeof record);
            see_record(scatter, &record, see);
        }
        *records += listed.count;
        progress_show(*records, scatter->parts[X_PART].count);
    } while (listed.refusal == 0);
    return *records == 0 ? listed.refusal : 0;
}

/* Without records, the intensities alone, if both are there. */
static void see_intensities(struct scatter *scatter, see_snp *see) {
    const struct file *file = scatter->picture->file;
    const jt_item *x = &scatter->parts[X_PART];
    const jt_item *y = &scatter->parts[Y_PART];
    if (x->refusal != 0 || y->refusal != 0) {
        return;
    }
    for (uint64_t i = 0; i < x->count && i < y->count; i++) {
        see(scatter, UNREAD, little_endian_16(file, x->start + 2 * i), little_endian_16(file, y->start + 2 * i));
    }
}

static void see_snps(struct scatter *scatter, see_snp *see) {
    uint64_t records;
    scatter->refusal = see_records(scatter, see, &records);
    if (scatter->refusal != 0 && scatter->refusal != NO_SUCH_ELEMENT) {
        see_intensities(scatter, see);
    } else {
        scatter->forbidden = records - scatter->count;
    }
}

static void read_snps(struct scatter *scatter) {
    enum { LOWEST_TOP = 100 };
    const struct file *file = scatter->picture->file;
    for (int i = 0; i < SNP_ARRAYS; i++) {
        scatter->parts[i] = jt_gtc_lookup(file->bytes, file->length, SNP_ARRAY_IDS[i]);
    }
    see_snps(scatter, count_snp);
    scatter->top = round_above(scatter->highest > LOWEST_TOP ? scatter->highest : LOWEST_TOP);
    see_snps(scatter, mark_snp);
}

static void class_name(const struct scatter *scatter, int class, char name[GENOTYPE_LENGTH]) {
    if (class == UNREAD) {
        snprintf(name, GENOTYPE_LENGTH, "unread");
    } else {
        genotype_name(class, scatter->ploidy[class], scatter->b_alleles[class], name);
    }
}

/* From dark for all A to light for all B, so that they can be told apart in grey too. */
static const char *genotype_colour(const struct scatter *scatter, int class) {
    static const char *const shades[] = {"#00103a", "#0c1f5c", "#1f2f6b", "#3a4066", "#4f505e",
                                         "#5f5a4f", "#6c6138", "#7a6820", "#876d00"};
    int ploidy = scatter->ploidy[class];
    if (ploidy == 0) {
        return class == UNREAD ? "#555" : "#b03018";
    }
    return shades[8 * scatter->b_alleles[class] / ploidy];
}

/* A mark around a point: a circle for all A, a square for all B, a triangle between; a cross where there is no call,
   and a dash for NULL. */
static const char *genotype_mark(const struct scatter *scatter, int class) {
    int ploidy = scatter->ploidy[class];
    if (class == UNREAD) {
        return "m-1.5 0h3m-1.5-1.5v3";
    }
    if (ploidy == 0) {
        return class == NULL_GENOTYPE ? "m-3 0h6" : "m-2.5-2.5l5 5m0-5l-5 5";
    }
    if (scatter->b_alleles[class] == 0) {
        return "m-2.5 0a2.5 2.5 0 1 0 5 0a2.5 2.5 0 1 0-5 0z";
    }
    return scatter->b_alleles[class] == ploidy ? "m-2.2-2.2h4.4v4.4h-4.4z" : "m0-3l2.8 5h-5.6z";
}

/* How a class is painted: its letters filled, the others by lines. */
static void draw_paint(struct scatter *scatter, int class) {
    const char *colour = genotype_colour(scatter, class);
    bool filled = scatter->ploidy[class] != 0;
    svg_format(&scatter->picture->svg, "fill=\"%s\" stroke=\"%s\" stroke-width=\"%s\"", filled ? colour : "none",
               filled ? "#fff" : colour, filled ? ".4" : "1.1");
}

/* One mark for all SNPs of a class that fall on the same pixel. */
static void draw_marks(struct scatter *scatter, int class) {
    struct svg *svg = &scatter->picture->svg;
    const char *mark = genotype_mark(scatter, class);
    for (int64_t i = 0; i < PIXELS; i++) {
        if (scatter->taken[i] >> class & 1) {
            svg_markup(svg, "M");
            svg_number(svg, i % (PLOT_SIZE + 1));
            svg_markup(svg, " ");
            svg_number(svg, i / (PLOT_SIZE + 1));
            svg_markup(svg, mark);
        }
    }
}

static void draw_class(struct scatter *scatter, int class) {
    struct svg *svg = &scatter->picture->svg;
    char name[GENOTYPE_LENGTH];
    class_name(scatter, class, name);
    svg_format(svg, "<path class=\"snps\" data-genotype=\"%s\" data-count=\"%" PRIu64 "\" ", name,
               scatter->in_class[class]);
    draw_paint(scatter, class);
    svg_markup(svg, " d=\"");
    draw_marks(scatter, class);
    svg_markup(svg, "\"/>\n");
}

static void draw_axes(struct scatter *scatter) {
    enum { TICKS = 4 };
    struct svg *svg = &scatter->picture->svg;
    for (int i = 0; i <= TICKS; i++) {
        int at = PLOT_SIZE * i / TICKS;
        svg_format(svg, "<path class=\"grid\" d=\"M0 %dh%dM%d 0v%d\"/>", PLOT_SIZE - at, PLOT_SIZE, at, PLOT_SIZE);
        svg_format(svg, "<text class=\"small end\" x=\"-6\" y=\"%d\">", PLOT_SIZE - at + 4);
        svg_grouped(svg, scatter->top * i / TICKS);
        svg_format(svg, "</text><text class=\"small middle\" x=\"%d\" y=\"%d\">", at, PLOT_SIZE + 16);
        svg_grouped(svg, scatter->top * i / TICKS);
        svg_markup(svg, "</text>\n");
    }
    svg_format(svg, "<rect class=\"frame\" width=\"%d\" height=\"%d\"/>", PLOT_SIZE, PLOT_SIZE);
    svg_format(svg, "<text class=\"middle\" x=\"%d\" y=\"%d\">X, raw green intensity</text>", PLOT_SIZE / 2,
               PLOT_SIZE + 36);
    svg_format(svg, "<text class=\"middle\" transform=\"translate(-58,%d) rotate(-90)\">Y, raw red intensity</text>\n",
               PLOT_SIZE / 2);
}

/* The records that are refused: some for what stands in them, or all. */
static struct refused refused_snps(struct scatter *scatter) {
    if (scatter->forbidden == 0) {
        const char *words = gtc_snps_words(scatter->picture->file, scatter->refusal);
        return (struct refused){"SNPs", "SNPs", 0, scatter->refusal, words};
    }
    snprintf(scatter->label, sizeof scatter->label, "%s of %s SNPs", with_commas(scatter->forbidden).text,
             with_commas(scatter->forbidden + scatter->count).text);
    return (struct refused){"SNPs", scatter->label, scatter->forbidden, FORBIDDEN_VALUE, NULL};
}

/* Whether two classes have the same mark in the same colour: as many B among their letters, for their number. */
static bool look_the_same(const struct scatter *scatter, int left, int right) {
    return strcmp(genotype_mark(scatter, left), genotype_mark(scatter, right)) == 0 &&
           strcmp(genotype_colour(scatter, left), genotype_colour(scatter, right)) == 0;
}

/* A name in the list of those that look the same: the first few, and a sign that there are more. */
static void draw_name(struct scatter *scatter, int class, int names) {
    enum { FEW = 4 };
    char name[GENOTYPE_LENGTH];
    class_name(scatter, class, name);
    if (names < FEW) {
        svg_format(&scatter->picture->svg, "%s<tspan font-weight=\"bold\">%s</tspan>", names > 0 ? ", " : "", name);
    } else if (names == FEW) {
        svg_markup(&scatter->picture->svg, " ...");
    }
}

/* The names of a class and of all behind it that look the same, and how many SNPs they have. */
static void draw_look(struct scatter *scatter, int class) {
    uint64_t count = 0;
    int names = 0;
    for (int other = class; other < CLASSES; other++) {
        if (scatter->in_class[other] > 0 && look_the_same(scatter, class, other)) {
            draw_name(scatter, other, names++);
            count += scatter->in_class[other];
        }
    }
    svg_format(&scatter->picture->svg, ": %s %s", with_commas(count).text, count == 1 ? "SNP" : "SNPs");
}

static bool is_first_of_its_look(const struct scatter *scatter, int class) {
    for (int other = 0; other < class; other++) {
        if (scatter->in_class[other] > 0 && look_the_same(scatter, class, other)) {
            return false;
        }
    }
    return scatter->in_class[class] > 0;
}

static void draw_legend(struct scatter *scatter, int64_t y) {
    struct svg *svg = &scatter->picture->svg;
    for (int class = 0; class < CLASSES; class ++) {
        if (is_first_of_its_look(scatter, class)) {
            svg_markup(svg, "<path ");
            draw_paint(scatter, class);
            svg_format(svg, " transform=\"translate(%d,%" PRId64 ") scale(2)\" d=\"M0 0%s\"/>", LEGEND_LEFT, y + 10,
                       genotype_mark(scatter, class));
            svg_format(svg, "<text x=\"%d\" y=\"%" PRId64 "\">", LEGEND_LEFT + 20, y + 15);
            draw_look(scatter, class);
            svg_markup(svg, "</text>\n");
            y += PART_HEIGHT;
        }
    }
}

static void draw_part(struct scatter *scatter, uint64_t part, struct box box) {
    struct svg *svg = &scatter->picture->svg;
    const jt_item *item = &scatter->parts[part];
    const char *name = gtc_row_of(SNP_ARRAY_IDS[part])->name;
    char id[8];
    char label[48];
    snprintf(id, sizeof id, "%u", SNP_ARRAY_IDS[part]);
    if (item->refusal != 0) {
        snprintf(label, sizeof label, "%s %s", id, name);
        const char *words = gtc_refusal_words(scatter->picture->file, SNP_ARRAY_IDS[part], item->refusal);
        draw_refused(scatter->picture, (struct refused){id, label, 0, item->refusal, words}, box);
        return;
    }
    svg_format(svg, "<text x=\"%" PRId64 "\" y=\"%" PRId64 "\"><tspan font-weight=\"bold\">%s</tspan> %s: ", box.x,
               box.y + 16, id, name);
    svg_grouped(svg, (int64_t)item->count);
    svg_markup(svg, is_whole(&scatter->picture->judgement) ? "</text>\n" : ", file refused</text>\n");
}

/* The five arrays, and behind them the records that are refused. */
static void draw_parts_line(void *subject, uint64_t index, int64_t y) {
    struct scatter *scatter = subject;
    struct box box = {PICTURE_MARGIN, y, PICTURE_WIDTH - 2 * PICTURE_MARGIN, PART_HEIGHT - 4};
    if (index < SNP_ARRAYS) {
        draw_part(scatter, index, box);
    } else {
        draw_refused(scatter->picture, refused_snps(scatter), box);
    }
}

static void draw_plot(void *subject, uint64_t index, int64_t top) {
    struct scatter *scatter = subject;
    struct svg *svg = &scatter->picture->svg;
    int64_t y = top + PLOT_GAP;
    (void)index;
    if (scatter->count == 0) {
        struct box box = {PLOT_LEFT, y, PLOT_WIDTH, PLOT_SIZE};
        draw_refused(scatter->picture, refused_snps(scatter), box);
        return;
    }
    svg_format(svg, "<g transform=\"translate(%d,%" PRId64 ")\">\n", PLOT_LEFT, y);
    draw_axes(scatter);
    for (int class = 0; class < CLASSES; class ++) {
        if (scatter->in_class[class] > 0) {
            draw_class(scatter, class);
        }
    }
    draw_file_refused(scatter->picture, PLOT_SIZE - 8, 20);
    svg_markup(svg, "</g>\n");
    draw_legend(scatter, y);
}

bool draw_gtc(struct picture *picture) {
    enum { AXIS_HEIGHT = 44 };
    struct scatter *scatter = take(1, sizeof *scatter);
    struct sheet *sheet = take(1, sizeof *sheet);
    scatter->picture = picture;
    scatter->taken = take(PIXELS, sizeof *scatter->taken);
    read_snps(scatter);
    bool answered = scatter->refusal == 0 && scatter->forbidden == 0;
    for (uint64_t i = 0; i < (answered ? SNP_ARRAYS : SNP_ARRAYS + 1); i++) {
        sheet_add(sheet, PART_HEIGHT, draw_parts_line, i);
    }
    sheet_add(sheet, PLOT_GAP + PLOT_SIZE + AXIS_HEIGHT, draw_plot, 0);
    sheet_draw(sheet, picture, scatter);
    free(scatter->taken);
    free(scatter);
    free(sheet);
    return answered;
}
