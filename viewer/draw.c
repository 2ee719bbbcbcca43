#include "draw.h"

#include "memory.h"
#include "progress.h"
#include "sheet.h"
#include "table.h"
#include "words.h"

#include <ctype.h>
#include <stdlib.h>
#include <string.h>
#include <strings.h>
#include <sys/stat.h>

static bool draw_unknown(struct picture *picture) {
    struct sheet *sheet = take(1, sizeof *sheet);
    sheet_draw(sheet, picture, NULL);
    free(sheet);
    return false;
}

static bool draw_format(struct picture *picture, const struct draw_options *options) {
    switch (picture->judgement.format) {
    case FORMAT_ABIF:
        return draw_abif(picture, options);
    case FORMAT_SFF:
        return draw_sff(picture, options);
    case FORMAT_GTC:
        return draw_gtc(picture);
    default:
        return draw_unknown(picture);
    }
}

static bool is_same_file(const struct file *file, const char *path) {
    struct stat state;
    return stat(path, &state) == 0 && state.st_dev == file->device && state.st_ino == file->number;
}

static bool is_lost(const struct file *file, enum format format) {
    switch (format) {
    case FORMAT_ABIF:
        return jt_abif_open(file->bytes, file->length).refusal != 0;
    case FORMAT_SFF:
        return jt_sff_header(file->bytes, file->length).refusal != 0;
    case FORMAT_GTC:
        return gtc_table_refusal(file) != 0;
    default:
        return true;
    }
}

static bool ends_in(const char *path, const char *ending) {
    size_t length = strlen(path);
    size_t behind = strlen(ending);
    return length >= behind && strcasecmp(path + length - behind, ending) == 0;
}

/* The printed part of each paper, with margins of 10 mm, has these shapes. */
static void choose_paper(struct picture *picture, const struct draw_options *options) {
    static const struct {
        const char *paper;
        int page_height;
    } papers[2][2] = {{{"A4 portrait", 1603}, {"A4 landscape", 754}},
                      {{"Letter portrait", 1456}, {"Letter landscape", 830}}};
    if (ends_in(options->output, ".html") || ends_in(options->output, ".htm")) {
        picture->paper = papers[options->letter_paper][options->landscape].paper;
        picture->page_height = papers[options->letter_paper][options->landscape].page_height;
    }
}

static struct picture *picture_of(const struct file *file, const struct draw_options *options) {
    struct picture *picture = take(1, sizeof *picture);
    picture->file = file;
    picture->judgement = judge(file);
    picture->explanation = explain(file, &picture->judgement);
    picture->explanation.sentences[0] = (char)toupper((unsigned char)picture->explanation.sentences[0]);
    picture->lost = is_lost(file, picture->judgement.format);
    choose_paper(picture, options);
    return picture;
}

/* NULL, or the reason why there is no picture. */
static const char *draw_picture(struct picture *picture, const struct draw_options *options, bool *answered) {
    const char *mark = picture->paper != NULL ? PAGES_MARK : SVG_MARK;
    const char *failure = svg_open(&picture->svg, options->output, mark);
    if (failure != NULL) {
        return failure;
    }
    progress_begin("drawing");
    *answered = draw_format(picture, options);
    progress_end();
    return svg_close(&picture->svg);
}

enum status draw_file(const struct file *file, const struct draw_options *options) {
    if (is_same_file(file, options->output)) {
        tell_failure(options->output, "the picture would take the place of its own file");
        return STATUS_UNREADABLE;
    }
    struct picture *picture = picture_of(file, options);
    struct judgement judgement = picture->judgement;
    bool answered = false;
    const char *failure = draw_picture(picture, options, &answered);
    free(picture);
    if (failure != NULL) {
        tell_failure(options->output, failure);
        return STATUS_UNREADABLE;
    }
    print_line(file, &judgement);
    return answered ? status_of(&judgement) : STATUS_REFUSED;
}
