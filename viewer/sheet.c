#include "sheet.h"

#include "head.h"

#include <inttypes.h>
#include <stdio.h>
#include <stdlib.h>

const char SVG_MARK[] = "<svg xmlns=\"http://www.w3.org/2000/svg\" data-jtview=\"picture\"";
const char PAGES_MARK[] =
    "<!DOCTYPE html>\n<html xmlns=\"http://www.w3.org/1999/xhtml\" lang=\"en\" data-jtview=\"picture\"";

static const char STYLE[] =
    "text{font-family:sans-serif;font-size:13px}"
    ".title{font-size:22px;font-weight:bold}.facts,.tail,.page-number{font-size:15px}"
    ".verdict{font-size:38px;font-weight:bold;fill:#fff}.running{font-size:28px}.entry{font-size:16px;fill:#fff}"
    ".meaning{font-size:18px;fill:#fff}.hint{font-size:15px;fill:#fff}"
    ".box,.ended-words{font-size:12px;font-weight:bold}.file-refused{font-weight:bold}"
    ".letter{font-family:monospace;font-size:16px;font-weight:bold;text-anchor:middle}"
    ".clipped{fill:#555}rect.clipped{fill:#e8e8e8}"
    ".small{font-size:11px;fill:#333}.middle{text-anchor:middle}.end{text-anchor:end}"
    ".no-quality{font-size:11px;font-weight:bold;text-anchor:middle}"
    ".trace{fill:none;stroke-width:1.4;stroke-linejoin:round}.quality{fill:#6b7580}"
    ".frame{fill:none;stroke:#6f6f6f}.grid{fill:none;stroke:#6f6f6f;stroke-width:.6;stroke-dasharray:1 3}";

static const char PRINTED_SVG[] = "@media print{svg{width:100%;height:auto}}";

static const char PRINTED_PAGES[] =
    "body{margin:0}.page{display:block;box-sizing:border-box;width:1100px;max-width:100%;margin:0 auto 24px;"
    "border:1px solid #6f6f6f}"
    "@media print{.page{width:100%;height:100vh;margin:0;border:0;break-inside:avoid;break-after:page}"
    ".page:last-child{break-after:auto}}";

static const char HATCH[] = "<defs><pattern id=\"hatch\" width=\"9\" height=\"9\" patternUnits=\"userSpaceOnUse\" "
                            "patternTransform=\"rotate(45)\"><rect width=\"9\" height=\"9\" fill=\"#fff\"/>"
                            "<rect width=\"4\" height=\"9\" fill=\"#707070\"/></pattern></defs>\n";

void sheet_add(struct sheet *sheet, int64_t height, draw_block *draw, uint64_t index) {
    if (sheet->count == MOST_BLOCKS) {
        fputs("jtview: a picture of too many pieces\n", stderr);
        abort();
    }
    sheet->blocks[sheet->count++] = (struct block){height, draw, index};
}

/* Where a block stands: on which page, from one, and how far below its top. */
struct position {
    int64_t page;
    int64_t y;
};

/* Where a block goes: where the one before it ends, or on a new page where it does not fit. */
static struct position place_block(const struct picture *picture, struct position at, const struct block *block) {
    bool fits = picture->paper == NULL || at.y + block->height <= picture->page_height;
    if (!fits && at.y > head_height(picture, at.page)) {
        at.page++;
        at.y = head_height(picture, at.page);
    }
    return at;
}

/* Where the last block ends. */
static struct position end_of(const struct sheet *sheet, const struct picture *picture) {
    struct position at = {1, head_height(picture, 1)};
    for (size_t i = 0; i < sheet->count; i++) {
        at = place_block(picture, at, &sheet->blocks[i]);
        at.y += sheet->blocks[i].height;
    }
    return at;
}

static void write_facts(struct picture *picture) {
    struct svg *svg = &picture->svg;
    const struct judgement *judgement = &picture->judgement;
    svg_format(svg, " data-format=\"%s\"", format_name(judgement->format));
    if (judgement->format != FORMAT_UNKNOWN) {
        svg_format(svg, " data-refusal=\"%" PRIu64 "\" data-entry=\"%" PRIu64 "\"", judgement->verdict.refusal,
                   judgement->verdict.entry);
    }
    svg_markup(svg, " data-name=\"");
    svg_string(svg, file_name(picture->file->path));
    svg_markup(svg, "\"");
}

static void write_canvas(struct picture *picture, int64_t height) {
    svg_format(&picture->svg, " viewBox=\"0 0 %d %" PRId64 "\">\n", PICTURE_WIDTH, height);
}

static void write_paper(struct picture *picture, int64_t height) {
    svg_format(&picture->svg, "<rect width=\"%d\" height=\"%" PRId64 "\" fill=\"#fff\"/>\n", PICTURE_WIDTH, height);
}

static void begin_pages(struct picture *picture) {
    struct svg *svg = &picture->svg;
    svg_markup(svg, PAGES_MARK);
    write_facts(picture);
    svg_markup(svg, ">\n<head><meta charset=\"utf-8\"/><title>");
    svg_string(svg, file_name(picture->file->path));
    svg_format(svg, "</title>\n<style>@page{size:%s;margin:10mm}", picture->paper);
    svg_markup(svg, PRINTED_PAGES);
    svg_markup(svg, STYLE);
    svg_markup(svg, "</style></head>\n<body>\n");
}

static void begin_page(struct picture *picture, int64_t page) {
    struct svg *svg = &picture->svg;
    svg_format(svg,
               "<svg xmlns=\"http://www.w3.org/2000/svg\" class=\"page\" data-page=\"%" PRId64
               "\" data-pages=\"%" PRId64 "\"",
               page, picture->pages);
    write_canvas(picture, picture->page_height);
    if (page == 1) {
        svg_markup(svg, HATCH);
    }
    write_paper(picture, picture->page_height);
    draw_head(picture, page);
}

static void begin_single(struct picture *picture, int64_t height) {
    struct svg *svg = &picture->svg;
    svg_markup(svg, SVG_MARK);
    svg_format(svg, " width=\"%d\" height=\"%" PRId64 "\"", PICTURE_WIDTH, height);
    write_facts(picture);
    write_canvas(picture, height);
    svg_markup(svg, "<style>");
    svg_markup(svg, STYLE);
    svg_markup(svg, PRINTED_SVG);
    svg_markup(svg, "</style>\n");
    svg_markup(svg, HATCH);
    write_paper(picture, height);
    draw_head(picture, 1);
}

static void draw_blocks(const struct sheet *sheet, struct picture *picture, void *subject) {
    struct position at = {1, head_height(picture, 1)};
    for (size_t i = 0; i < sheet->count; i++) {
        const struct block *block = &sheet->blocks[i];
        struct position next = place_block(picture, at, block);
        if (next.page != at.page) {
            svg_markup(&picture->svg, "</svg>\n");
            begin_page(picture, next.page);
        }
        block->draw(subject, block->index, next.y);
        at = (struct position){next.page, next.y + block->height};
    }
}

void sheet_draw(const struct sheet *sheet, struct picture *picture, void *subject) {
    struct position end = end_of(sheet, picture);
    picture->pages = end.page;
    if (picture->paper != NULL) {
        begin_pages(picture);
        begin_page(picture, 1);
    } else {
        begin_single(picture, end.y + PICTURE_MARGIN);
    }
    draw_blocks(sheet, picture, subject);
    svg_markup(&picture->svg, picture->paper != NULL ? "</svg>\n</body>\n</html>\n" : "</svg>\n");
}
