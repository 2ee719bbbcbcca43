#include "explain.h"

#include "run.h"
#include "table.h"
#include "text.h"
#include "words.h"

#include <inttypes.h>
#include <stdarg.h>
#include <string.h>

#define COPY "Copy the file again from the instrument."
#define CARE "Copy the file again from the instrument; if it says the same again, ask your teacher."
#define ENDS_IN_ITS_HEADER "this file ends inside its own header, so nothing in it can be found."
#define HEADER_CONTRADICTS "the header contradicts itself, so nothing in this file can be found."

enum { ABIF_HEADER_LENGTH = 128, GTC_HEADER_LENGTH = 8, ITEM_LENGTH = 48 };

/* Adds a sentence, behind a space where it is not the first. */
static void say(struct explanation *explanation, const char *format, ...) {
    size_t used = strlen(explanation->sentences);
    va_list values;
    if (used > 0 && used + 1 < SENTENCES_LENGTH) {
        explanation->sentences[used++] = ' ';
    }
    va_start(values, format);
    vsnprintf(explanation->sentences + used, SENTENCES_LENGTH - used, format, values);
    va_end(values);
}

static void head(struct explanation *explanation, const char *headline) {
    snprintf(explanation->headline, HEADLINE_LENGTH, "%s", headline);
}

/* Names that are told one after the other. */
struct names {
    char list[MOST_CHANNELS][ITEM_LENGTH];
    int count;
};

/* Says of the names what is the matter with them, in the singular or the plural; of none nothing. */
static void say_of(struct explanation *explanation, const struct names *names, const char *one, const char *many) {
    char text[MOST_CHANNELS * ITEM_LENGTH] = "";
    size_t used = 0;
    for (int i = 0; i < names->count; i++) {
        const char *between = i == 0 ? "" : i == names->count - 1 ? " and " : ", ";
        used += (size_t)snprintf(text + used, sizeof text - used, "%s%s", between, names->list[i]);
    }
    if (names->count > 0) {
        say(explanation, names->count == 1 ? one : many, text);
    }
}

static bool is_channel(const struct run *run, const char *item) {
    for (int i = 0; i < run->channel_count; i++) {
        if (strcmp(run->channels[i].tag, item) == 0) {
            return true;
        }
    }
    return false;
}

static bool is_unread(uint64_t refusal) {
    return refusal != 0 && refusal != NOT_THERE;
}

static bool is_missing(uint64_t refusal) {
    return refusal == NOT_THERE;
}

/* The channels whose refusals are of this kind. */
static struct names channels_that(const struct run *run, bool (*is_so)(uint64_t refusal)) {
    struct names names = {.count = 0};
    for (int i = 0; i < run->channel_count; i++) {
        const struct series *channel = &run->channels[i];
        char *name = names.list[names.count];
        if (run->bases[i] != 0) {
            snprintf(name, ITEM_LENGTH, "%c (%s)", run->bases[i], channel->tag);
        } else {
            snprintf(name, ITEM_LENGTH, "%s", channel->tag);
        }
        names.count += is_so(channel->refusal);
    }
    return names;
}

/* What of an ABIF file is there all the same: of its run's channels. */
static void say_channels(struct explanation *explanation, const struct file *file, const jt_verdict *verdict,
                         const char *item) {
    struct run run;
    run_read(&run, file, false);
    struct names unread = channels_that(&run, is_unread);
    struct names missing = channels_that(&run, is_missing);
    if (verdict->refusal == CUT_SHORT && !is_channel(&run, item)) {
        say(explanation, "%s could not be read.", item);
    }
    if (!has_channels(&run)) {
        return;
    }
    if (refused_channels(&run) == 0) {
        say(explanation, "Every channel could be read.");
    }
    say_of(explanation, &unread, "Channel %s could not be read.", "Channels %s could not be read.");
    say_of(explanation, &missing, "Channel %s is not in this file.", "Channels %s are not in this file.");
}

static void name_id(char name[ITEM_LENGTH], uint16_t id) {
    const struct gtc_row *row = gtc_row_of(id);
    snprintf(name, ITEM_LENGTH, "%s (%u)", row != NULL ? row->name : "unknown", id);
}

static bool is_array(const char *item) {
    for (int i = 0; i < SNP_ARRAYS; i++) {
        char name[ITEM_LENGTH];
        name_id(name, SNP_ARRAY_IDS[i]);
        if (strcmp(name, item) == 0) {
            return true;
        }
    }
    return false;
}

/* The arrays that are refused: those that stand in the table of contents, or those that do not. */
static struct names refused_arrays(const struct file *file, bool in_table) {
    struct names names = {.count = 0};
    for (int i = 0; i < SNP_ARRAYS; i++) {
        bool refused = jt_gtc_lookup(file->bytes, file->length, SNP_ARRAY_IDS[i]).refusal != 0;
        name_id(names.list[names.count], SNP_ARRAY_IDS[i]);
        names.count += refused && (gtc_times(file, SNP_ARRAY_IDS[i]) > 0) == in_table;
    }
    return names;
}

/* What of a GTC file is there all the same: of the arrays of its SNPs. */
static void say_arrays(struct explanation *explanation, const struct file *file, const jt_verdict *verdict,
                       const char *item) {
    struct names unread = refused_arrays(file, true);
    struct names missing = refused_arrays(file, false);
    if (verdict->refusal == CUT_SHORT && !is_array(item)) {
        say(explanation, "%s could not be read.", item);
    }
    if (missing.count == SNP_ARRAYS) {
        return;
    }
    if (unread.count + missing.count == 0) {
        say(explanation, "Every array of the SNPs could be read.");
    }
    say_of(explanation, &unread, "%s could not be read.", "%s could not be read.");
    say_of(explanation, &missing, "%s is not in this file.", "%s are not in this file.");
}

/* The entry that judging names, as in "DATA 12" or "Genotypes (1002)". */
static void name_entry(char name[ITEM_LENGTH], const struct file *file, const struct judgement *judgement) {
    uint64_t entry = judgement->verdict.entry;
    if (judgement->format == FORMAT_GTC) {
        name_id(name, gtc_entry_id(file, (uint32_t)entry));
        return;
    }
    jt_entry entries[MOST_ENTRIES];
    jt_listed listed = jt_abif_list(file->bytes, file->length, entries, MOST_ENTRIES);
    if (entry <= listed.count) {
        struct tag_text tag = tag_text(entries[entry - 1].name);
        snprintf(name, ITEM_LENGTH, "%s %" PRId32, tag.text, entries[entry - 1].number);
    }
}

/* What a refusal means for a format that has a table of contents; of both formats where it is given as unknown. */
struct meaning {
    uint64_t refusal;
    bool at_entry;
    enum format format;
    const char *headline;
    const char *sentence; /* with the entry's item in the place of %s */
    const char *advice;
};

static const struct meaning MEANINGS[] = {
    {1, false, FORMAT_UNKNOWN, "NOT COMPLETE",
     "the table of contents is missing, so nothing in this file can be found.", COPY},
    {4, false, FORMAT_UNKNOWN, "DAMAGED", HEADER_CONTRADICTS, COPY},
    {5, false, FORMAT_UNKNOWN, "TOO MANY ENTRIES",
     "the table of contents says that it has more than 999 entries, and no more are read here.", CARE},
    {6, false, FORMAT_UNKNOWN, "DAMAGED",
     "the table of contents cannot stand where the header says, so nothing in this file can be found.", COPY},
    {1, true, FORMAT_UNKNOWN, "NOT COMPLETE",
     "this file is shorter than its own table of contents says, so its end is missing (or the table is damaged).",
     COPY},
    {6, true, FORMAT_UNKNOWN, "CONTRADICTS ITSELF", "%s cannot stand where the table of contents says.", CARE},
    {7, true, FORMAT_UNKNOWN, "CONTRADICTS ITSELF", "%s needs the number of SNPs, which is not in the file.", CARE},
    {8, true, FORMAT_ABIF, "CONTRADICTS ITSELF",
     "%s stands in the table of contents twice, and nobody can say which of the two is right.", CARE},
    {8, true, FORMAT_GTC, "CONTRADICTS ITSELF",
     "%s, or the number of SNPs that it needs, stands in the table of contents twice, and nobody can say which of "
     "the two is right.",
     CARE},
    {9, true, FORMAT_UNKNOWN, "CONTRADICTS ITSELF", "the sizes given for %s do not fit each other.", CARE},
    {10, true, FORMAT_UNKNOWN, "NOT UNDERSTOOD", "%s is of a type that the format does not know.", CARE},
};

static const struct meaning *meaning_of(const struct judgement *judgement) {
    for (size_t i = 0; i < sizeof MEANINGS / sizeof MEANINGS[0]; i++) {
        const struct meaning *meaning = &MEANINGS[i];
        bool fits = meaning->format == FORMAT_UNKNOWN || meaning->format == judgement->format;
        if (fits && meaning->refusal == judgement->verdict.refusal &&
            meaning->at_entry == (judgement->verdict.entry != 0)) {
            return meaning;
        }
    }
    return NULL;
}

static void explain_table(struct explanation *explanation, const struct file *file, const struct judgement *judgement) {
    const jt_verdict *verdict = &judgement->verdict;
    const struct meaning *meaning = meaning_of(judgement);
    bool is_abif = judgement->format == FORMAT_ABIF;
    char item[ITEM_LENGTH] = "";
    if (meaning == NULL) {
        return;
    }
    head(explanation, meaning->headline);
    if (file->length < (is_abif ? ABIF_HEADER_LENGTH : GTC_HEADER_LENGTH)) {
        say(explanation, ENDS_IN_ITS_HEADER);
    } else if (!meaning->at_entry) {
        say(explanation, "%s", meaning->sentence);
    } else {
        name_entry(item, file, judgement);
        say(explanation, meaning->sentence, item);
        (is_abif ? say_channels : say_arrays)(explanation, file, verdict, item);
    }
    say(explanation, "%s", meaning->advice);
}

static void say_reads_before(struct explanation *explanation, uint64_t k) {
    if (k == 1) {
        say(explanation, "No read is there.");
    } else if (k == 2) {
        say(explanation, "Read 1 is there.");
    } else {
        say(explanation, "Reads 1 to %s are there.", with_commas(k - 1).text);
    }
}

static void explain_read(struct explanation *explanation, const jt_verdict *verdict, uint64_t reads) {
    struct grouped k = with_commas(verdict->entry);
    if (verdict->refusal == CUT_SHORT) {
        head(explanation, "NOT COMPLETE");
        say(explanation, "this file ends inside read %s of %s, so its end is missing (or the header is damaged).",
            k.text, with_commas(reads).text);
    } else {
        head(explanation, "CONTRADICTS ITSELF");
        say(explanation,
            "the lengths that read %s gives of itself do not fit each other, so neither it nor the reads behind it can "
            "be found.",
            k.text);
    }
    say_reads_before(explanation, verdict->entry);
    say(explanation, "%s", verdict->refusal == CUT_SHORT ? COPY : CARE);
}

static void explain_sff(struct explanation *explanation, const struct file *file, const jt_verdict *verdict) {
    struct jt_sff_header header = jt_sff_header(file->bytes, file->length);
    if (header.refusal != 0) {
        head(explanation, header.refusal == CUT_SHORT ? "NOT COMPLETE" : "DAMAGED");
        say(explanation, "%s " COPY, header.refusal == CUT_SHORT ? ENDS_IN_ITS_HEADER : HEADER_CONTRADICTS);
    } else if (verdict->entry != 0) {
        explain_read(explanation, verdict, header.reads);
    } else if (verdict->refusal == CUT_SHORT) {
        head(explanation, "NOT COMPLETE");
        say(explanation, "this file ends inside its index, so its end is missing. " COPY);
    } else {
        head(explanation, "CONTRADICTS ITSELF");
        say(explanation, "the index is not where the header says. Every read is there. " CARE);
    }
}

static void explain_unknown(struct explanation *explanation, const struct file *file) {
    if (file->length == 0) {
        head(explanation, "EMPTY");
        say(explanation, "this file has no bytes at all. " COPY);
    } else {
        head(explanation, "NOT A SEQUENCING FILE");
        say(explanation,
            "it does not begin as an ABIF, SFF or GTC file does. Look for the right file, or copy it again "
            "from the instrument.");
    }
}

static void explain_whole(struct explanation *explanation, uint64_t tail) {
    if (tail > 0) {
        say(explanation,
            "whole, %s %s behind the end: nothing of the file is missing, and what lies behind its end is no part of "
            "it.",
            with_commas(tail).text, tail == 1 ? "byte" : "bytes");
    }
}

struct explanation explain(const struct file *file, const struct judgement *judgement) {
    struct explanation explanation = {.headline = "", .sentences = ""};
    const jt_verdict *verdict = &judgement->verdict;
    if (judgement->format == FORMAT_UNKNOWN) {
        explain_unknown(&explanation, file);
    } else if (is_whole(judgement)) {
        explain_whole(&explanation, verdict->tail);
    } else if (verdict->refusal == ANOTHER_VERSION) {
        head(&explanation, "ANOTHER VERSION");
        say(&explanation,
            "this file is written in a version of its format that cannot be read here. Save it again in version %d of "
            "the format, or ask your teacher.",
            judgement->format == FORMAT_GTC ? 5 : 1);
    } else if (judgement->format == FORMAT_SFF) {
        explain_sff(&explanation, file, verdict);
    } else {
        explain_table(&explanation, file, judgement);
    }
    return explanation;
}
