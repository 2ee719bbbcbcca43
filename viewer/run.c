#include "run.h"

#include "words.h"

#include <inttypes.h>
#include <stdio.h>
#include <string.h>

static uint64_t lookup_refusal(const struct file *file, const char *name, int32_t number) {
    return jt_abif_lookup(file->bytes, file->length, tag_name(name), number).refusal;
}

static bool is_missing(const struct file *file, const char *name, int32_t number) {
    return lookup_refusal(file, name, number) == NOT_THERE;
}

/* The series is refused as the bulk call is that asks for its first value. */
static void series_read(struct series *series, const struct file *file, const char *name, int32_t number) {
    int64_t first;
    *series = (struct series){.name = tag_name(name), .number = number};
    snprintf(series->tag, sizeof series->tag, "%s %" PRId32, name, number);
    jt_listed listed = jt_abif_whole_numbers(file->bytes, file->length, series->name, number, 1, &first, 1);
    series->refusal = listed.refusal;
    if (listed.refusal == 0) {
        series->count = jt_abif_lookup(file->bytes, file->length, series->name, number).count;
    }
}

uint64_t series_values(const struct file *file, const struct series *series, uint64_t first, int64_t *values,
                       uint64_t room) {
    if (first >= series->count || room == 0) {
        return 0;
    }
    return jt_abif_whole_numbers(file->bytes, file->length, series->name, series->number, first + 1, values, room)
        .count;
}

void series_visit(const struct file *file, const struct series *series, uint64_t first, uint64_t behind,
                  visit_values *visit, void *context) {
    enum { AT_ONCE = 8192 };
    int64_t values[AT_ONCE];
    while (first < behind) {
        uint64_t left = behind - first;
        uint64_t count = series_values(file, series, first, values, left < AT_ONCE ? left : AT_ONCE);
        if (count == 0) {
            return;
        }
        visit(context, first, values, count);
        first += count;
    }
}

int64_t first_value(const struct file *file, const char *name, int32_t number, int64_t otherwise) {
    int64_t value;
    jt_listed listed = jt_abif_whole_numbers(file->bytes, file->length, tag_name(name), number, 1, &value, 1);
    return listed.refusal == 0 ? value : otherwise;
}

/* The number of dye `dye`'s channel, from one: the fifth and those behind it are numbered apart from the first four. */
static int32_t channel_number(bool raw, int32_t dye) {
    enum { BEFORE_ANALYSED = 8, BEFORE_MORE_RAW = 100, BEFORE_MORE_ANALYSED = 200 };
    if (dye <= BASES) {
        return raw ? dye : BEFORE_ANALYSED + dye;
    }
    return (raw ? BEFORE_MORE_RAW : BEFORE_MORE_ANALYSED) + dye;
}

/* The last dye whose channel stands in the directory, or 0. Where there is no directory nothing stands in it. */
static int last_dye(const struct file *file, bool raw) {
    int last = 0;
    if (jt_abif_open(file->bytes, file->length).refusal != 0) {
        return 0;
    }
    for (int dye = 1; dye <= MOST_CHANNELS; dye++) {
        if (!is_missing(file, "DATA", channel_number(raw, dye))) {
            last = dye;
        }
    }
    return last;
}

static bool lacks_analysed(const struct file *file) {
    return jt_abif_open(file->bytes, file->length).refusal == 0 && last_dye(file, false) == 0;
}

static void read_channels(struct run *run) {
    const struct file *file = run->file;
    series_read(&run->dyes, file, "Dye#", 1);
    int64_t stated = first_value(file, "Dye#", 1, 0);
    run->stated_dyes = stated > 0 ? stated : 0;
    int count = run->stated_dyes == 0              ? BASES
                : run->stated_dyes > MOST_CHANNELS ? MOST_CHANNELS
                                                   : (int)run->stated_dyes;
    int last = last_dye(file, run->raw);
    run->channel_count = last > count ? last : count;
    for (int i = 0; i < run->channel_count; i++) {
        series_read(&run->channels[i], file, "DATA", channel_number(run->raw, i + 1));
    }
}

/* The four letters, each once, in the order of the channels. */
static void read_order(struct run *run) {
    char bases[BASES] = {0};
    int64_t letters[BASES];
    series_read(&run->order, run->file, "FWO_", 1);
    if (run->order.count != BASES || series_values(run->file, &run->order, 0, letters, BASES) != BASES) {
        return;
    }
    for (int i = 0; i < BASES; i++) {
        int64_t letter = letters[i];
        bool base = letter == 'A' || letter == 'C' || letter == 'G' || letter == 'T';
        if (!base || memchr(bases, (int)letter, BASES) != NULL) {
            return;
        }
        bases[i] = (char)letter;
    }
    memcpy(run->bases, bases, sizeof bases);
}

/* The edited letters, or those of the base caller where the file has no edited ones. */
static void read_letters(struct run *run) {
    const struct file *file = run->file;
    int32_t number = is_missing(file, "PBAS", 1) && !is_missing(file, "PBAS", 2) ? 2 : 1;
    series_read(&run->letters, file, "PBAS", number);
    series_read(&run->places, file, "PLOC", number);
    series_read(&run->qualities, file, "PCON", number);
    bool read = run->letters.refusal == 0;
    run->placed = read && run->places.refusal == 0 && run->places.count == run->letters.count;
    run->qualified = read && run->qualities.refusal == 0 && run->qualities.count == run->letters.count;
}

static bool is_fragment(const struct file *file) {
    return is_missing(file, "FWO_", 1) && is_missing(file, "PBAS", 1) && is_missing(file, "PBAS", 2);
}

/* Sequencing files have it in SMPL, files of fragments in SpNm. */
jt_part run_sample_name(const struct file *file) {
    bool fragment = is_fragment(file);
    jt_part name = jt_abif_text(file->bytes, file->length, tag_name(fragment ? "SpNm" : "SMPL"), 1);
    if (name.refusal == 0) {
        return name;
    }
    return jt_abif_text(file->bytes, file->length, tag_name(fragment ? "SMPL" : "SpNm"), 1);
}

void run_read(struct run *run, const struct file *file, bool raw) {
    *run = (struct run){.file = file, .raw = raw || lacks_analysed(file)};
    run->fragment = is_fragment(file);
    read_channels(run);
    read_order(run);
    read_letters(run);
}

int refused_channels(const struct run *run) {
    int refused = 0;
    for (int i = 0; i < run->channel_count; i++) {
        refused += run->channels[i].refusal != 0;
    }
    return refused;
}

bool has_channels(const struct run *run) {
    for (int i = 0; i < run->channel_count; i++) {
        if (run->channels[i].refusal != NOT_THERE) {
            return true;
        }
    }
    return false;
}

/* The bases that a called letter stands for, by the IUPAC codes; all four for N and whatever is no code. */
static const char *bases_of(int64_t letter) {
    static const char *const codes[26] = {
        ['A' - 'A'] = "A",   ['B' - 'A'] = "CGT", ['C' - 'A'] = "C",  ['D' - 'A'] = "AGT", ['G' - 'A'] = "G",
        ['H' - 'A'] = "ACT", ['K' - 'A'] = "GT",  ['M' - 'A'] = "AC", ['R' - 'A'] = "AG",  ['S' - 'A'] = "CG",
        ['T' - 'A'] = "T",   ['V' - 'A'] = "ACG", ['W' - 'A'] = "AT", ['Y' - 'A'] = "CT",
    };
    int64_t upper = letter >= 'a' && letter <= 'z' ? letter - 'a' + 'A' : letter;
    const char *bases = upper >= 'A' && upper <= 'Z' ? codes[upper - 'A'] : NULL;
    return bases != NULL ? bases : "ACGT";
}

uint64_t traced_length(const struct run *run, int64_t letter) {
    const char *bases = bases_of(letter);
    uint64_t length = run->bases[0] != 0 ? UINT64_MAX : 0;
    for (int i = 0; i < BASES; i++) {
        uint64_t count = i < run->channel_count ? run->channels[i].count : 0;
        if (strchr(bases, run->bases[i]) != NULL && count < length) {
            length = count;
        }
    }
    return length;
}

uint64_t run_length(const struct run *run) {
    uint64_t length = 0;
    for (int i = 0; i < run->channel_count; i++) {
        if (run->channels[i].count > length) {
            length = run->channels[i].count;
        }
    }
    return length;
}
