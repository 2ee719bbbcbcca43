#include "options.h"

#include "text.h"
#include "words.h"

#include <errno.h>
#include <getopt.h>
#include <inttypes.h>
#include <string.h>
#include <strings.h>

/* Options have numbers above all letters, so that one that is wrong can be told by how it was written. */
enum { HELP = 256, VERSION, OUTPUT, RAW, READ, POINTS, PAPER, LANDSCAPE, FASTA, FASTQ, CSV, TRIMMED, REFUSED, PROFILE };

enum { LEAST_POINTS = 50, MOST_POINTS = 1000000000 };

#define FOR_ALL                                                                                                        \
    {"help", no_argument, NULL, HELP}, {                                                                               \
        "version", no_argument, NULL, VERSION                                                                          \
    }
#define END                                                                                                            \
    { NULL, 0, NULL, 0 }

/* A number from `lowest` to `highest` and nothing behind it. */
static bool parse_number(const char *text, intmax_t lowest, intmax_t highest, intmax_t *number) {
    char *end = NULL;
    errno = 0;
    *number = strtoimax(text, &end, 10);
    return errno == 0 && end != text && *end == '\0' && *number >= lowest && *number <= highest;
}

/* Tells what is wrong with the command line, with the word at fault or NULL, and where help is to be had. */
static void tell_wrong(const char *command, const char *word, const char *reason) {
    fputs("jtview: ", stderr);
    if (word != NULL) {
        print_string(stderr, word);
        fputs(": ", stderr);
    }
    fprintf(stderr, "%s\njtview %s%s--help tells how it is used\n", reason, command != NULL ? command : "",
            command != NULL ? " " : "");
}

static bool check_show(struct options *options) {
    const char *tag = options->operands[1];
    intmax_t number = 0;
    if (strlen(tag) != sizeof options->tag) {
        tell_wrong("show", tag, "is no tag: these have four letters");
        return false;
    }
    if (!parse_number(options->operands[2], INT32_MIN, INT32_MAX, &number)) {
        tell_wrong("show", options->operands[2], "is no number of a tag");
        return false;
    }
    options->tag = tag_name(tag);
    options->number = (int32_t)number;
    return true;
}

static bool check_export(struct options *options) {
    if (options->kinds != 1) {
        tell_wrong("export", NULL, "just one of --fasta, --fastq and --csv is to be given");
    }
    return options->kinds == 1;
}

/* How a command is used. One whose letters begin with '+' takes options only before its first operand. */
struct syntax {
    const char *command; /* NULL for the program without one */
    const char *letters;
    const struct option *options;
    int operands; /* 0 for any number of them but none */
    const char *operands_wrong;
    bool (*check)(struct options *options); /* NULL where there is nothing to be checked */
};

static const struct option PLAIN_OPTIONS[] = {FOR_ALL, END};

static const struct option DRAW_OPTIONS[] = {
    FOR_ALL,
    {"output", required_argument, NULL, OUTPUT},
    {"raw", no_argument, NULL, RAW},
    {"read", required_argument, NULL, READ},
    {"points", required_argument, NULL, POINTS},
    {"paper", required_argument, NULL, PAPER},
    {"landscape", no_argument, NULL, LANDSCAPE},
    END,
};

static const struct option EXPORT_OPTIONS[] = {
    FOR_ALL,
    {"output", required_argument, NULL, OUTPUT},
    {"fasta", no_argument, NULL, FASTA},
    {"fastq", no_argument, NULL, FASTQ},
    {"csv", no_argument, NULL, CSV},
    {"trimmed", no_argument, NULL, TRIMMED},
    {"raw", no_argument, NULL, RAW},
    {"read", required_argument, NULL, READ},
    {"refused", no_argument, NULL, REFUSED},
    END,
};

static const struct option CHECK_OPTIONS[] = {
    FOR_ALL,
    {"profile", required_argument, NULL, PROFILE},
    END,
};

static const struct syntax SYNTAXES[] = {
    {"list", ":hV", PLAIN_OPTIONS, 1, "list takes one FILE", NULL},
    {"show", "+:hV", PLAIN_OPTIONS, 3, "show takes a FILE, a TAG and its NUMBER", check_show},
    {"draw", ":hVo:", DRAW_OPTIONS, 1, "draw takes one FILE", NULL},
    {"export", ":hVo:", EXPORT_OPTIONS, 1, "export takes one FILE", check_export},
    {"check", ":hV", CHECK_OPTIONS, 0, "no file or folder is named", NULL},
    {NULL, ":hV", PLAIN_OPTIONS, 0, "no file or folder is named", NULL},
};

static const struct syntax *syntax_of(const char *command) {
    const struct syntax *syntax = SYNTAXES;
    while (syntax->command != NULL && (command == NULL || strcmp(syntax->command, command) != 0)) {
        syntax++;
    }
    return syntax;
}

/* The option at fault, as it was written. */
static void tell_wrong_option(const char *command, char *words[], const char *reason) {
    char letter[] = {'-', (char)optopt, '\0'};
    bool is_letter = optopt != 0 && optopt < HELP;
    tell_wrong(command, is_letter ? letter : words[optind - 1], reason);
}

static void set_kind(struct options *options, enum export_kind kind) {
    options->export.kind = kind;
    options->kinds++;
}

/* NULL, or why the option cannot be as it is given; those without a value are set as they are. */
static const char *set_value(struct options *options, int option, const char *value) {
    intmax_t number = 0;
    switch (option) {
    case 'o':
    case OUTPUT:
        options->draw.output = value;
        options->export.output = value;
        return NULL;
    case READ:
        if (!parse_number(value, 0, INTMAX_MAX, &number)) {
            return "is no number of a read";
        }
        options->draw.read = (uint64_t)number;
        options->export.read = (uint64_t)number;
        options->export.one_read = true;
        return NULL;
    case POINTS:
        options->draw.points = parse_number(value, LEAST_POINTS, MOST_POINTS, &number) ? (uint64_t)number : 0;
        return options->draw.points != 0 ? NULL : "is no number of points from 50 to 1000000000";
    case PROFILE:
        options->profile = parse_number(value, 1, PROFILES, &number) ? (int)number : 0;
        return options->profile != 0 ? NULL : "is no profile from 1 to 8; --profile list names them";
    default:
        options->draw.letter_paper = strcasecmp(value, "Letter") == 0;
        return options->draw.letter_paper || strcasecmp(value, "A4") == 0 ? NULL : "is neither A4 nor Letter";
    }
}

static void set_flag(struct options *options, int option) {
    switch (option) {
    case RAW:
        options->draw.raw = true;
        options->export.raw = true;
        break;
    case LANDSCAPE:
        options->draw.landscape = true;
        break;
    case TRIMMED:
        options->export.trimmed = true;
        break;
    case REFUSED:
        options->export.refused = true;
        break;
    case FASTA:
        set_kind(options, EXPORT_FASTA);
        break;
    case FASTQ:
        set_kind(options, EXPORT_FASTQ);
        break;
    default:
        set_kind(options, EXPORT_CSV);
        break;
    }
}

/* What one option asks for; WISH_COMMAND where the next may be read. */
static enum wish take_option(struct options *options, const char *command, char *words[], int option) {
    const char *wrong = NULL;
    switch (option) {
    case 'h':
    case HELP:
        return WISH_HELP;
    case 'V':
    case VERSION:
        return WISH_VERSION;
    case ':':
        tell_wrong_option(command, words, "needs a value behind it");
        return WISH_WRONG;
    case '?':
        tell_wrong_option(command, words,
                          optopt < HELP ? "is no option here, or could be more than one" : "takes no value");
        return WISH_WRONG;
    default:
        break;
    }
    if (option == PROFILE && strcmp(optarg, "list") == 0) {
        return WISH_PROFILES;
    }
    if (optarg == NULL) {
        set_flag(options, option);
    } else {
        wrong = set_value(options, option, optarg);
    }
    if (wrong != NULL) {
        tell_wrong(command, optarg, wrong);
    }
    return wrong == NULL ? WISH_COMMAND : WISH_WRONG;
}

static bool fits(const struct syntax *syntax, struct options *options) {
    int count = options->operand_count;
    if (syntax->operands == 0 ? count == 0 : count != syntax->operands) {
        tell_wrong(syntax->command, NULL, syntax->operands_wrong);
        return false;
    }
    return syntax->check == NULL || syntax->check(options);
}

struct options options_read(const char *command, int count, char *words[]) {
    const struct syntax *syntax = syntax_of(command);
    struct options options = {.draw = {.read = 1, .points = USUAL_POINTS}};
    int option = 0;
    opterr = 0;
    while (option != -1 && options.wish == WISH_COMMAND) {
        option = getopt_long(count, words, syntax->letters, syntax->options, NULL);
        if (option != -1) {
            options.wish = take_option(&options, command, words, option);
        }
    }
    options.operands = words + optind;
    options.operand_count = count - optind;
    if (options.wish == WISH_COMMAND && !fits(syntax, &options)) {
        options.wish = WISH_WRONG;
    }
    return options;
}
