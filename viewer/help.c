#include "help.h"

#include <stdio.h>
#include <string.h>

#define FOR_ALL                                                                                                        \
    "  -h, --help        this help\n"                                                                                  \
    "  -V, --version     which jtview this is\n"

static const char PROGRAM[] = "jtview tells whether sequencing files are whole, and shows what is in them:\n"
                              "ABIF (.ab1, .fsa), SFF (.sff) and GTC (.gtc).\n"
                              "\n"
                              "  jtview FILE-OR-FOLDER...      tells of each file whether it is whole\n"
                              "  jtview list FILE              lists what is in a file\n"
                              "  jtview show FILE TAG NUMBER   shows an item of an ABIF file\n"
                              "  jtview draw FILE              draws a file, for a browser or a printer\n"
                              "  jtview export FILE --fasta    writes letters or numbers for other programs\n"
                              "\n" FOR_ALL "  --                what stands behind it is a file, whatever its name\n"
                              "\n"
                              "'jtview draw --help' tells of drawing, and so on for each command. jtview ends with\n"
                              "status 0 if all is whole, 1 if something is refused or of no format that it knows,\n"
                              "and 2 if something cannot be read, written or understood.\n"
                              "\n"
                              "Example: jtview samples/run.ab1\n";

static const char LIST[] = "jtview list FILE\n"
                           "\n"
                           "Lists what is in a file: the directory of an ABIF file, the reads of an SFF file,\n"
                           "the table of contents of a GTC file; and what is refused, with the reason.\n"
                           "\n" FOR_ALL "\n"
                           "Example: jtview list samples/run.sff\n";

static const char SHOW[] = "jtview show FILE TAG NUMBER\n"
                           "\n"
                           "Shows an item of an ABIF file: its numbers, letters or text. The tag has four letters;\n"
                           "'jtview list FILE' tells which there are. Options stand before FILE.\n"
                           "\n" FOR_ALL "\n"
                           "Example: jtview show samples/run.ab1 PBAS 1\n";

static const char DRAW[] =
    "jtview draw FILE [-o OUT] [--raw] [--read K] [--points N] [--paper A4|Letter] [--landscape]\n"
    "\n"
    "Draws a file: the traces of an ABIF file, a read of an SFF file, the SNPs of a GTC file.\n"
    "A picture that is there already is replaced, and no other file.\n"
    "\n"
    "  -o, --output OUT  where the picture goes, FILE.svg if not given; an OUT that ends in\n"
    "                    .html is made of pages to be printed\n"
    "  --raw             ABIF: the raw channels, as they were measured\n"
    "  --read K          SFF: which read, 1 if not given\n"
    "  --points N        ABIF: how many points a row has, from 50 on; 500 if not given\n"
    "  --paper A4        the paper of the pages, A4 or Letter; A4 if not given\n"
    "  --landscape       pages that are wider than high\n" FOR_ALL "\n"
    "Example: jtview draw samples/run.ab1 -o run.html\n";

static const char EXPORT[] =
    "jtview export FILE --fasta|--fastq|--csv [-o OUT] [--trimmed] [--raw] [--read K] [--refused]\n"
    "\n"
    "Writes what is in a file for other programs, but nothing of a file that is refused.\n"
    "\n"
    "  --fasta           ABIF, SFF: the called letters\n"
    "  --fastq           ABIF, SFF: the called letters and their qualities\n"
    "  --csv             ABIF: the values of the channels; GTC: the SNPs\n"
    "  -o, --output OUT  where it goes, if not to standard output; a file that is there\n"
    "                    already is not replaced\n"
    "  --trimmed         SFF: only the bases that the clips leave\n"
    "  --raw             ABIF: the raw channels, as they were measured\n"
    "  --read K          SFF: one read alone\n"
    "  --refused         what can be read of a refused file, each header saying so\n" FOR_ALL "\n"
    "Example: jtview export samples/run.ab1 --fasta -o run.fasta\n";

static const char CHECK[] =
    "jtview check FILE-OR-FOLDER... [--profile N]\n"
    "\n"
    "Checks the tags of ABIF files against the published table of an instrument and its software:\n"
    "tells each tag that is missing, is of another type or is not in the table. Of more than one\n"
    "file, or of a folder, it prints a table of files with how many findings each has. jtview ends\n"
    "with status 0 if there are none, and 1 if there are some, or a file is refused or no ABIF file.\n"
    "\n"
    "  --profile N       which table, from 1 to 8; if not given, the one that the file's own tags\n"
    "                    speak for, with the reason\n"
    "  --profile list    names the eight, and needs no file\n" FOR_ALL "\n"
    "Example: jtview check samples/run.ab1\n";

void print_help(const char *command) {
    static const struct {
        const char *command;
        const char *text;
    } helps[] = {{"list", LIST}, {"show", SHOW}, {"draw", DRAW}, {"export", EXPORT}, {"check", CHECK}};
    const char *text = PROGRAM;
    for (size_t i = 0; i < sizeof helps / sizeof helps[0]; i++) {
        if (command != NULL && strcmp(command, helps[i].command) == 0) {
            text = helps[i].text;
        }
    }
    fputs(text, stdout);
}

void print_version(void) {
    puts("jtview 1.0");
}
