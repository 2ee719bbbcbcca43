/* Which profile a file is taken for where none is given, and why. */
#ifndef VIEWER_GUESS_H
#define VIEWER_GUESS_H

#include "file.h"
#include "jintarueng.h"
#include "profile.h"

#include <stdbool.h>

/* A tag, and what it says in a file: no bytes where it is not there, or no text. */
struct saying {
    const char *name;
    int32_t number;
    const uint8_t *bytes;
    size_t length;
};

struct guess {
    int profile;
    struct saying instrument; /* what names the instrument */
    bool has_table;           /* whether it is one that a table is of */
    const char *software;     /* the version that the tables of one instrument are told apart by, or NULL */
    enum kind kind;
    jt_entry first;   /* the first of the tags that tell the kind */
    uint64_t telling; /* how many of them there are; 0 where it is the file's name that tells it */
    int left;         /* how many profiles all this leaves: if they are more, it is the closest of them */
    uint64_t findings;
};

/* For a whole ABIF file. */
struct guess guess_profile(const struct file *file);

/* Prints the profile and the reasons, as a line. */
void print_guess(const struct file *file, const struct guess *guess);

/* What a table of files says of it: the tag that names the instrument, or that the profile is the closest. */
struct guess_words {
    char text[16];
};

struct guess_words guess_words(const struct guess *guess);

/* Tells that the file's software is of another version than the profile's, if it is. */
void print_other_software(const struct file *file, int profile);

#endif
