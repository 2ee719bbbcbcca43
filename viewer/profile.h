/* The profiles: the published tables of tags, counted from one in their order. */
#ifndef VIEWER_PROFILE_H
#define VIEWER_PROFILE_H

enum { PROFILES = 8 };

/* What a file holds: a sequence or fragments. */
enum kind { KIND_UNKNOWN, KIND_AB1, KIND_FSA };

struct profile {
    const char *instrument; /* with its variants, as it is printed */
    const char *model;      /* as files name it */
    const char *software;   /* the version of Data Collection */
    enum kind kind;
};

/* The profile of a number from 1 to PROFILES. */
const struct profile *profile_of(int number);

const char *kind_name(enum kind kind);

/* Prints a profile as in "profile 3, 3130/3130xl, Data Collection v3.0, ab1"; and all of them, as a table. */
void print_profile(int number);
void print_profiles(void);

#endif
