#include "profile.h"

#include <stdio.h>

static const struct profile ALL[PROFILES] = {
    {"3100/3100-Avant", "3100", "2.0", KIND_AB1}, {"3100/3100-Avant", "3100", "2.0", KIND_FSA},
    {"3130/3130xl", "3130", "3.0", KIND_AB1},     {"3130/3130xl", "3130", "3.0", KIND_FSA},
    {"3730/3730xl", "3730", "2.0", KIND_AB1},     {"3730/3730xl", "3730", "2.0", KIND_FSA},
    {"3730/3730xl", "3730", "3.0", KIND_AB1},     {"3730/3730xl", "3730", "3.0", KIND_FSA},
};

const struct profile *profile_of(int number) {
    return &ALL[number - 1];
}

const char *kind_name(enum kind kind) {
    static const char *const names[] = {"unknown", "ab1", "fsa"};
    return names[kind];
}

void print_profile(int number) {
    const struct profile *profile = profile_of(number);
    printf("profile %d, %s, Data Collection v%s, %s", number, profile->instrument, profile->software,
           kind_name(profile->kind));
}

void print_profiles(void) {
    printf("profile  %-15s  %-20s  %s\n", "instrument", "software", "files");
    for (int number = 1; number <= PROFILES; number++) {
        const struct profile *profile = profile_of(number);
        printf("%7d  %-15s  Data Collection v%s  .%s\n", number, profile->instrument, profile->software,
               kind_name(profile->kind));
    }
}
