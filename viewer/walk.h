/* Files and folders, each file opened in turn, with progress on a terminal. */
#ifndef VIEWER_WALK_H
#define VIEWER_WALK_H

#include "format.h"

struct walk {
    /* Tells of an open file whether all is well with it; before it prints anything it calls walk_erase_progress. */
    bool (*visit)(struct walk *walk, const struct file *file);
    void *context;       /* what `visit` keeps */
    const char *counted; /* what files are called with which all is not well, as "not whole" */
    uint64_t files;
    uint64_t not_well; /* of these, those that cannot be read among them */
    uint64_t unreadable;
    bool in_folder; /* a folder is being walked */
    bool folders;   /* a folder was given */
    bool terminal;  /* stderr is one, so that a progress line can be shown */
};

/* Walks folders, with all folders in them, in the order of the names. What cannot be read is told to stderr. */
void walk_paths(struct walk *walk, char *const paths[], int count);

/* The exit status of a walk that is done. */
enum status walk_status(const struct walk *walk);

void walk_erase_progress(const struct walk *walk);

bool is_folder(const char *path);

#endif
