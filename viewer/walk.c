#include "walk.h"

#include "memory.h"
#include "words.h"

#include <dirent.h>
#include <errno.h>
#include <inttypes.h>
#include <stdlib.h>
#include <string.h>
#include <sys/stat.h>
#include <unistd.h>

static void show_progress(const struct walk *walk) {
    if (walk->terminal && walk->in_folder) {
        fprintf(stderr, "%" PRIu64 " files, %" PRIu64 " %s ...", walk->files, walk->not_well, walk->counted);
        fflush(stderr);
    }
}

void walk_erase_progress(const struct walk *walk) {
    if (walk->terminal && walk->in_folder) {
        fputs("\r\033[K", stderr);
        fflush(stderr);
    }
}

static void report_unreadable(struct walk *walk, const char *path, const char *reason) {
    walk_erase_progress(walk);
    tell_failure(path, reason);
    walk->files++;
    walk->not_well++;
    walk->unreadable++;
    show_progress(walk);
}

static void visit_file(struct walk *walk, const char *path) {
    struct file file;
    const char *reason = file_open(&file, path);
    if (reason != NULL) {
        report_unreadable(walk, path, reason);
        return;
    }
    bool well = walk->visit(walk, &file);
    walk->files++;
    walk->not_well += !well;
    fflush(stdout);
    show_progress(walk);
    file_close(&file);
}

static int by_bytes(const void *left, const void *right) {
    return strcmp(*(char *const *)left, *(char *const *)right);
}

/* NULL at the end, and, with errno, where the folder cannot be read on. */
static struct dirent *next_entry(DIR *folder) {
    errno = 0;
    return readdir(folder);
}

/* The names in a folder, sorted; and NULL, or the reason why it could not be read to its end. */
struct names {
    char **list;
    size_t count;
    size_t room;
    const char *failure;
};

static void add_name(struct names *names, const char *name) {
    if (names->count == names->room) {
        names->room = names->room > 0 ? 2 * names->room : 16;
        names->list = take_more(names->list, names->room, sizeof *names->list);
    }
    names->list[names->count++] = copy_text(name);
}

static struct names names_in(const char *path) {
    struct names names = {0};
    DIR *folder = opendir(path);
    if (folder == NULL) {
        names.failure = strerror(errno);
        return names;
    }
    for (struct dirent *entry = next_entry(folder); entry != NULL; entry = next_entry(folder)) {
        if (strcmp(entry->d_name, ".") != 0 && strcmp(entry->d_name, "..") != 0) {
            add_name(&names, entry->d_name);
        }
    }
    names.failure = errno != 0 ? strerror(errno) : NULL;
    closedir(folder);
    if (names.count > 0) {
        qsort(names.list, names.count, sizeof *names.list, by_bytes);
    }
    return names;
}

static void walk_folder(struct walk *walk, const char *path);

/* A link to a folder is passed over, so that no walk goes in a circle. */
static void visit_entry(struct walk *walk, const char *path) {
    struct stat itself;
    struct stat target;
    if (stat(path, &target) != 0 || lstat(path, &itself) != 0) {
        report_unreadable(walk, path, strerror(errno));
    } else if (!S_ISDIR(target.st_mode)) {
        visit_file(walk, path);
    } else if (!S_ISLNK(itself.st_mode)) {
        walk_folder(walk, path);
    }
}

static char *path_in(const char *folder, const char *name) {
    size_t length = strlen(folder);
    const char *slash = length > 0 && folder[length - 1] == '/' ? "" : "/";
    size_t room = length + strlen(name) + 2;
    char *path = take(room, 1);
    snprintf(path, room, "%s%s%s", folder, slash, name);
    return path;
}

static void walk_folder(struct walk *walk, const char *path) {
    struct names names = names_in(path);
    if (names.failure != NULL) {
        report_unreadable(walk, path, names.failure);
    }
    for (size_t i = 0; i < names.count; i++) {
        char *inside = path_in(path, names.list[i]);
        visit_entry(walk, inside);
        free(inside);
        free(names.list[i]);
    }
    free(names.list);
}

bool is_folder(const char *path) {
    struct stat state;
    return stat(path, &state) == 0 && S_ISDIR(state.st_mode);
}

static void walk_path(struct walk *walk, const char *path) {
    if (!is_folder(path)) {
        visit_file(walk, path);
        return;
    }
    walk->folders = true;
    walk->in_folder = true;
    show_progress(walk);
    walk_folder(walk, path);
    walk_erase_progress(walk);
    walk->in_folder = false;
}

void walk_paths(struct walk *walk, char *const paths[], int count) {
    walk->terminal = isatty(STDERR_FILENO);
    for (int i = 0; i < count; i++) {
        walk_path(walk, paths[i]);
    }
}

enum status walk_status(const struct walk *walk) {
    if (walk->unreadable > 0) {
        return STATUS_UNREADABLE;
    }
    return walk->not_well > 0 ? STATUS_REFUSED : STATUS_WHOLE;
}
