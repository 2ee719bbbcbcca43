#include "memory.h"

#include "format.h"

#include <stdio.h>
#include <stdlib.h>
#include <string.h>

static void *or_end(void *room) {
    if (room == NULL) {
        fputs("jtview: not enough memory\n", stderr);
        exit(STATUS_UNREADABLE);
    }
    return room;
}

void *take(size_t count, size_t size) {
    return or_end(calloc(count > 0 ? count : 1, size));
}

void *take_unset(size_t count, size_t size) {
    return take_more(NULL, count > 0 ? count : 1, size);
}

void *take_more(void *old, size_t count, size_t size) {
    if (size != 0 && count > (size_t)-1 / size) {
        return or_end(NULL);
    }
    return or_end(realloc(old, count * size));
}

char *copy_text(const char *text) {
    size_t room = strlen(text) + 1;
    return memcpy(take(room, 1), text, room);
}
