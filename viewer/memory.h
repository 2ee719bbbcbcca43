/* Memory, or the end of the program with a message. */
#ifndef VIEWER_MEMORY_H
#define VIEWER_MEMORY_H

#include <stddef.h>

/* Room for `count` elements: cleared, as it comes, or made longer. */
void *take(size_t count, size_t size);
void *take_unset(size_t count, size_t size);
void *take_more(void *old, size_t count, size_t size);

char *copy_text(const char *text);

#endif
