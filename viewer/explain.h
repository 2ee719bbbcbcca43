/* What a verdict means to a student, and what to do next. */
#ifndef VIEWER_EXPLAIN_H
#define VIEWER_EXPLAIN_H

#include "format.h"

enum { HEADLINE_LENGTH = 48, SENTENCES_LENGTH = 1024 };

/* A headline in capitals, "" for a whole file, and sentences, "" where there is nothing to say. */
struct explanation {
    char headline[HEADLINE_LENGTH];
    char sentences[SENTENCES_LENGTH];
};

struct explanation explain(const struct file *file, const struct judgement *judgement);

#endif
