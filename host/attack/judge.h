/* What must hold of one call's answer and of what it left, as include/nuvaleta.h and docs/PROMISES.md say. */
#ifndef JUDGE_H
#define JUDGE_H

#include "calls.h"

struct asked {
    const struct given *given;
    const void *read[READ_MOST];
    size_t lengths[READ_MOST];
    void *written[WRITTEN_MOST];
    size_t sizes[WRITTEN_MOST]; /* in bytes */
    size_t writes;
    uint32_t *record, *answer;
    uint32_t number; /* what the call returned */
};

/* The answer's length in words. */
size_t judge_words(enum call call);

/* NULL, or what should be zero and is not. */
const char *judge_zeros(const struct asked *asked);
/* NULL, or what else is wrong. */
const char *judge(const struct asked *asked);

#endif
