/* What the program prints. */
#ifndef SECOND_OUTPUT_H
#define SECOND_OUTPUT_H

#include "reader.h"

/* A chunk's answer and the segment records after each of its frames. */
struct outcome {
    uint64_t chunk; /* its number */
    struct answer answer;
    struct segment_record steps[MAX_FRAMES][MAX_SEGMENTS];
    struct segment_record carried[MAX_SEGMENTS]; /* the records after the chunk */
};

void print_digest(const struct outcome *outcome);
void print_trace(const struct outcome *outcome);

#endif
