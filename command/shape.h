/* A fault of shape in words: where in the line it stands, what was found, and what would be right. */
#ifndef SHAPE_H
#define SHAPE_H

#include "bytes.h"
#include "text.h"
#include "tuulveski.h"

struct fault {
    size_t column; /* in bytes, from 1 */
    struct text message;
};

/* For an answer SHAPE of this file. */
void explain_shape(const struct bytes *file, const tuulveski_answer *answer, struct fault *fault);

#endif
