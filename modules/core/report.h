/* A line of JSON of each disagreement. */
#ifndef REPORT_H
#define REPORT_H

#include "shadow.h"

/* A disagreement: the question, both results, and the messages as a case of the corpus. */
void report_disagreement(struct shadow *shadow, const struct trial *trial, const struct told *told,
                         const struct verdict *verdict);

#endif
