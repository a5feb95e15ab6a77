/* What a run says at its end. */
#ifndef REPORT_H
#define REPORT_H

#include <stdbool.h>

/* One thing that has to hold, in two pieces of words. */
void check(bool holds, const char *words, const char *more);

/* Calls, classes of fields, answers, and each property of each call. */
void report(void);

/* The last line; true: nothing failed. */
bool last_line(void);

#endif
