/* A call, and all that has to hold after it. */
#ifndef JUDGE_H
#define JUDGE_H

#include "request.h"

enum property { NO_FAULT, GUARDS_KEPT, REFUSED_KEEPS_ALL, LINE_HOLDS, ANSWER_IN_RANGE, FORETOLD, PROPERTIES };

extern const char *const property_words[PROPERTIES];

/* What the calls of a run came to. */
struct tally {
    unsigned long broken[CALLS][PROPERTIES];
    unsigned long refusals[CALLS][12];   /* 0 to 10, and any other number */
    unsigned long outcomes[14];
    unsigned long calls, damaged_calls, tens_undamaged;
};

extern struct tally tally;

/* Something was written to the switch's memories since its fresh call that no call wrote. */
extern bool damaged;

/* Faults and calls that don't end are caught from now on. */
void catch_faults(void);

/* Makes a call and judges it. A fresh call that is done gives the switch its lengths. */
void make_call(const struct request *);

#endif
