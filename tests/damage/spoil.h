/* Doing wrong on purpose, so that a run can show that it would be seen. */
#ifndef SPOIL_H
#define SPOIL_H

#include "request.h"

/* One of the names in spoil.c; false: there is no such way. */
bool choose_spoil(const char *name);

/* Some way was chosen. */
bool spoils(void);

/* Does wrong after a call, in the chosen way; false: this call gives no occasion. */
bool do_wrong(const struct request *, gufhrandi_answer *);

#endif
