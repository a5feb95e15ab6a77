/* What docs/RULES.md and docs/LAYOUT.md foretell of a call: its whole answer, and every byte of what was lent to it. */
#ifndef FORETOLD_H
#define FORETOLD_H

#include "request.h"

/* The answer of a call. The copies must hold the memories as they were before it; afterwards they hold them as they must
 * be after it. */
gufhrandi_answer foretell(const struct request *);

#endif
