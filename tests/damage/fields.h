/* Damage: values written into the fields of docs/LAYOUT.md. */
#ifndef FIELDS_H
#define FIELDS_H

#include "layout.h"
#include "memory.h"

/* The switch's own memories. */
struct lent own_memories(void);

/* Writes a value into one field of a class chosen at random, in memories of the lengths that the switch's fresh call
 * got; the copies are kept alike. */
void damage_a_field(void);

/* Prints how often each class was written; how many never were. */
int report_fields(void);

#endif
