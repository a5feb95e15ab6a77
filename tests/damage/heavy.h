/* Heavy damage: whole kinds of fields written at once. */
#ifndef HEAVY_H
#define HEAVY_H

/* Writes some of the kinds in memories of the lengths that the switch's fresh call got; the copies are kept alike. */
void damage_heavily(void);

#endif
