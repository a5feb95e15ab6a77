/* Lent memories that end exactly at a page that cannot be read, each with a second view that cannot be written. */
#ifndef MEMORY_H
#define MEMORY_H

#include <stdbool.h>
#include <stddef.h>
#include <stdint.h>

enum { CELLS, LINKS, ADDRESSES, FRAME, BUFFER, MEMORIES };

/* What stands before a lent memory, as far as it is looked at after each call. */
enum { GUARD = 256, GUARD_BYTE = 0xA5 };

struct memory {
    const char *name;
    size_t element;              /* bytes of an element */
    size_t most;                 /* elements that it can have */
    size_t length;               /* elements that the switch's fresh call got, or that the last call had */
    size_t room;                 /* bytes of the views, all before `end` */
    uint8_t *end, *fixed_end;    /* of the view that can be written, and of the one that cannot */
    uint8_t *copy_end;           /* of the bytes as they were before the call, and then as they must be after it */
};

extern struct memory memories[MEMORIES];

void make_memories(void);

/* From now on a memory has this length, and guard bytes stand before it. */
void set_length(struct memory *, size_t length);

/* The same for a memory that is lent anew to each call: GUARD guard bytes alone, and every byte of it is `value`. */
void lay_out(struct memory *, size_t length, uint8_t value);

/* Its bytes are any. */
void scramble(struct memory *);

/* The copy is the memory as it is now. */
void remember(struct memory *, size_t length);

/* Every byte before the lent part is as it was: up to GUARD bytes, or with `all` every one. */
bool guard_kept(const struct memory *, size_t lent_length, bool all);

/* Every byte of the lent part is as the copy has it. */
bool as_copied(const struct memory *, size_t lent_length);

static inline size_t bytes_of(const struct memory *m, size_t length) { return length * m->element; }

#endif
