/* The ways of doing wrong: each breaks one property of judge.c. */
#define _GNU_SOURCE
#include "spoil.h"

#include "random.h"

#include <string.h>
#include <unistd.h>

static enum { NOTHING, CONTENTS, GUARD_BEFORE, ANSWER, NUMBER, VALUE, CELL, LINK, ADDRESS, OUT, FAULT, HANG, WAYS } way;

static const char *const names[WAYS] = {"nothing", "contents", "guard", "answer", "number", "value",
                                        "cell", "link", "address", "buffer", "fault", "hang"};

bool choose_spoil(const char *name)
{
    for (way = NOTHING; way < WAYS; way++)
        if (strcmp(names[way], name) == 0)
            return true;
    return false;
}

bool spoils(void) { return way != NOTHING; }

/* One byte that was lent changes by one bit. */
static bool change_a_byte(const struct memory *m, size_t length)
{
    size_t lent = bytes_of(m, length);
    if (lent == 0)
        return false;
    m->end[-1 - (ptrdiff_t)below((uint32_t)lent)] ^= (uint8_t)(1u << below(8));
    return true;
}

/* The memory of CELL, LINK, ADDRESS and OUT, after a call that was done and may write there. */
static bool change_what_was_written(const struct request *r, const gufhrandi_answer *a)
{
    static const int memory_of[WAYS] = {[CELL] = CELLS, [LINK] = LINKS, [ADDRESS] = ADDRESSES, [OUT] = BUFFER};
    int i = memory_of[way];
    return a->refusal == 0 && call_facts[r->call].lending[i] == TO_WRITE && change_a_byte(&memories[i], r->length[i]);
}

bool do_wrong(const struct request *r, gufhrandi_answer *a)
{
    const struct memory *m = &memories[call_facts[r->call].lending[LINKS] ? LINKS : ADDRESSES];
    size_t length = r->length[m - memories];
    switch (way) {
    case CONTENTS: return a->refusal != 0 && change_a_byte(m, length);
    case GUARD_BEFORE:
        if (bytes_of(m, length) + 1 >= m->room)
            return false;
        m->end[-1 - (ptrdiff_t)bytes_of(m, length)] ^= 1;
        return true;
    case ANSWER: a->y += 32; return true;
    case NUMBER:
        if (a->refusal == 0)
            return false;
        a->refusal = a->refusal % 10 + 1;
        return true;
    case VALUE:
        if (a->refusal != 0)
            return false;
        a->x ^= 1;
        return true;
    case CELL: case LINK: case ADDRESS: case OUT: return change_what_was_written(r, a);
    case FAULT: ((volatile uint8_t *)m->end)[0] = 1; return true;
    case HANG:
        alarm(1); /* what judge.c allows would take long */
        for (volatile bool forever = true; forever;)
            continue;
        return true;
    default: return false;
    }
}
