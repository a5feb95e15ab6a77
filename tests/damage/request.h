/* A call of include/gufhrandi.h with its arguments. */
#ifndef REQUEST_H
#define REQUEST_H

#include "memory.h"

#include <gufhrandi.h>

enum call {
    FRESH, FRAME_IN, TAKE, AGE, COUNTER, PORT, VLAN, CLEAR_VLAN, SET_STATIC, REMOVE, MAP, QUEUE_SWITCH, DRAIN, BPDU,
    CALLS
};

/* Whether a call gets a memory, and whether it may write there. */
enum lending { NOT_LENT, TO_READ, TO_WRITE };

struct call_facts {
    const char *name;
    enum lending lending[MEMORIES];
    uint32_t refusals;           /* bit r: the call can be refused with r */
};

extern const struct call_facts call_facts[CALLS];

/* An operation's seven numbers stand in the header's order. */
struct request {
    enum call call;
    size_t length[MEMORIES];     /* elements lent */
    bool null;                   /* a memory of length 0 is lent as NULL */
    uint32_t port, number, state, assignment, vid, pcp, dei, flags, members, gid, queue, on, operation[7];
    uint64_t address;
};

/* Addresses and VIDs are taken from few, so that calls meet what others wrote. */
uint64_t few_addresses(void);
uint32_t few_vids(void);

/* A random call for memories of their switch's lengths; most arguments are in range. */
struct request random_request(enum call);

gufhrandi_answer perform(const struct request *);

#endif
