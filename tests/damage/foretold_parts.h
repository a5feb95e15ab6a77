/* The parts of the foreteller. Each tests all that its call meets before it writes anything, as the layout paper has it. */
#ifndef FORETOLD_PARTS_H
#define FORETOLD_PARTS_H

#include "layout.h"
#include "request.h"

static inline gufhrandi_answer refused(uint32_t refusal) { return (gufhrandi_answer){refusal, 0, 0}; }

static inline gufhrandi_answer done(uint32_t x, uint32_t y) { return (gufhrandi_answer){0, x, y}; }

/* Counters wrap. */
static inline void count(const struct lent *l, uint32_t port, uint32_t number) { port_record(l, port)[number]++; }

gufhrandi_answer foretell_frame_in(const struct lent *, uint32_t port, const uint8_t *frame, size_t length);
gufhrandi_answer foretell_take(const struct lent *, uint32_t port, uint8_t *out);
gufhrandi_answer foretell_drain(const struct lent *, uint32_t port);
gufhrandi_answer foretell_age(const struct lent *);
gufhrandi_answer foretell_port(const struct lent *, const struct request *);
gufhrandi_answer foretell_vlan(const struct lent *, const struct request *);
gufhrandi_answer foretell_clear_vlan(const struct lent *, uint32_t vid);
gufhrandi_answer foretell_static(const struct lent *, uint32_t gid, uint32_t port, uint64_t address);
gufhrandi_answer foretell_remove(const struct lent *, uint32_t gid, uint64_t address);
gufhrandi_answer foretell_map(const struct lent *, uint32_t pcp, uint32_t queue);
gufhrandi_answer foretell_queue_switch(const struct lent *, uint32_t port, uint32_t queue, uint32_t on);
gufhrandi_answer foretell_bpdu(const struct lent *, uint32_t on);

/* The entry of a VID; or else one of these. */
enum { VLAN_MISSING = MOST_VLANS, VLANS_DAMAGED };
uint32_t find_vlan(const struct lent *, uint32_t vid);

/* What a search for an address met. */
struct search {
    uint64_t key;
    uint64_t *match;             /* the first place that has the key, or NULL */
    uint64_t *empty;             /* the first empty place, or NULL */
    bool damaged;                /* the match is out of range */
};
struct search search(const struct lent *, uint32_t gid, uint64_t address);

/* A hit marks the entry as used. */
void mark(const struct search *);

/* False: not learned. */
bool learn(const struct search *, uint32_t port);

/* A frame known by its first cell: what of it is met wherever a copy leaves. */
bool leaving_in_range(const struct lent *, uint32_t cell, uint32_t port);

/* The words that change in its record and on the free list when a copy leaves. */
void leave_cells(const struct lent *, uint32_t cell, uint32_t port);

/* The oldest frame, which is this one, leaves the list of a queue. */
void leave_queue(const struct lent *, uint32_t cell, uint32_t port, uint32_t queue);

/* The bytes that leave: two operations on the tags of a frame that was read. Their number. */
struct stored {
    uint32_t length, default_header, operation;
};
uint32_t write_leaving(const uint8_t *frame, const struct stored *, uint32_t port_operation, uint8_t *out);

#endif
