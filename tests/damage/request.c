/* Random calls, with values at the edges of their ranges and beyond, and lengths that no switch has. */
#include "request.h"

#include "random.h"

#include <string.h>

#define REFUSALS_1(a) (1u << (a))
#define REFUSALS_2(a, b) (REFUSALS_1(a) | REFUSALS_1(b))
#define REFUSALS_3(a, b, c) (REFUSALS_2(a, b) | REFUSALS_1(c))
#define REFUSALS_4(a, b, c, d) (REFUSALS_3(a, b, c) | REFUSALS_1(d))

/* The fresh call is documented to write nothing to cell memory, so it gets the view that cannot be written. */
const struct call_facts call_facts[CALLS] = {
    [FRESH] = {"fresh", {TO_READ, TO_WRITE, TO_WRITE, 0, 0}, REFUSALS_1(1)},
    [FRAME_IN] = {"frame-in", {TO_WRITE, TO_WRITE, TO_WRITE, TO_READ, 0}, REFUSALS_3(1, 2, 10)},
    [TAKE] = {"take", {TO_READ, TO_WRITE, 0, 0, TO_WRITE}, REFUSALS_4(1, 2, 5, 10)},
    [AGE] = {"age", {0, 0, TO_WRITE, 0, 0}, REFUSALS_2(1, 10)},
    [COUNTER] = {"counter", {0, TO_READ, 0, 0, 0}, REFUSALS_3(1, 2, 3)},
    [PORT] = {"port", {0, TO_WRITE, 0, 0, 0}, REFUSALS_4(1, 2, 3, 10)},
    [VLAN] = {"VLAN", {0, TO_WRITE, 0, 0, 0}, REFUSALS_4(1, 3, 6, 10)},
    [CLEAR_VLAN] = {"clear VLAN", {0, TO_WRITE, 0, 0, 0}, REFUSALS_4(1, 3, 7, 10)},
    [SET_STATIC] = {"static", {0, 0, TO_WRITE, 0, 0}, REFUSALS_4(1, 2, 3, 4) | REFUSALS_2(8, 10)},
    [REMOVE] = {"remove", {0, 0, TO_WRITE, 0, 0}, REFUSALS_4(1, 3, 9, 10)},
    [MAP] = {"map", {0, TO_WRITE, 0, 0, 0}, REFUSALS_3(1, 3, 10)},
    [QUEUE_SWITCH] = {"queue switch", {0, TO_WRITE, 0, 0, 0}, REFUSALS_4(1, 2, 3, 10)},
    [DRAIN] = {"drain", {0, TO_WRITE, 0, 0, 0}, REFUSALS_3(1, 2, 10)},
    [BPDU] = {"BPDU", {0, TO_WRITE, 0, 0, 0}, REFUSALS_3(1, 3, 10)},
};

/* Mostly low to high, else just outside or far outside. */
static uint32_t around(uint32_t low, uint32_t high)
{
    if (!one_in(30))
        return one_in(6) ? (one_in(2) ? low : high) : low + below(high - low + 1);
    const uint32_t beyond[] = {low - 1, high + 256, 255, 65536 + high, 0x80000000u, 0xFFFFFFFFu, (uint32_t)random_number()};
    return one_in(3) ? high + 1 : beyond[below(sizeof beyond / sizeof *beyond)];
}

uint32_t few_vids(void)
{
    const uint32_t edges[] = {0, 1, 4094, 4095};
    return one_in(8) ? edges[below(4)] : one_in(3) ? 1 : 2 + below(one_in(3) ? 22 : 6);
}

uint64_t few_addresses(void)
{
    if (one_in(40))
        return random_number() >> 16;
    return 0x020000000000u + below(24) * (one_in(4) ? 0x400u : 1u);
}

static uint32_t frame_length(void)
{
    const uint32_t edges[] = {0, 1, 11, 13, 59, 60, 61, 72, 73, 152, 153, 1518, 1592, 1600, 4082, 4083, 4084, 4091, 5000,
                              66000, 70000};
    return one_in(4) ? edges[below(sizeof edges / sizeof *edges)] : 60 + below(one_in(4) ? 2000 : 200);
}

static void put_address(uint8_t *at, uint64_t address)
{
    for (int i = 0; i < 6; i++)
        at[i] = (uint8_t)(address >> (40 - 8 * i));
}

/* A frame at the end of its memory: addresses, none to three tags, random bytes. */
static void write_frame(uint32_t length)
{
    static const uint64_t everybody = 0xFFFFFFFFFFFFu, bridges = 0x0180C2000000u;
    struct memory *m = &memories[FRAME];
    uint8_t head[24];
    lay_out(m, length, (uint8_t)random_number());
    for (int i = 0; i < 24; i++)
        head[i] = (uint8_t)random_number();
    put_address(head, one_in(8) ? everybody : one_in(10) ? bridges : few_addresses());
    put_address(head + 6, one_in(40) ? everybody : few_addresses());
    for (uint32_t tag = 0, tags = below(4); tag < tags; tag++) {
        head[12 + 4 * tag] = one_in(2) ? 0x81 : 0x88;
        head[13 + 4 * tag] = head[12 + 4 * tag] == 0x81 ? 0x00 : 0xA8;
        uint32_t header = below(16) << 12 | (one_in(2) ? below(2) : few_vids());
        head[14 + 4 * tag] = (uint8_t)(header >> 8);
        head[15 + 4 * tag] = (uint8_t)header;
    }
    memcpy(m->end - length, head, length < sizeof head ? length : sizeof head);
    remember(m, length);
}

/* The lengths that the switch has; now and then those of one cell fewer, or one memory gets another. */
static void choose_lengths(struct request *r)
{
    for (int i = 0; i < MEMORIES; i++)
        r->length[i] = memories[i].length;
    if (one_in(50)) {
        r->length[CELLS] -= 80;
        r->length[LINKS] -= 20;
    }
    if (!one_in(r->call == FRESH ? 3 : 16))
        return;
    int i = (int)below(FRAME);
    struct memory *m = &memories[i];
    const size_t others[] = {0, 0, 1, m->length - 1, m->length + 1, m->length / 2, m->length - 20, m->length + 20,
                             m->length - 80, m->length + 80, m->most, below((uint32_t)m->most + 1)};
    size_t length = others[below(sizeof others / sizeof *others)];
    r->length[i] = length > m->most ? m->most : length;
}

struct request random_request(enum call call)
{
    struct request r = {.call = call, .null = one_in(2)};
    choose_lengths(&r);
    r.port = around(0, 4);
    r.number = around(0, 20);
    r.state = one_in(3) ? around(0, 4) : 4 * below(2);
    r.assignment = around(0, 2);
    r.vid = one_in(12) ? around(1, 4094) : call == PORT && one_in(2) ? 1 : call == VLAN && one_in(2) ? 2 + below(22) : few_vids();
    r.pcp = around(0, 7);
    r.dei = around(0, 1);
    r.flags = one_in(4) ? around(0, 7) : 0;
    r.members = one_in(2) ? 31 : around(0, 31);
    r.gid = one_in(2) ? 0 : around(0, 15);
    r.queue = around(0, 3);
    r.on = one_in(2) ? 1 : around(0, 1);
    const uint32_t high[7] = {4, 1, 2, 2, 4094, 7, 1};
    for (int i = 0; i < 7; i++)
        r.operation[i] = around(0, high[i]);
    r.address = one_in(40) ? random_number() : one_in(30) ? few_addresses() | 1ull << 40 : few_addresses();
    if (call == FRESH && one_in(2)) {
        static const uint32_t counts[] = {63, 64, 64, 65, 66, 80, 100, 127, 128, 199, 200, 2049};
        uint32_t cells = one_in(40) ? 2048 : counts[below(sizeof counts / sizeof *counts)];
        r.length[CELLS] = 80 * cells;
        r.length[LINKS] = 1024 + 20 * cells;
        r.length[ADDRESSES] = GUFHRANDI_PLACES;
    }
    if (call == FRAME_IN) {
        r.length[FRAME] = frame_length();
        write_frame((uint32_t)r.length[FRAME]);
    }
    if (call == TAKE) {
        const uint32_t small[] = {0, 1, 60, 4090};
        r.length[BUFFER] = one_in(12) ? small[below(4)] : GUFHRANDI_LARGEST + (one_in(2) ? 0 : below(1000));
        lay_out(&memories[BUFFER], r.length[BUFFER], 0x5A);
    }
    return r;
}

static void *lent(const struct request *r, int i)
{
    const struct memory *m = &memories[i];
    if (r->length[i] == 0 && r->null)
        return NULL;
    uint8_t *end = call_facts[r->call].lending[i] == TO_WRITE ? m->end : m->fixed_end;
    return end - bytes_of(m, r->length[i]);
}

gufhrandi_answer perform(const struct request *r)
{
#define MEMORY(i) lent(r, i), r->length[i]
#define OPERATION \
    r->operation[0], r->operation[1], r->operation[2], r->operation[3], r->operation[4], r->operation[5], r->operation[6]
    switch (r->call) {
    case FRESH: return gufhrandi_fresh(MEMORY(CELLS), MEMORY(LINKS), MEMORY(ADDRESSES));
    case FRAME_IN:
        return gufhrandi_frame_in(MEMORY(CELLS), MEMORY(LINKS), MEMORY(ADDRESSES), r->port, MEMORY(FRAME));
    case TAKE: return gufhrandi_take(MEMORY(CELLS), MEMORY(LINKS), r->port, MEMORY(BUFFER));
    case AGE: return gufhrandi_age(MEMORY(ADDRESSES));
    case COUNTER: return gufhrandi_counter(MEMORY(LINKS), r->port, r->number);
    case PORT:
        return gufhrandi_port(MEMORY(LINKS), r->port, r->state, r->assignment, r->vid, r->pcp, r->dei, r->flags,
                              OPERATION);
    case VLAN: return gufhrandi_vlan(MEMORY(LINKS), r->vid, r->members, r->gid, OPERATION);
    case CLEAR_VLAN: return gufhrandi_clear_vlan(MEMORY(LINKS), r->vid);
    case SET_STATIC: return gufhrandi_set_static(MEMORY(ADDRESSES), r->gid, r->port, r->address);
    case REMOVE: return gufhrandi_remove(MEMORY(ADDRESSES), r->gid, r->address);
    case MAP: return gufhrandi_map(MEMORY(LINKS), r->pcp, r->queue);
    case QUEUE_SWITCH: return gufhrandi_queue_switch(MEMORY(LINKS), r->port, r->queue, r->on);
    case DRAIN: return gufhrandi_drain(MEMORY(LINKS), r->port);
    case BPDU: return gufhrandi_bpdu(MEMORY(LINKS), r->on);
    default: return (gufhrandi_answer){99, 0, 0};
    }
#undef MEMORY
#undef OPERATION
}
