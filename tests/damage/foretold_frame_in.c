/* A frame arrives: its way through the thirteen reasons, and then all that it writes. */
#include "foretold_parts.h"

/* The outcome of a part of the way, beside the reasons 1 to 13: no reason holds, or a field is out of range. */
enum { GOES_ON = 0, MET_DAMAGE = 99 };

enum { OFFERED = 0, ACCEPTED = 14, NOT_LEARNED = 15, QUEUED = 16, FELL_BY_STATE = 17, FELL_BY_SWITCH = 18 };

/* A frame and what was found out about it. Sets of ports are masks. */
struct arrival {
    const uint8_t *frame;
    uint32_t port, length, own, tags;
    uint32_t operation, members, gid;
    uint32_t queue, fell_by_state, fell_by_switch, left;
    bool searched;               /* both searches were made: past reason 9 */
    struct search destination, source;
};

static uint32_t two_bytes(const uint8_t *b) { return 256u * b[0] + b[1]; }

static uint64_t address_at(const uint8_t *b)
{
    uint64_t address = 0;
    for (int i = 0; i < 6; i++)
        address = 256 * address + b[i];
    return address;
}

static bool is_group(const uint8_t *b) { return (b[0] & 1) != 0; }

static bool is_tag(const uint8_t *b) { return two_bytes(b) == 0x8100 || two_bytes(b) == 0x88A8; }

/* Reasons 1 to 3. 1 and 2 come before any byte is read. */
static uint32_t reading(const uint8_t *frame, size_t length)
{
    if (length < 60)
        return 1;
    if (length > 4083)
        return 2;
    return is_group(frame + 6) ? 3 : GOES_ON;
}

static bool is_bpdu(const struct lent *l, const struct arrival *a)
{
    return address_at(a->frame) == 0x0180C2000000u && a->port != MANAGEMENT_PORT && (l->links[MAP_WORD] >> 16 & 1) != 0;
}

/* "A missing tag or VID 0 gives the default VID." Assignment 3 reads as 2. */
static uint32_t assigned_vid(const struct arrival *a)
{
    uint32_t assignment = a->own & 3, default_vid = a->own >> 9, vid = 0;
    if (assignment == 1 && a->tags >= 1)
        vid = two_bytes(a->frame + 14) & 4095;
    if (assignment >= 2 && a->tags == 2)
        vid = two_bytes(a->frame + 18) & 4095;
    return vid == 0 ? default_vid : vid;
}

/* Reasons 4 to 9. */
static uint32_t entering(const struct lent *l, struct arrival *a)
{
    if (!states_in_range(l))
        return MET_DAMAGE;
    if ((a->own >> (2 + a->tags) & 1) != 0)
        return 4;
    uint32_t state = state_bits(l, a->port);
    if (state == 0 || state == 2)
        return state == 0 ? 5 : 6;
    uint32_t vid = assigned_vid(a), v = find_vlan(l, vid);
    if (v == VLANS_DAMAGED)
        return MET_DAMAGE;
    if (v == VLAN_MISSING)
        return vid == 4095 ? 7 : 8;
    uint32_t word = l->links[VLAN_ENTRY + 2 * v];
    a->members = word & 31;
    a->gid = word >> 5 & 15;
    a->operation = l->links[VLAN_ENTRY + 2 * v + 1];
    if (!operation_in_range(a->operation))
        return MET_DAMAGE;
    return (a->members >> a->port & 1) == 0 ? 9 : GOES_ON;
}

/* The tests of each candidate: "one that falls by its state is not asked for its queue". */
static void test_ports(const struct lent *l, struct arrival *a, uint32_t candidates)
{
    uint32_t open = l->links[STATES_WORD] & 31, on = l->links[SWITCHES_WORD] >> 8 * a->queue & 31;
    a->fell_by_state = candidates & ~open;
    a->fell_by_switch = candidates & open & ~on;
    a->left = candidates & open & on;
}

/* Both searches, then reasons 10 and 11. */
static uint32_t choosing(const struct lent *l, struct arrival *a)
{
    a->searched = true;
    if (!is_group(a->frame))
        a->destination = search(l, a->gid, address_at(a->frame));
    a->source = search(l, a->gid, address_at(a->frame + 6));
    if (a->destination.damaged || a->source.damaged || !switches_in_range(l))
        return MET_DAMAGE;
    uint32_t pcp = a->tags > 0 ? a->frame[14] >> 5 : a->own >> 6 & 7;
    uint32_t candidates = a->members;
    if (a->destination.match != NULL)
        candidates &= 1u << (*a->destination.match >> 2 & 7);
    candidates &= ~(1u << a->port);
    if (state_bits(l, a->port) == 4)
        return 10;
    if (candidates == 0)
        return 11;
    a->queue = l->links[MAP_WORD] >> 2 * pcp & 3;
    test_ports(l, a, candidates);
    return GOES_ON;
}

/* A BPDU skips 4 to 11, learning and the departure state. */
static uint32_t choosing_for_bpdu(const struct lent *l, struct arrival *a)
{
    if (!switches_in_range(l))
        return MET_DAMAGE;
    bool on = (l->links[SWITCHES_WORD] >> (8 * 3 + MANAGEMENT_PORT) & 1) != 0;
    a->queue = 3;
    a->operation = NO_TAG_OPERATION;
    *(on ? &a->left : &a->fell_by_switch) = 1u << MANAGEMENT_PORT;
    return GOES_ON;
}

/* Reasons 12 and 13. */
static uint32_t queueing(const struct lent *l, const struct arrival *a)
{
    if (a->left == 0)
        return 12;
    if (l->links[FREE_CELLS] > l->n)
        return MET_DAMAGE;
    if (cells_of(a->length) > l->links[FREE_CELLS])
        return 13;
    if (l->links[FIRST_FREE] >= l->n)
        return MET_DAMAGE;
    for (uint32_t port = 0; port < 5; port++)
        if (port_record(l, port)[WAITING] > 15)
            return MET_DAMAGE;
    return GOES_ON;
}

static uint32_t judge(const struct lent *l, struct arrival *a, size_t length)
{
    uint32_t outcome = reading(a->frame, length);
    if (outcome != GOES_ON)
        return outcome;
    a->own = port_record(l, a->port)[PORT_WORD];
    a->tags = !is_tag(a->frame + 12) ? 0 : !is_tag(a->frame + 16) ? 1 : 2;
    if (!vid_word_in_range(a->own) || !map_in_range(l))
        return MET_DAMAGE;
    if (is_bpdu(l, a)) {
        outcome = choosing_for_bpdu(l, a);
    } else {
        outcome = entering(l, a);
        if (outcome == GOES_ON)
            outcome = choosing(l, a);
    }
    return outcome == GOES_ON ? queueing(l, a) : outcome;
}

/* "header, first 72 bytes, then cell by cell" */
static void store(const struct lent *l, const struct arrival *a, const uint32_t *chain)
{
    uint64_t header = a->length | (uint64_t)(a->own >> 5) << 16 | (uint64_t)a->operation << 32;
    for (uint32_t i = 0; i < STORED_BYTES; i++)
        l->cells[CELL_BYTES * chain[0] + i] = (uint8_t)(header >> 8 * i);
    for (uint32_t i = 0; i < a->length; i++) {
        uint32_t at = STORED_BYTES + i;
        l->cells[CELL_BYTES * chain[at / CELL_BYTES] + at % CELL_BYTES] = a->frame[i];
    }
}

/* Taking the first cells of the free list; the frame's first cell. */
static uint32_t take_cells(const struct lent *l, const struct arrival *a)
{
    uint32_t chain[MOST_SIZE], size = cells_of(a->length);
    follow_chain(l, l->links[FIRST_FREE], size, chain);
    store(l, a, chain);
    l->links[FREE_CELLS] -= size;
    l->links[FIRST_FREE] = cell_record(l, chain[size - 1])[NEXT];
    cell_record(l, chain[0])[FRAME_WORD] = a->left + 32 * size;
    return chain[0];
}

static void join_queue(const struct lent *l, uint32_t cell, uint32_t port, uint32_t queue)
{
    uint32_t *record = port_record(l, port), *youngest = &record[YOUNGEST + 2 * queue];
    if ((record[WAITING] >> queue & 1) == 0)
        record[OLDEST + 2 * queue] = cell;
    else
        cell_record(l, cell_of(l, *youngest))[BEHIND + port] = cell;
    *youngest = cell;
    record[WAITING] |= 1u << queue;
}

static void count_each(const struct lent *l, uint32_t ports, uint32_t number)
{
    for (uint32_t port = 0; port < 5; port++)
        if ((ports >> port & 1) != 0)
            count(l, port, number);
}

static void queue_frame(const struct lent *l, const struct arrival *a)
{
    uint32_t cell = take_cells(l, a);
    for (uint32_t port = 0; port < 5; port++)
        if ((a->left >> port & 1) != 0)
            join_queue(l, cell, port, a->queue);
    count_each(l, a->left, QUEUED);
}

gufhrandi_answer foretell_frame_in(const struct lent *l, uint32_t port, const uint8_t *frame, size_t length)
{
    struct arrival a = {.frame = frame, .port = port, .length = (uint32_t)length};
    uint32_t outcome = judge(l, &a, length);
    if (outcome == MET_DAMAGE)
        return refused(10);
    count(l, port, OFFERED);
    count(l, port, outcome == 0 ? ACCEPTED : outcome);
    mark(&a.destination);
    if (a.searched && !learn(&a.source, port))
        count(l, port, NOT_LEARNED);
    count_each(l, a.fell_by_state, FELL_BY_STATE);
    count_each(l, a.fell_by_switch, FELL_BY_SWITCH);
    if (outcome == 0)
        queue_frame(l, &a);
    return done(outcome, outcome == 0 ? a.left : 0);
}
