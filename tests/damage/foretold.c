/* What a call answers and writes, by docs/RULES.md and docs/LAYOUT.md: written from those papers and not from the code. Here are
 * refusals 1 to 5, the fresh call and the counter call; the other files have the rest. */
#include "foretold.h"

#include "foretold_parts.h"

#include <string.h>

static size_t link_words(size_t cell_count) { return FIXED_WORDS + CELL_WORDS * cell_count; }

/* The fresh call takes the cell count from the length of cell memory. */
static bool fresh_lengths_fit(const size_t *length)
{
    size_t cell_count = length[CELLS] / CELL_BYTES;
    return length[CELLS] == CELL_BYTES * cell_count && 64 <= cell_count && cell_count <= 2048
        && length[LINKS] == link_words(cell_count) && length[ADDRESSES] == GUFHRANDI_PLACES;
}

/* Of the memories that a call is given: address memory is asked for its length alone, link memory for the length of the
 * count in its word 0, cell memory for that count's length. */
static bool lengths_fit(const struct request *r, const struct lent *l)
{
    const enum lending *lending = call_facts[r->call].lending;
    if (r->call == FRESH)
        return fresh_lengths_fit(r->length);
    if (lending[ADDRESSES] != NOT_LENT && r->length[ADDRESSES] != GUFHRANDI_PLACES)
        return false;
    if (lending[LINKS] == NOT_LENT)
        return true;
    if (r->length[LINKS] == 0 || !within(64, l->links[CELL_COUNT], 2048)
        || r->length[LINKS] != link_words(l->links[CELL_COUNT]))
        return false;
    return lending[CELLS] == NOT_LENT || r->length[CELLS] == CELL_BYTES * (size_t)l->links[CELL_COUNT];
}

static bool has_port(enum call call)
{
    return call == FRAME_IN || call == TAKE || call == COUNTER || call == PORT || call == SET_STATIC || call == QUEUE_SWITCH
        || call == DRAIN;
}

static bool is_vid(uint32_t vid) { return within(1, vid, 4094); }

static bool is_address(const struct request *r) { return r->gid <= 15 && r->address < 1ull << 48; }

/* An operation's fields are checked for each kind, none included: kind, type, sources of VID and PCP, VID, PCP, DEI. */
static bool operation_fits(const uint32_t *o)
{
    return o[0] <= 4 && o[1] <= 1 && o[2] <= 2 && o[3] <= 2 && o[4] <= 4094 && o[5] <= 7 && o[6] <= 1;
}

static bool arguments_fit(const struct request *r)
{
    switch (r->call) {
    case COUNTER: return r->number <= 20;
    case PORT:
        return r->state <= 4 && r->assignment <= 2 && is_vid(r->vid) && r->pcp <= 7 && r->dei <= 1 && r->flags <= 7
            && operation_fits(r->operation);
    case VLAN: return is_vid(r->vid) && r->members <= 31 && r->gid <= 15 && operation_fits(r->operation);
    case CLEAR_VLAN: return is_vid(r->vid);
    case SET_STATIC: case REMOVE: return is_address(r);
    case MAP: return r->pcp <= 7 && r->queue <= 3;
    case QUEUE_SWITCH: return r->queue <= 3 && r->on <= 1;
    case BPDU: return r->on <= 1;
    default: return true;
    }
}

/* "Lowest number wins, whatever the order of the fields" */
static uint32_t early_refusal(const struct request *r, const struct lent *l)
{
    if (!lengths_fit(r, l))
        return 1;
    if (has_port(r->call) && r->port > 4)
        return 2;
    if (!arguments_fit(r))
        return 3;
    if (r->call == SET_STATIC && (r->address >> 40 & 1) != 0)
        return 4;
    if (r->call == TAKE && r->length[BUFFER] < GUFHRANDI_LARGEST)
        return 5;
    return 0;
}

static gufhrandi_answer foretell_fresh(const struct lent *l, uint32_t cell_count)
{
    const struct lent fresh = {l->cells, l->links, l->addresses, cell_count};
    memset(l->links, 0, 4 * link_words(cell_count));
    memset(l->addresses, 0, 8 * GUFHRANDI_PLACES);
    l->links[CELL_COUNT] = cell_count;
    l->links[MAP_WORD] = 0x1FA50;
    l->links[SWITCHES_WORD] = 0x1F1F1F1F;
    l->links[FREE_CELLS] = cell_count;
    l->links[VLANS_IN_USE] = 1;
    l->links[STATES_WORD] = 31;
    l->links[VLAN_ENTRY] = 543;
    l->links[VLAN_ENTRY + 1] = 160;
    for (uint32_t port = 0; port < 5; port++) {
        port_record(&fresh, port)[PORT_WORD] = 513;
        port_record(&fresh, port)[PORT_OPERATION] = 160;
    }
    for (uint32_t cell = 0; cell + 1 < cell_count; cell++)
        cell_record(&fresh, cell)[NEXT] = cell + 1;
    return done(0, 0);
}

static void *copy_of(const struct request *r, int i)
{
    return memories[i].copy_end - bytes_of(&memories[i], r->length[i]);
}

gufhrandi_answer foretell(const struct request *r)
{
    struct lent l = {copy_of(r, CELLS), copy_of(r, LINKS), copy_of(r, ADDRESSES), 0};
    uint32_t refusal = early_refusal(r, &l);
    if (refusal != 0)
        return refused(refusal);
    if (call_facts[r->call].lending[LINKS] != NOT_LENT)
        l.n = l.links[CELL_COUNT];
    switch (r->call) {
    case FRESH: return foretell_fresh(&l, (uint32_t)(r->length[CELLS] / CELL_BYTES));
    case FRAME_IN: return foretell_frame_in(&l, r->port, copy_of(r, FRAME), r->length[FRAME]);
    case TAKE: return foretell_take(&l, r->port, copy_of(r, BUFFER));
    case AGE: return foretell_age(&l);
    case COUNTER: return done(port_record(&l, r->port)[r->number], 0);
    case PORT: return foretell_port(&l, r);
    case VLAN: return foretell_vlan(&l, r);
    case CLEAR_VLAN: return foretell_clear_vlan(&l, r->vid);
    case SET_STATIC: return foretell_static(&l, r->gid, r->port, r->address);
    case REMOVE: return foretell_remove(&l, r->gid, r->address);
    case MAP: return foretell_map(&l, r->pcp, r->queue);
    case QUEUE_SWITCH: return foretell_queue_switch(&l, r->port, r->queue, r->on);
    case DRAIN: return foretell_drain(&l, r->port);
    case BPDU: return foretell_bpdu(&l, r->on);
    default: return refused(99);
    }
}
